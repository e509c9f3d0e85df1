//! One record of a text: its name, the number of its fields, their ranges.

use crate::piece::{has_own_name, Division, Format, Kind, Mode, TextKind, Time};
use crate::refusal::Number;
use crate::text_field::{unescape, Field, Fields};
use crate::write_text::mode_word;

/// What a record says besides its Track and Time.
#[derive(Clone, Debug, PartialEq, Eq)]
pub enum Body {
    Header { format: Format, tracks: usize, division: Division },
    StartTrack,
    Event(Kind),
    EndOfFile,
}

#[derive(Clone, Debug, PartialEq, Eq)]
pub struct Record {
    pub track: usize,
    pub time: Time,
    pub body: Body,
}

#[derive(Clone, Copy, Debug, PartialEq, Eq)]
enum Name {
    Header,
    StartTrack,
    EndTrack,
    EndOfFile,
    NoteOff,
    NoteOn,
    PolyAftertouch,
    Control,
    Program,
    ChannelAftertouch,
    PitchBend,
    SystemExclusive,
    SystemExclusivePacket,
    SequenceNumber,
    Text(TextKind),
    ChannelPrefix,
    MidiPort,
    Tempo,
    SmpteOffset,
    TimeSignature,
    KeySignature,
    SequencerSpecific,
    UnknownMeta,
}

const NAMES: [(&str, Name); 29] = [
    ("Header", Name::Header),
    ("Start_track", Name::StartTrack),
    ("End_track", Name::EndTrack),
    ("End_of_file", Name::EndOfFile),
    ("Note_off_c", Name::NoteOff),
    ("Note_on_c", Name::NoteOn),
    ("Poly_aftertouch_c", Name::PolyAftertouch),
    ("Control_c", Name::Control),
    ("Program_c", Name::Program),
    ("Channel_aftertouch_c", Name::ChannelAftertouch),
    ("Pitch_bend_c", Name::PitchBend),
    ("System_exclusive", Name::SystemExclusive),
    ("System_exclusive_packet", Name::SystemExclusivePacket),
    ("Sequence_number", Name::SequenceNumber),
    ("Text_t", Name::Text(TextKind::Text)),
    ("Copyright_t", Name::Text(TextKind::Copyright)),
    ("Title_t", Name::Text(TextKind::Title)),
    ("Instrument_name_t", Name::Text(TextKind::InstrumentName)),
    ("Lyric_t", Name::Text(TextKind::Lyric)),
    ("Marker_t", Name::Text(TextKind::Marker)),
    ("Cue_point_t", Name::Text(TextKind::CuePoint)),
    ("Channel_prefix", Name::ChannelPrefix),
    ("MIDI_port", Name::MidiPort),
    ("Tempo", Name::Tempo),
    ("SMPTE_offset", Name::SmpteOffset),
    ("Time_signature", Name::TimeSignature),
    ("Key_signature", Name::KeySignature),
    ("Sequencer_specific", Name::SequencerSpecific),
    ("Unknown_meta_event", Name::UnknownMeta),
];

impl Name {
    fn of(field: Field) -> Option<Name> {
        let Field::Name(word) = field else { return None };
        let listed = NAMES.iter().find(|(name, _)| name.as_bytes().eq_ignore_ascii_case(word));
        listed.map(|(_, name)| *name)
    }

    /// How many fields the record has, or up to its Length if it has one.
    fn fields(self) -> usize {
        match self {
            Name::StartTrack | Name::EndTrack | Name::EndOfFile => 3,
            Name::SequenceNumber | Name::Text(_) | Name::Tempo => 4,
            Name::ChannelPrefix | Name::MidiPort => 4,
            Name::SystemExclusive | Name::SystemExclusivePacket | Name::SequencerSpecific => 4,
            Name::Program | Name::ChannelAftertouch | Name::PitchBend => 5,
            Name::KeySignature | Name::UnknownMeta => 5,
            Name::Header => 6,
            Name::NoteOff | Name::NoteOn | Name::PolyAftertouch | Name::Control => 6,
            Name::TimeSignature => 7,
            Name::SmpteOffset => 8,
        }
    }

    fn has_length(self) -> bool {
        matches!(
            self,
            Name::SystemExclusive
                | Name::SystemExclusivePacket
                | Name::SequencerSpecific
                | Name::UnknownMeta
        )
    }
}

/// No record without a Length has more fields than this.
const HEAD: usize = 8;

/// Reads the record of a line, in the order of tests 22, 24, 23, 24, 25.
pub fn read_record(line: &[u8]) -> Result<Record, Number> {
    let mut head = Vec::with_capacity(HEAD);
    let mut count = 0;
    for field in Fields::of(line) {
        let field = field.ok_or(Number::FieldShape)?;
        if count < HEAD {
            head.push(field);
        }
        count += 1;
    }
    if count < 3 {
        return Err(Number::FieldCount);
    }
    let name = Name::of(head[2]).ok_or(Number::Name)?;
    check_count(name, &head, count)?;
    read_fields(name, &head, line).ok_or(Number::FieldRange)
}

fn check_count(name: Name, head: &[Field], count: usize) -> Result<(), Number> {
    let due = name.fields();
    if !name.has_length() {
        return if count == due { Ok(()) } else { Err(Number::FieldCount) };
    }
    if count < due {
        return Err(Number::FieldCount);
    }
    let length = within(head[due - 1], 0, i64::from(u32::MAX)).ok_or(Number::FieldRange)?;
    if (count - due) as i64 == length {
        Ok(())
    } else {
        Err(Number::FieldCount)
    }
}

/// The record, or nothing if a field is of wrong shape or out of its range.
fn read_fields(name: Name, head: &[Field], line: &[u8]) -> Option<Record> {
    let track = within(head[0], 0, 65_535)? as usize;
    let time = Time(within(head[1], 0, i64::from(u32::MAX))? as u32);
    let fields = &head[3..];
    let body = match name {
        Name::Header => header(fields)?,
        Name::StartTrack => Body::StartTrack,
        Name::EndOfFile => Body::EndOfFile,
        _ if name.has_length() => Body::Event(data_event(name, fields, line)?),
        _ => Body::Event(event(name, fields)?),
    };
    Some(Record { track, time, body })
}

fn within(field: Field, least: i64, greatest: i64) -> Option<i64> {
    match field {
        Field::Number(number) if (least..=greatest).contains(&number) => Some(number),
        _ => None,
    }
}

fn up_to(field: Field, greatest: i64) -> Option<u8> {
    within(field, 0, greatest.min(255)).map(|number| number as u8)
}

fn header(fields: &[Field]) -> Option<Body> {
    let format = Format::from_number(within(fields[0], 0, 2)? as u32)?;
    let tracks = within(fields[1], 1, 65_535)? as usize;
    let signed = within(fields[2], i64::from(i16::MIN), i64::from(i16::MAX))?;
    let division = Division::from_signed(signed as i16)?;
    format.permits_tracks(tracks).then_some(Body::Header { format, tracks, division })
}

/// An event whose record has no Length.
fn event(name: Name, fields: &[Field]) -> Option<Kind> {
    Some(match name {
        Name::EndTrack => Kind::EndTrack,
        Name::SequenceNumber => Kind::SequenceNumber(within(fields[0], 0, 65_535)? as u16),
        Name::Text(text) => Kind::Text(text, quoted(fields[0])?),
        Name::ChannelPrefix => Kind::ChannelPrefix(up_to(fields[0], 255)?),
        Name::MidiPort => Kind::MidiPort(up_to(fields[0], 255)?),
        Name::Tempo => Kind::Tempo(within(fields[0], 1, 16_777_215)? as u32),
        Name::SmpteOffset => {
            let mut numbers = [0; 5];
            for (index, number) in numbers.iter_mut().enumerate() {
                *number = up_to(fields[index], if index == 4 { 99 } else { 255 })?;
            }
            Kind::SmpteOffset(numbers)
        }
        Name::TimeSignature => {
            let mut numbers = [0; 4];
            for (index, number) in numbers.iter_mut().enumerate() {
                *number = up_to(fields[index], 255)?;
            }
            Kind::TimeSignature(numbers)
        }
        Name::KeySignature => {
            Kind::KeySignature { key: within(fields[0], -7, 7)? as i8, mode: mode(fields[1])? }
        }
        _ => channel_event(name, fields)?,
    })
}

fn channel_event(name: Name, fields: &[Field]) -> Option<Kind> {
    let channel = up_to(fields[0], 15)?;
    if name == Name::PitchBend {
        return Some(Kind::PitchBend { channel, value: within(fields[1], 0, 16_383)? as u16 });
    }
    let first = up_to(fields[1], 127)?;
    match name {
        Name::Program => return Some(Kind::Program { channel, program: first }),
        Name::ChannelAftertouch => return Some(Kind::ChannelAftertouch { channel, value: first }),
        _ => {}
    }
    let second = up_to(fields[2], 127)?;
    Some(match name {
        Name::NoteOff => Kind::NoteOff { channel, key: first, velocity: second },
        Name::NoteOn => Kind::NoteOn { channel, key: first, velocity: second },
        Name::PolyAftertouch => Kind::PolyAftertouch { channel, key: first, value: second },
        _ => Kind::Control { channel, control: first, value: second },
    })
}

/// An event whose record has a Length, which the count of fields bears out.
fn data_event(name: Name, fields: &[Field], line: &[u8]) -> Option<Kind> {
    let mut data = Vec::new();
    // A second pass over the line: storing every field would take too much.
    for field in Fields::of(line).skip(name.fields()) {
        data.push(up_to(field?, 255)?);
    }
    Some(match name {
        Name::SystemExclusive => Kind::SystemExclusive(data),
        Name::SystemExclusivePacket => Kind::SystemExclusivePacket(data),
        Name::SequencerSpecific => Kind::SequencerSpecific(data),
        _ => {
            let meta_type = up_to(fields[0], 127)?;
            if has_own_name(meta_type) {
                return None;
            }
            Kind::UnknownMeta { meta_type, data }
        }
    })
}

fn quoted(field: Field) -> Option<Vec<u8>> {
    match field {
        Field::Quoted(inside) => Some(unescape(inside)),
        _ => None,
    }
}

fn mode(field: Field) -> Option<Mode> {
    let word = quoted(field)?;
    [Mode::Major, Mode::Minor].into_iter().find(|mode| mode_word(*mode) == word)
}
