//! Texts as lines of fields, and two ways to spell them: plain, as document
//! 01 writes, and varied, as it permits readers to meet them.

use crate::piece::{Event, Kind, Mode, Piece};

use super::Rng;

#[derive(Clone, Debug)]
pub enum Field {
    Number(i64),
    Name(&'static str),
    Quoted(Vec<u8>),
    /// Spelled as it stands, whatever it is.
    Raw(Vec<u8>),
}

pub type Line = Vec<Field>;

/// The text of `piece` as document 01 writes it (by other code than
/// `write_text`, so that the two can be held against each other).
pub fn plain_text(piece: &Piece) -> Vec<u8> {
    plain(&lines_of(piece))
}

/// A text of `piece` with blanks, comments, cases, zeros and escapes varied.
pub fn varied_text(rng: &mut Rng, piece: &Piece) -> Vec<u8> {
    varied(rng, &lines_of(piece))
}

pub fn lines_of(piece: &Piece) -> Vec<Line> {
    let tracks = piece.tracks.len();
    let header = [piece.format.number() as i64, tracks as i64, piece.division.signed() as i64];
    let mut lines = vec![line(0, 0, "Header", &header)];
    for (index, track) in piece.tracks.iter().enumerate() {
        lines.push(line(index + 1, 0, "Start_track", &[]));
        lines.extend(track.events.iter().map(|event| event_line(index + 1, event)));
    }
    lines.push(line(0, 0, "End_of_file", &[]));
    lines
}

fn line(track: usize, time: u32, name: &'static str, numbers: &[i64]) -> Line {
    let mut line = vec![Field::Number(track as i64), Field::Number(time.into()), Field::Name(name)];
    line.extend(numbers.iter().map(|number| Field::Number(*number)));
    line
}

fn event_line(track: usize, event: &Event) -> Line {
    let (name, fields) = match &event.kind {
        Kind::SystemExclusive(data) => ("System_exclusive", counted(data)),
        Kind::SystemExclusivePacket(data) => ("System_exclusive_packet", counted(data)),
        Kind::SequenceNumber(number) => ("Sequence_number", vec![Field::Number((*number).into())]),
        Kind::Text(kind, data) => {
            (TEXTS[usize::from(kind.meta_type()) - 1], vec![Field::Quoted(data.clone())])
        }
        Kind::ChannelPrefix(number) => ("Channel_prefix", bytes(&[*number])),
        Kind::MidiPort(number) => ("MIDI_port", bytes(&[*number])),
        Kind::EndTrack => ("End_track", Vec::new()),
        Kind::Tempo(tempo) => ("Tempo", vec![Field::Number((*tempo).into())]),
        Kind::SmpteOffset(numbers) => ("SMPTE_offset", bytes(numbers)),
        Kind::TimeSignature(numbers) => ("Time_signature", bytes(numbers)),
        Kind::KeySignature { key, mode } => {
            let word: &[u8] = if *mode == Mode::Major { b"major" } else { b"minor" };
            let fields = vec![Field::Number((*key).into()), Field::Quoted(word.to_vec())];
            ("Key_signature", fields)
        }
        Kind::SequencerSpecific(data) => ("Sequencer_specific", counted(data)),
        Kind::UnknownMeta { meta_type, data } => {
            ("Unknown_meta_event", [bytes(&[*meta_type]), counted(data)].concat())
        }
        channel => channel_fields(channel),
    };
    [line(track, event.time.0, name, &[]), fields].concat()
}

const TEXTS: [&str; 7] =
    ["Text_t", "Copyright_t", "Title_t", "Instrument_name_t", "Lyric_t", "Marker_t", "Cue_point_t"];

fn channel_fields(kind: &Kind) -> (&'static str, Vec<Field>) {
    match *kind {
        Kind::NoteOff { channel, key, velocity } => {
            ("Note_off_c", bytes(&[channel, key, velocity]))
        }
        Kind::NoteOn { channel, key, velocity } => ("Note_on_c", bytes(&[channel, key, velocity])),
        Kind::PolyAftertouch { channel, key, value } => {
            ("Poly_aftertouch_c", bytes(&[channel, key, value]))
        }
        Kind::Control { channel, control, value } => {
            ("Control_c", bytes(&[channel, control, value]))
        }
        Kind::Program { channel, program } => ("Program_c", bytes(&[channel, program])),
        Kind::ChannelAftertouch { channel, value } => {
            ("Channel_aftertouch_c", bytes(&[channel, value]))
        }
        Kind::PitchBend { channel, value } => {
            ("Pitch_bend_c", [bytes(&[channel]), vec![Field::Number(value.into())]].concat())
        }
        _ => unreachable!("every other kind has its line"),
    }
}

fn bytes(bytes: &[u8]) -> Vec<Field> {
    bytes.iter().map(|byte| Field::Number((*byte).into())).collect()
}

/// Length, then the data.
fn counted(data: &[u8]) -> Vec<Field> {
    [vec![Field::Number(data.len() as i64)], bytes(data)].concat()
}

pub fn plain(lines: &[Line]) -> Vec<u8> {
    let mut text = Vec::new();
    for line in lines {
        for (index, field) in line.iter().enumerate() {
            if index > 0 {
                text.extend(b", ");
            }
            plain_field(field, &mut text);
        }
        text.push(b'\n');
    }
    text
}

fn plain_field(field: &Field, text: &mut Vec<u8>) {
    match field {
        Field::Number(number) => text.extend(number.to_string().bytes()),
        Field::Name(name) => text.extend(name.bytes()),
        Field::Raw(bytes) => text.extend(bytes),
        Field::Quoted(data) => {
            text.push(b'"');
            for byte in data {
                if *byte == b'"' || *byte == b'\\' {
                    text.extend([*byte, *byte]);
                } else if *byte < 32 || (127..=160).contains(byte) {
                    text.extend(octal(*byte));
                } else {
                    text.push(*byte);
                }
            }
            text.push(b'"');
        }
    }
}

fn octal(byte: u8) -> [u8; 4] {
    [b'\\', b'0' + (byte >> 6), b'0' + (byte >> 3 & 7), b'0' + (byte & 7)]
}

/// How loosely one text is spelled, so that not all looseness is in each.
#[derive(Clone, Copy)]
pub struct Looseness {
    /// Those that stand round fields.
    pub blanks: &'static [u8],
    /// Lines that hold no record.
    pub passed_over: &'static [&'static [u8]],
    pub cases: bool,
    pub zeros: bool,
    pub escapes: bool,
    pub ends: Ends,
}

#[derive(Clone, Copy, PartialEq, Eq)]
pub enum Ends {
    Lf,
    CrLf,
    Mixed,
}

impl Looseness {
    pub const NONE: Looseness = Looseness {
        blanks: b"",
        passed_over: &[],
        cases: false,
        zeros: false,
        escapes: false,
        ends: Ends::Lf,
    };

    fn any(rng: &mut Rng) -> Looseness {
        Looseness {
            blanks: if rng.one_in(2) { BLANKS } else { b"" },
            passed_over: if rng.one_in(3) { &PASSED_OVER } else { &[] },
            cases: rng.one_in(2),
            zeros: rng.one_in(3),
            escapes: rng.one_in(2),
            ends: rng.pick(&[Ends::Lf, Ends::Lf, Ends::CrLf, Ends::Mixed]),
        }
    }
}

const BLANKS: &[u8] = b"  \t";
const PASSED_OVER: [&[u8]; 7] =
    [b"", b"# one", b"; \"two, 3", b" \t", b"\t#\xFF\0", b"  ;0, 0, End_of_file", b"#\r"];

pub fn varied(rng: &mut Rng, lines: &[Line]) -> Vec<u8> {
    varied_at(rng, lines).0
}

/// A varied text, and the number in it of each of the lines.
pub fn varied_at(rng: &mut Rng, lines: &[Line]) -> (Vec<u8>, Vec<usize>) {
    let loose = Looseness::any(rng);
    let (mut text, numbers) = loosely(rng, &loose, lines);
    // Leave the last line's end off, or all of it but a CR.
    if rng.one_in(4) {
        text.pop();
    }
    (text, numbers)
}

/// A text as loose as this, and the number in it of each of the lines.
pub fn loosely(rng: &mut Rng, loose: &Looseness, lines: &[Line]) -> (Vec<u8>, Vec<usize>) {
    let (mut text, mut numbers, mut number) = (Vec::new(), Vec::new(), 1);
    for line in lines {
        if !loose.passed_over.is_empty() && rng.one_in(3) {
            comment(rng, loose, &mut text);
            number += 1;
        }
        for (index, field) in line.iter().enumerate() {
            if index > 0 {
                text.push(b',');
            }
            blanks(rng, loose, &mut text);
            varied_field(rng, loose, field, &mut text);
            blanks(rng, loose, &mut text);
        }
        line_end(rng, loose, &mut text);
        numbers.push(number);
        number += 1;
    }
    if !loose.passed_over.is_empty() {
        comment(rng, loose, &mut text);
    }
    (text, numbers)
}

fn line_end(rng: &mut Rng, loose: &Looseness, text: &mut Vec<u8>) {
    if loose.ends == Ends::CrLf || loose.ends == Ends::Mixed && rng.one_in(2) {
        text.push(b'\r');
    }
    text.push(b'\n');
}

fn comment(rng: &mut Rng, loose: &Looseness, text: &mut Vec<u8>) {
    text.extend(rng.pick(loose.passed_over));
    line_end(rng, loose, text);
}

fn blanks(rng: &mut Rng, loose: &Looseness, text: &mut Vec<u8>) {
    if !loose.blanks.is_empty() {
        for _ in 0..rng.below(3) {
            text.push(rng.pick(loose.blanks));
        }
    }
}

fn varied_field(rng: &mut Rng, loose: &Looseness, field: &Field, text: &mut Vec<u8>) {
    match field {
        Field::Number(number) if loose.zeros => {
            let digits = number.unsigned_abs().to_string();
            if *number < 0 || *number == 0 && rng.one_in(4) {
                text.push(b'-');
            }
            let most = 10_usize.saturating_sub(digits.len());
            let zeros = rng.pick(&[0, 0, 1, most]);
            text.extend(vec![b'0'; zeros.min(most)]);
            text.extend(digits.bytes());
        }
        Field::Name(name) if loose.cases => {
            for letter in name.bytes() {
                text.push(match rng.below(3) {
                    0 => letter.to_ascii_uppercase(),
                    1 => letter.to_ascii_lowercase(),
                    _ => letter,
                });
            }
        }
        Field::Quoted(data) if loose.escapes => {
            text.push(b'"');
            for byte in data {
                varied_byte(rng, *byte, text);
            }
            text.push(b'"');
        }
        _ => plain_field(field, text),
    }
}

/// A byte of a quoted text, escaped where it must be and where it need not.
fn varied_byte(rng: &mut Rng, byte: u8, text: &mut Vec<u8>) {
    match byte {
        b'\r' | b'\n' => text.extend(octal(byte)),
        _ if rng.one_in(6) => text.extend(octal(byte)),
        b'"' | b'\\' => text.extend([byte, byte]),
        _ => text.push(byte),
    }
}
