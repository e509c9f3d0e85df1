//! From a piece and a spelling to the bytes of a file.

use std::borrow::Cow;

use crate::number::{fewest_bytes, write_variable};
use crate::piece::{Event, Kind, Mode, Piece, Track};
use crate::spelling::{delta_of, may_leave_out, EventSpelling, Manner, Spelling, UnknownChunk};

/// The layout of `piece` with `spelling`; nothing if the piece breaks a rule
/// or has a number too great to spell, or the spelling is not permitted.
pub fn layout(piece: &Piece, spelling: &Spelling) -> Option<Vec<u8>> {
    let Spelling { tracks, header_extra, unknown } = spelling;
    let count = piece.tracks.len();
    if !piece.keeps_rules() || tracks.len() != count || unknown.len() != count + 1 {
        return None;
    }
    let mut file = b"MThd".to_vec();
    file.extend(declared(6 + header_extra.len())?);
    file.extend(piece.format.number().to_be_bytes());
    file.extend(u16::try_from(count).ok()?.to_be_bytes());
    file.extend(piece.division.signed().to_be_bytes());
    file.extend(header_extra);
    for ((track, spelled), before) in piece.tracks.iter().zip(tracks).zip(unknown) {
        write_unknown(before, &mut file)?;
        write_chunk(TRACK, &track_body(track, spelled)?, &mut file)?;
    }
    write_unknown(&unknown[count], &mut file)?;
    Some(file)
}

const TRACK: [u8; 4] = *b"MTrk";

fn write_unknown(chunks: &[UnknownChunk], file: &mut Vec<u8>) -> Option<()> {
    for chunk in chunks {
        if chunk.tag == TRACK {
            return None;
        }
        write_chunk(chunk.tag, &chunk.data, file)?;
    }
    Some(())
}

fn write_chunk(tag: [u8; 4], data: &[u8], file: &mut Vec<u8>) -> Option<()> {
    let length = declared(data.len())?;
    file.extend(tag);
    file.extend(length);
    file.extend_from_slice(data);
    Some(())
}

/// The length of a chunk as it declares it, if it fits.
fn declared(length: usize) -> Option<[u8; 4]> {
    Some(u32::try_from(length).ok()?.to_be_bytes())
}

#[test]
fn a_length_fits_32_bits_or_is_not_declared() {
    assert_eq!(declared(6), Some([0, 0, 0, 6]));
    assert_eq!(declared(0x0102_0304), Some([1, 2, 3, 4]));
    assert_eq!(declared(4_294_967_295), Some([255; 4]));
    assert_eq!(declared(4_294_967_296), None);
}

/// The layout of `piece` in a manner of writing.
pub fn write_file(piece: &Piece, manner: Manner) -> Option<Vec<u8>> {
    layout(piece, &Spelling::of_manner(piece, manner)?)
}

fn track_body(track: &Track, spelled: &[EventSpelling]) -> Option<Vec<u8>> {
    if track.events.len() != spelled.len() {
        return None;
    }
    let mut body = Vec::new();
    let mut before = None;
    for (event, spelling) in track.events.iter().zip(spelled) {
        write_event(event, before, *spelling, &mut body)?;
        before = Some(event);
    }
    Some(body)
}

/// Appends the bytes of one event, from its delta on.
pub fn write_event(
    event: &Event,
    before: Option<&Event>,
    spelling: EventSpelling,
    out: &mut Vec<u8>,
) -> Option<()> {
    variable(delta_of(event, before)?.0, spelling.delta_bytes, out)?;
    let (lead, data) = parts(&event.kind);
    if !spelling.status_left_out {
        match lead {
            Lead::Channel(first) | Lead::Exclusive(first) => out.push(first),
            Lead::Meta(meta_type) => out.extend([0xFF, meta_type]),
        }
    } else if !may_leave_out(event, before) {
        return None;
    }
    if length_of(&event.kind).is_some() {
        variable(u32::try_from(data.len()).ok()?, spelling.length_bytes, out)?;
    }
    out.extend_from_slice(&data);
    Some(())
}

/// Appends `value` in `width` bytes if it fits them.
fn variable(value: u32, width: usize, out: &mut Vec<u8>) -> Option<()> {
    if width > 4 || fewest_bytes(value)? > width {
        return None;
    }
    write_variable(value, width, out);
    Some(())
}

/// What comes before the data bytes (and before their length, if written).
enum Lead {
    Channel(u8),
    Exclusive(u8),
    Meta(u8),
}

/// The length written in the event's bytes; channel events write none.
pub fn length_of(kind: &Kind) -> Option<usize> {
    match parts(kind) {
        (Lead::Channel(_), _) => None,
        (_, data) => Some(data.len()),
    }
}

/// The row of document 01's table for this event.
fn parts(kind: &Kind) -> (Lead, Cow<'_, [u8]>) {
    if let Some(status) = kind.channel_status() {
        return (Lead::Channel(status), channel_data(kind).into());
    }
    match kind {
        Kind::SystemExclusive(data) => (Lead::Exclusive(0xF0), data.into()),
        Kind::SystemExclusivePacket(data) => (Lead::Exclusive(0xF7), data.into()),
        _ => {
            let (meta_type, data) = meta_parts(kind);
            (Lead::Meta(meta_type), data)
        }
    }
}

fn channel_data(kind: &Kind) -> Vec<u8> {
    match *kind {
        Kind::NoteOff { key, velocity, .. } | Kind::NoteOn { key, velocity, .. } => {
            vec![key, velocity]
        }
        Kind::PolyAftertouch { key, value, .. } => vec![key, value],
        Kind::Control { control, value, .. } => vec![control, value],
        Kind::Program { program, .. } => vec![program],
        Kind::ChannelAftertouch { value, .. } => vec![value],
        Kind::PitchBend { value, .. } => vec![(value % 128) as u8, (value / 128) as u8],
        _ => Vec::new(),
    }
}

fn meta_parts(kind: &Kind) -> (u8, Cow<'_, [u8]>) {
    match kind {
        Kind::SequenceNumber(number) => (0x00, number.to_be_bytes().to_vec().into()),
        Kind::Text(text, data) => (text.meta_type(), data.into()),
        Kind::ChannelPrefix(number) => (0x20, vec![*number].into()),
        Kind::MidiPort(number) => (0x21, vec![*number].into()),
        Kind::Tempo(tempo) => (0x51, tempo.to_be_bytes()[1..].to_vec().into()),
        Kind::SmpteOffset(numbers) => (0x54, numbers.as_slice().into()),
        Kind::TimeSignature(numbers) => (0x58, numbers.as_slice().into()),
        // A key below 0 is written with 256 added, which is what the cast does.
        Kind::KeySignature { key, mode } => {
            (0x59, vec![*key as u8, u8::from(*mode == Mode::Minor)].into())
        }
        Kind::SequencerSpecific(data) => (0x7F, data.into()),
        Kind::UnknownMeta { meta_type, data } => (*meta_type, data.into()),
        _ => (0x2F, Vec::new().into()),
    }
}
