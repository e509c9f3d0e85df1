//! The sheet: the records of a piece as a spreadsheet opens them without changing any.

use std::io::Write;

use crate::operations::deliver;
use crate::piece::{Kind, Piece, Time};
use crate::read_file::read_file;
use crate::refusal::Answer;
use crate::write_text::{mode_word, name};

/// A longer text has every byte in octal.
pub const TEXT_STANDS_MOST: usize = 8_191;

/// Room that is enough for the sheet of any file of so many bytes.
pub fn room_enough(length: usize) -> usize {
    23 * length
}

/// As it is exported.
pub fn file_to_sheet(file: &[u8], room: &mut [u8]) -> Answer {
    match read_file(file) {
        Ok(piece) => deliver(&sheet_of(&piece), room),
        Err(refusal) => refusal.into(),
    }
}

pub fn sheet_of(piece: &Piece) -> Vec<u8> {
    let mut sheet = Sheet { bytes: Vec::new() };
    let (format, division) = (piece.format.number(), piece.division.signed());
    let head = [format.into(), piece.tracks.len() as i64, division.into()];
    sheet.row(0, Time::START, "Header", &head, None);
    for (track, number) in piece.tracks.iter().zip(1..) {
        sheet.row(number, Time::START, "Start_track", &[], None);
        for event in &track.events {
            let (numbers, text) = fields(&event.kind);
            sheet.row(number, event.time, name(&event.kind), &numbers, text);
        }
    }
    sheet.row(0, Time::START, "End_of_file", &[], None);
    sheet.bytes
}

struct Sheet {
    bytes: Vec<u8>,
}

impl Sheet {
    fn put(&mut self, words: std::fmt::Arguments) {
        // Appending to a vector of bytes cannot fail.
        let _ = self.bytes.write_fmt(words);
    }

    /// Fields are joined by a comma without a blank; a text stands in quotes.
    fn row(&mut self, track: i64, time: Time, name: &str, numbers: &[i64], text: Option<&[u8]>) {
        self.put(format_args!("{track},{},{name}", time.0));
        for number in numbers {
            self.put(format_args!(",{number}"));
        }
        if let Some(text) = text {
            self.bytes.extend(b",\"");
            self.bytes.extend(cell_of(text));
            self.bytes.push(b'"');
        }
        self.bytes.push(b'\n');
    }
}

/// The numbers that follow a record's name, and then the text, if it has one.
fn fields(kind: &Kind) -> (Vec<i64>, Option<&[u8]>) {
    let all = |bytes: &[u8]| bytes.iter().map(|byte| i64::from(*byte)).collect::<Vec<_>>();
    let numbers = match kind {
        Kind::NoteOff { channel, key, velocity } | Kind::NoteOn { channel, key, velocity } => {
            all(&[*channel, *key, *velocity])
        }
        Kind::PolyAftertouch { channel, key, value } => all(&[*channel, *key, *value]),
        Kind::Control { channel, control, value } => all(&[*channel, *control, *value]),
        Kind::Program { channel, program } => all(&[*channel, *program]),
        Kind::ChannelAftertouch { channel, value } => all(&[*channel, *value]),
        Kind::PitchBend { channel, value } => vec![(*channel).into(), (*value).into()],
        Kind::SystemExclusive(data)
        | Kind::SystemExclusivePacket(data)
        | Kind::SequencerSpecific(data) => [vec![data.len() as i64], all(data)].concat(),
        Kind::UnknownMeta { meta_type, data } => {
            [vec![(*meta_type).into(), data.len() as i64], all(data)].concat()
        }
        Kind::SequenceNumber(number) => vec![(*number).into()],
        Kind::ChannelPrefix(number) | Kind::MidiPort(number) => vec![(*number).into()],
        Kind::Tempo(tempo) => vec![(*tempo).into()],
        Kind::SmpteOffset(numbers) => all(numbers),
        Kind::TimeSignature(numbers) => all(numbers),
        Kind::EndTrack => Vec::new(),
        Kind::Text(_, text) => return (Vec::new(), Some(text)),
        Kind::KeySignature { key, mode } => return (vec![(*key).into()], Some(mode_word(*mode))),
    };
    (numbers, None)
}

/// What stands in the cell of a text: each byte as it is or in octal.
pub fn cell_of(text: &[u8]) -> Vec<u8> {
    let mut cell = Vec::with_capacity(text.len());
    let long = text.len() > TEXT_STANDS_MOST;
    let word = is_word(text);
    for (at, byte) in text.iter().enumerate() {
        let hidden = long || word && at + 1 == text.len();
        if !hidden && stands(text, at) {
            cell.push(*byte);
        } else {
            cell.extend(octal(*byte));
        }
    }
    cell
}

fn octal(byte: u8) -> [u8; 4] {
    [b'\\', b'0' + byte / 64, b'0' + byte / 8 % 8, b'0' + byte % 8]
}

/// Whether this byte of a text stands, words and length aside.
fn stands(text: &[u8], at: usize) -> bool {
    let (first, last) = (at == 0, at + 1 == text.len());
    match text[at] {
        byte if is_letter(byte) => true,
        byte if is_mark(byte) => !first,
        b',' => !first && !last,
        b' ' => !first && (!last || is_letter(text[at - 1]) || is_mark(text[at - 1])),
        _ => false,
    }
}

fn is_letter(byte: u8) -> bool {
    byte.is_ascii_alphabetic() || byte == b'_'
}

fn is_mark(byte: u8) -> bool {
    b"!'()*+-.:?".contains(&byte)
}

/// Those that some program takes for a boolean.
pub fn words() -> impl Iterator<Item = &'static [u8]> {
    include_str!("../words.txt").lines().map(str::as_bytes)
}

/// Whether a text is a word, whatever the case of its letters, with or without a blank
/// at its end.
fn is_word(text: &[u8]) -> bool {
    let text = text.strip_suffix(b" ").unwrap_or(text);
    words().any(|word| word.eq_ignore_ascii_case(text))
}
