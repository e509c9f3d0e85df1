//! Texts for the sheet: all that the rules speak of, and files and pieces that hold them.

use crate::piece::{Division, Event, Format, Kind, Piece, TextKind, Time, Track};
use crate::sheet::words;
use crate::spelling::Manner;
use crate::write_file::{layout, write_file};

use super::pieces::{piece, spelling};
use super::Rng;

/// One byte or more of each sort that the rules tell apart.
const SORTS: &[u8] = b"aZ_!'-? ,09\"\\;#=\t\0\x7F\xE9";
const FEW_SORTS: &[u8] = b"a.- ,0\"\xC3";
/// Texts in one file.
const IN_ONE: usize = 256;

/// Files of texts: all of one and two bytes, all of three and four over some bytes, words
/// and what is nearly one, and texts of every sort near the length that changes all.
pub fn sheet_text_files() -> Vec<Vec<u8>> {
    let mut texts = vec![Vec::new()];
    let all: Vec<u8> = (0..=255).collect();
    texts.extend(all_of(&all, 1));
    texts.extend(all_of(&all, 2));
    texts.extend(all_of(SORTS, 3));
    texts.extend(all_of(FEW_SORTS, 4));
    texts.extend(words().flat_map(near_word));
    let mut files: Vec<Vec<u8>> = texts.chunks(IN_ONE).map(file_of).collect();
    files.extend(long_texts().iter().map(|text| file_of(std::slice::from_ref(text))));
    files
}

/// All texts of so many of these bytes.
fn all_of(bytes: &[u8], length: u32) -> impl Iterator<Item = Vec<u8>> + '_ {
    (0..bytes.len().pow(length)).map(move |mut number| {
        let mut text = Vec::new();
        for _ in 0..length {
            text.push(bytes[number % bytes.len()]);
            number /= bytes.len();
        }
        text
    })
}

/// A word in three cases, each with more or less at its ends.
fn near_word(word: &[u8]) -> Vec<Vec<u8>> {
    let lower = word.to_ascii_lowercase();
    let first_upper = [&word[..1], &lower[1..]].concat();
    let mut texts = Vec::new();
    for word in [word.to_vec(), lower, first_upper] {
        for end in ["", " ", "  ", ",", "!", "s", "\t", " a"] {
            texts.push([&word, end.as_bytes()].concat());
        }
        texts.push([b" ", &word[..]].concat());
        texts.push([b"a", &word[..]].concat());
        texts.push(word[1..].to_vec());
        texts.push(word[..word.len() - 1].to_vec());
    }
    texts
}

/// Texts of 8,191 bytes or about as many.
fn long_texts() -> Vec<Vec<u8>> {
    let mut texts = Vec::new();
    for size in [8_190, 8_191, 8_192, 8_193, 16_384] {
        for unit in ["a", "0", "la, ", "true ", "\u{E9}"] {
            texts.push(unit.bytes().cycle().take(size).collect());
        }
    }
    texts
}

fn file_of(texts: &[Vec<u8>]) -> Vec<u8> {
    let kinds = TextKind::ALL.iter().cycle();
    let kinds = kinds.zip(texts).map(|(kind, text)| Kind::Text(*kind, text.clone()));
    let events = kinds.chain([Kind::EndTrack]).map(|kind| Event { time: Time::START, kind });
    let tracks = vec![Track { events: events.collect() }];
    let piece = Piece { format: Format::OneTrack, division: Division::Pulses(96), tracks };
    write_file(&piece, Manner::Short).expect("texts of some bytes have a layout")
}

/// A file of a piece with many texts, in any spelling.
pub fn sung_file(rng: &mut Rng) -> Vec<u8> {
    let piece = sung_piece(rng);
    layout(&piece, &spelling(rng, &piece)).expect("a generated piece has a layout")
}

/// A good piece with texts as people and spreadsheets have them.
pub fn sung_piece(rng: &mut Rng) -> Piece {
    let mut piece = piece(rng);
    for track in &mut piece.tracks {
        let events = std::mem::take(&mut track.events);
        for event in events {
            if rng.one_in(3) {
                let kind = Kind::Text(rng.pick(&TextKind::ALL), sung_text(rng));
                track.events.push(Event { time: event.time, kind });
            }
            track.events.push(event);
        }
    }
    piece
}

const SUNG: [&str; 12] = [
    "Hal-", "le", "lu-", "jah, amen", "Ich ", "la, ", "jah,", "", "n\u{E9}", "Mar 1", "=1+1",
    "Glo-ria, \"et\" n\u{E9}",
];

fn sung_text(rng: &mut Rng) -> Vec<u8> {
    match rng.below(4) {
        0 => rng.pick(&SUNG).as_bytes().to_vec(),
        1 => {
            let words: Vec<&[u8]> = words().collect();
            let texts = near_word(rng.pick(&words));
            texts[rng.index(texts.len())].clone()
        }
        _ => (0..rng.index(12)).map(|_| rng.pick(SORTS)).collect(),
    }
}
