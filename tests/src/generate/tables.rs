//! Saved tables: good ones, damaged ones, random ones, all short ones.

use super::damaged_text::mutated_text;
use super::saving::{opened, saved, typed};
use super::sheet_texts::sung_piece;
use super::Rng;
use crate::piece::Piece;
use crate::sheet::sheet_of;

/// A piece, and a table of it saved in some way; in every other one texts were typed.
pub fn saved_piece(rng: &mut Rng) -> (Piece, Vec<u8>) {
    let piece = sung_piece(rng);
    let rows = match rng.below(2) {
        0 => opened(&sheet_of(&piece)),
        _ => typed(rng, &piece),
    };
    let table = saved(rng, &rows);
    (piece, table)
}

/// A table for this seed that gives a piece.
pub fn saved_case(seed: u64) -> Vec<u8> {
    saved_piece(&mut stream(seed)).1
}

/// Such a table, damaged.
pub fn damaged_table_case(seed: u64) -> Vec<u8> {
    let rng = &mut stream(seed);
    let (_, mut table) = saved_piece(rng);
    // Most of a long one tells nothing new.
    table.truncate(rng.pick(&[200, 1_000, 100_000]));
    damaged_table(rng, &table)
}

/// Another stream than the files and texts of the same seed.
fn stream(seed: u64) -> Rng {
    Rng::new(seed ^ 1 << 61)
}

/// A copy with bytes, lines, cells, quotes and separators changed.
pub fn damaged_table(rng: &mut Rng, table: &[u8]) -> Vec<u8> {
    let mut table = table.to_vec();
    for _ in 0..rng.between(1, 4) {
        table = damaged_once(rng, table);
    }
    table
}

fn damaged_once(rng: &mut Rng, mut table: Vec<u8>) -> Vec<u8> {
    if table.is_empty() {
        return table;
    }
    let at = rng.index(table.len());
    let line = part_at(&table, at, |byte| byte == b'\n');
    let cell = part_at(&table, at, |byte| b",;\t\n".contains(&byte));
    match rng.below(12) {
        0 => return mutated_text(rng, &table),
        1 => table.truncate(at),
        2 => {
            let copy = table[line.clone()].to_vec();
            let end = rng.pick(&[&b"\n"[..], b"\r\n", b""]);
            table.splice(line.start..line.start, [&copy, end].concat());
        }
        3 => table.insert(cell.start, b'"'),
        4 => table.insert(cell.end, b'"'),
        5 => {
            table.drain(cell);
        }
        6 => {
            // With the separator behind it, or the end of the line.
            table.drain(cell.start..(cell.end + 1).min(table.len()));
        }
        7 => {
            let other = rng.pick(b",;\t");
            table[line].iter_mut().filter(|byte| b",;\t".contains(byte)).for_each(|byte| {
                *byte = other;
            });
        }
        8 => {
            let place = rng.pick(&[cell.start, cell.end, line.start, line.end, at]);
            let what = rng.pick(&INSERTED);
            table.splice(place..place, what.iter().copied());
        }
        9 => {
            // One separator for another.
            let places: Vec<usize> =
                (line.start..line.end).filter(|at| b",;\t".contains(&table[*at])).collect();
            if !places.is_empty() {
                table[rng.pick(&places)] = rng.pick(b",;\t");
            }
        }
        10 => {
            let copy = rng.pick(&WORDS);
            table.splice(cell, copy.iter().copied());
        }
        _ => {
            // The whole line in one quoted cell, once more.
            let inside = table[line.clone()].to_vec();
            let doubled =
                inside.iter().flat_map(|byte| vec![*byte; 1 + usize::from(*byte == b'"')]);
            let quoted: Vec<u8> = [b'"'].into_iter().chain(doubled).chain([b'"']).collect();
            table.splice(line, quoted);
        }
    }
    table
}

/// The part round a place, between bytes that end parts.
fn part_at(table: &[u8], at: usize, ends: impl Fn(u8) -> bool) -> std::ops::Range<usize> {
    let start = table[..at].iter().rposition(|byte| ends(*byte)).map_or(0, |end| end + 1);
    let length = table[start..].iter().position(|byte| ends(*byte));
    start..length.map_or(table.len(), |length| start + length)
}

const INSERTED: [&[u8]; 20] = [
    b"\"", b"\"\"", b" ", b"\t", b"  \t", b"\r", b"\n", b"\r\n", b"#", b";", b",", b",,", b";;;",
    b"\t\t", b"\"\",\"\"", b"\" ", b" \"", b"\xEF\xBB\xBF", b"\\", b"x",
];

const WORDS: [&[u8]; 28] = [
    b"", b" ", b"0", b"1", b"x", b"\\101", b"Header", b"Start_track", b"Tempo", b"Text_t",
    b"Copyright_t", b"Title_t", b"Instrument_name_t", b"Lyric_t", b"Marker_t", b"Cue_point_t",
    b"Key_signature", b"lyric_t", b"KEY_SIGNATURE", b" Lyric_t", b"\tTitle_t ", b"Lyric_",
    b"Lyric_tt", b"\"Lyric_t\"", b"\" Key_signature\t\"", b"\"a,b\"", b"\"a;b\"", b"a\"b",
];

/// A random table of few lines, made of what the rules speak of.
pub fn random_table_case(seed: u64) -> Vec<u8> {
    // Another stream than the saved table of the same seed.
    let rng = &mut Rng::new(!seed ^ 1 << 60);
    if rng.one_in(16) {
        let count = rng.index(200);
        return rng.bytes(count);
    }
    let separator = rng.pick(&[&b","[..], b";", b"\t", b","]);
    let mut table = Vec::new();
    if rng.one_in(4) {
        table.extend(b"\xEF\xBB\xBF");
    }
    for _ in 0..rng.index(6) {
        random_line(rng, separator, &mut table);
        table.extend(rng.pick(&[&b"\n"[..], b"\n", b"\r\n", b"\r\r\n", b""]));
    }
    if rng.one_in(4) {
        return damaged_table(rng, &table);
    }
    table
}

fn random_line(rng: &mut Rng, separator: &'static [u8], table: &mut Vec<u8>) {
    if rng.one_in(6) {
        table.extend(rng.pick(&[&b"#"[..], b"  # a", b";", b" ;b", b"\t#", b" ", b"\t", b""]));
        return;
    }
    for index in 0..rng.between(1, 7) {
        if index > 0 {
            table.extend(if rng.one_in(12) {
                rng.pick(&[&b","[..], b";", b"\t"])
            } else {
                separator
            });
        }
        let word = match (index, rng.below(8)) {
            // A record with a text cell is to come often.
            (2, 0..=5) => WORDS[9 + rng.index(12)],
            (_, 0) => rng.pick(&INSERTED),
            _ => rng.pick(&WORDS),
        };
        match rng.below(8) {
            0 | 1 => table.extend([b"\"", word, b"\""].concat()),
            2 => table.extend([b" \"", word, b"\"\t"].concat()),
            3 => table.extend([word, rng.pick(&INSERTED)].concat()),
            _ => table.extend(word),
        }
    }
}

/// The bytes of all short tables.
const SHORT: &[u8] = b",;\t \"\r\n#a";
const SHORT_LONGEST: u32 = 5;

/// How many tables there are of up to five of nine bytes.
pub fn short_tables() -> u64 {
    (0..=SHORT_LONGEST).map(|length| (SHORT.len() as u64).pow(length)).sum()
}

/// One of them, the shorter ones first.
pub fn short_table(mut number: u64) -> Vec<u8> {
    let base = SHORT.len() as u64;
    let mut length = 0;
    while number >= base.pow(length) {
        number -= base.pow(length);
        length += 1;
    }
    let mut table = Vec::new();
    for _ in 0..length {
        table.push(SHORT[(number % base) as usize]);
        number /= base;
    }
    table
}
