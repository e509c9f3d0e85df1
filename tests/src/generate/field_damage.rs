//! Damage to the fields of a line: shapes, names, counts, ranges.

use super::divisions::no_division_number;
use super::text_lines::{Field, Line};
use super::Rng;

/// Of none of the three shapes, each at a boundary of the rules.
pub const SHAPELESS: [&[u8]; 34] = [
    b"", b"+1", b"-", b"--1", b"- 1", b"1 2", b"1a", b"a1", b"0x10", b"1.0", b"12345678901",
    b"00000000001", b"-00000000000", b"4294967296", b"-4294967296", b"9999999999", b"a b",
    b"Note-on", b"caf\xE9", b"'a'", b"\"", b"\"a", b"\"a\"\"", b"\"a\"b", b"\"a\" \"b\"",
    b"a\"b\"", b"\"\\400\"", b"\"\\8\"", b"\"\\12\"", b"\"\\n\"", b"\"\\\"", b"\"a\rb\"", b"\0",
    b"\r",
];

pub fn bad_shape(rng: &mut Rng, line: &mut Line) {
    let shapeless = Field::Raw(rng.pick(&SHAPELESS).to_vec());
    match rng.below(4) {
        0 => line.push(Field::Raw(Vec::new())),
        1 => line.push(shapeless),
        _ => {
            let index = rng.index(line.len());
            line[index] = shapeless;
        }
    }
}

pub fn bad_name(rng: &mut Rng, line: &mut Line) {
    let names =
        ["Note_on", "Headers", "_", "major", "Text", "End_tracks", "Unknown_meta", "Tempo_t"];
    let wrong = match rng.below(4) {
        0 => Field::Number(rng.below(100) as i64),
        1 => Field::Quoted(b"Tempo".to_vec()),
        _ => Field::Name(rng.pick(&names)),
    };
    // Damage before this one may have left no third field.
    if let Some(name) = line.get_mut(2) {
        *name = wrong;
    }
    if rng.one_in(4) {
        line.push(Field::Number(1));
    }
}

pub fn wrong_count(rng: &mut Rng, line: &mut Line) {
    match rng.below(5) {
        0 => line.push(Field::Number(rng.below(128) as i64)),
        1 => line.truncate(1 + rng.index(2)),
        2 => {
            line.pop();
        }
        3 => {
            let most = line.len();
            line.truncate(1 + rng.index(most));
        }
        _ => {
            // Most telling where the field is a Length.
            if let Some(Field::Number(number)) = line.get_mut(3) {
                *number = rng.pick(&[*number + 1, *number - 1, -1, 4_294_967_295, 0]);
            }
        }
    }
}

/// Numbers just past the end of some range, or far past all.
const PAST: [i64; 19] = [
    -1, -8, 8, 16, 100, 128, 256, 3, 0, 16_384, 32_768, 65_536, 16_777_216, 4_294_967_295,
    -4_294_967_295, 47, 81, 127, -32_768,
];

pub fn out_of_range(rng: &mut Rng, lines: &mut [Line]) {
    if rng.one_in(3) {
        return no_division_field(rng, lines);
    }
    let at = if rng.one_in(8) { 0 } else { rng.index(lines.len()) };
    let line = &mut lines[at];
    let mut index = rng.index(line.len());
    if index == 2 {
        index = line.len() - 1;
    }
    line[index] = match rng.below(8) {
        0 => Field::Name("major"),
        1 => Field::Quoted(b"1".to_vec()),
        2 => Field::Quoted(b"Major".to_vec()),
        _ => Field::Number(rng.pick(&PAST)),
    };
}

/// Only the division of the Header is at fault, if that is where it was.
fn no_division_field(rng: &mut Rng, lines: &mut [Line]) {
    if let Some(field) = lines[0].get_mut(5) {
        *field = match rng.below(8) {
            0 => Field::Name("SMPTE"),
            1 => Field::Quoted(b"-6360".to_vec()),
            _ => Field::Number(no_division_number(rng)),
        };
    }
}
