//! Texts damaged so as to meet one refusal number, and texts damaged anyhow.

use crate::piece::{Piece, Time};

use super::damaged_file::mutate;
use super::field_damage::{bad_name, bad_shape, out_of_range, wrong_count};
use super::text_lines::{lines_of, plain, varied, Field, Line};
use super::{piece, Rng};

/// A text aimed at one or two of the numbers 22..28 (21 and 29 need size).
pub fn aimed(rng: &mut Rng) -> Vec<u8> {
    let mut piece = piece(rng);
    let aim = rng.between(22, 28);
    if aim == 27 {
        stretch(rng, &mut piece);
    }
    let mut lines = lines_of(&piece);
    damage(rng, aim, &mut lines);
    if rng.one_in(4) {
        let second = rng.between(22, 28);
        damage(rng, second, &mut lines);
    }
    match rng.below(2) {
        0 => plain(&lines),
        _ => varied(rng, &lines),
    }
}

fn damage(rng: &mut Rng, aim: u64, lines: &mut Vec<Line>) {
    if lines.is_empty() {
        return;
    }
    let index = rng.index(lines.len());
    match aim {
        22 => bad_shape(rng, &mut lines[index]),
        23 => bad_name(rng, &mut lines[index]),
        24 => wrong_count(rng, &mut lines[index]),
        25 => out_of_range(rng, lines),
        26 => wrong_order(rng, lines),
        28 => lines.truncate(index),
        _ => {}
    }
}

/// Makes one step 268,435,454 to 268,435,457 ticks long.
fn stretch(rng: &mut Rng, piece: &mut Piece) {
    let tracks = piece.tracks.len();
    let events = &mut piece.tracks[rng.index(tracks)].events;
    let from = rng.index(events.len());
    let before = if from == 0 { 0 } else { events[from - 1].time.0 };
    let step = rng.between(268_435_454, 268_435_457) as u32;
    let shift = step.saturating_sub(events[from].time.0 - before);
    for event in &mut events[from..] {
        event.time = Time(event.time.0.saturating_add(shift));
    }
}

fn wrong_order(rng: &mut Rng, lines: &mut Vec<Line>) {
    let at = rng.index(lines.len());
    let line = lines[at].clone();
    match rng.below(7) {
        0 => {
            lines.remove(at);
        }
        1 => lines.insert(at, line),
        2 => {
            let next = (at + 1) % lines.len();
            lines.swap(at, next);
        }
        3 => set_number(&mut lines[at], 0, |track| track + 1),
        4 => set_number(&mut lines[at], 0, |track| (track - 1).max(0)),
        5 => {
            let wrong = rng.pick(&[1, 2, 1_000]);
            // Later in a record at Time 0, so that the next one falls.
            set_number(&mut lines[at], 1, |time| (time + wrong).min(u32::MAX.into()));
        }
        _ => {
            // Another number of tracks than there are.
            let count = rng.pick(&[1, 2, 3, 65_535]);
            set_number(&mut lines[0], 4, |_| count);
        }
    }
}

fn set_number(line: &mut Line, index: usize, set: impl Fn(i64) -> i64) {
    if let Some(Field::Number(number)) = line.get_mut(index) {
        *number = set(*number);
    }
}

/// A text of `make` with some bytes changed, lost, doubled or put in.
pub fn mutated(rng: &mut Rng, make: fn(&mut Rng) -> Vec<u8>) -> Vec<u8> {
    let text = make(rng);
    mutated_text(rng, &text)
}

/// A copy of `text` changed so.
pub fn mutated_text(rng: &mut Rng, text: &[u8]) -> Vec<u8> {
    let mut text = text.to_vec();
    for _ in 0..rng.between(1, 3) {
        if rng.one_in(3) {
            mutate(rng, &mut text);
        } else if !text.is_empty() {
            let at = rng.index(text.len());
            let byte = rng.pick(b"0129,,\"\\\n\r -+#;_aZ\t");
            if rng.one_in(2) {
                text[at] = byte;
            } else {
                text.insert(at, byte);
            }
        }
    }
    text
}

/// Texts of a byte or two, where ends of line and of text meet.
const SMALL: [&[u8]; 16] = [
    b"", b"\n", b"\r", b"\r\n", b"\r\r", b"\n\r", b"\n\n", b" ", b"\t\n", b"#", b"\"", b"\"\"",
    b",", b"0", b"-", b"x\r",
];

/// Random bytes of the letters that texts are made of, or of any.
pub fn random_bytes(rng: &mut Rng) -> Vec<u8> {
    let count = rng.index(120);
    match rng.below(4) {
        0 => return rng.bytes(count),
        1 => return rng.pick(&SMALL).to_vec(),
        _ => {}
    }
    let words: [&[u8]; 16] = [
        b"0", b"1", b", ", b",", b"\n", b"\r\n", b"\"", b"\\", b"Header", b"Start_track", b"#",
        b"0, 0, Header, 0, 1, 96\n", b"1, 0, Start_track\n", b"1, 0, End_track\n", b" ", b"-",
    ];
    (0..count / 8).flat_map(|_| rng.pick(&words).to_vec()).collect()
}
