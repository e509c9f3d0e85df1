//! Files at the limit of size and past it, by hand.

use super::chunk_limits::{self, exactly_empty_chunks};
use super::large::one_long_text;
use crate::spelling::Manner;
use crate::write_file::write_file;
use crate::FILE_MAX;

/// A file, what it is, and the number and place of the answer due.
pub struct LimitCase {
    pub what: &'static str,
    pub file: Vec<u8>,
    pub number: u8,
    pub place: usize,
}

/// Each shape at the limit, and one byte over it, where nothing but 1 counts.
pub fn limit_cases() -> Vec<LimitCase> {
    let mut cases = Vec::new();
    for (what, make, number, place) in SHAPES.into_iter().chain(chunk_limits::SHAPES) {
        cases.push(LimitCase { what, file: make(FILE_MAX), number, place });
        cases.push(LimitCase { what, file: make(FILE_MAX + 1), number: 1, place: 0 });
    }
    for (size, number) in [(FILE_MAX - 1, 0), (FILE_MAX + 2, 1), (2 * FILE_MAX, 1), (1 << 24, 1)] {
        cases.push(LimitCase { what: "many notes", file: notes(size), number, place: 0 });
    }
    cases.push(exactly_empty_chunks());
    cases
}

pub(super) type Shape = (&'static str, fn(usize) -> Vec<u8>, u8, usize);

/// What it is, a maker of such a file of a given size, the answer at the limit.
const SHAPES: [Shape; 9] = [
    ("nothing but 0", |size| vec![0; size], 3, 0),
    ("one long text", long_text, 0, 0),
    ("many notes", notes, 0, 0),
    ("as many tracks as permitted", many_tracks, 0, 0),
    ("no End_track", endless, 6, FILE_MAX),
    ("a fault in the middle", fault_in_the_middle, 8, note_at(MIDDLE)),
    ("a fault in the last byte", fault_in_the_last, 10, FILE_MAX - 5),
    ("a byte after End_track", after_end_track, 12, FILE_MAX - 1),
    ("a byte after the last track", after_last_track, 2, FILE_MAX - 1),
];

const FIRST_NOTE: &[u8] = &[0, 0x90, 60, 64];
/// Its status is left out.
const NOTE: &[u8] = &[0, 60, 64];
pub(super) const END_TRACK: &[u8] = &[0, 0xFF, 0x2F, 0];
const MIDDLE: usize = 174_000;

/// Where a note begins; the one after the first is number 0.
const fn note_at(number: usize) -> usize {
    22 + FIRST_NOTE.len() + number * NOTE.len()
}

pub(super) fn chunk(body: &[u8]) -> Vec<u8> {
    [b"MTrk", &(body.len() as u32).to_be_bytes()[..], body].concat()
}

fn one_track(body: &[u8]) -> Vec<u8> {
    [&b"MThd\0\0\0\x06\0\0\0\x01\0\x60"[..], &chunk(body)].concat()
}

fn long_text(size: usize) -> Vec<u8> {
    write_file(&one_long_text(size), Manner::Short).expect("a track of permitted length")
}

/// Notes of three bytes; the last event's delta is padded to make up the size.
fn notes_then(size: usize, last: &[u8]) -> Vec<u8> {
    let left = size - 22 - FIRST_NOTE.len() - last.len();
    let (count, padding) = (left / NOTE.len(), left % NOTE.len());
    let body = [FIRST_NOTE, &NOTE.repeat(count), &vec![0x80; padding], last].concat();
    one_track(&body)
}

pub(super) fn notes(size: usize) -> Vec<u8> {
    notes_then(size, END_TRACK)
}

fn endless(size: usize) -> Vec<u8> {
    notes_then(size, NOTE)
}

fn fault_in_the_middle(size: usize) -> Vec<u8> {
    let mut file = notes(size);
    file[note_at(MIDDLE) + 1] = 0xF4;
    file
}

/// End_track gets the length 1; its delta takes two bytes at the limit.
fn fault_in_the_last(size: usize) -> Vec<u8> {
    let mut file = notes(size);
    file[size - 1] = 1;
    file
}

fn after_end_track(size: usize) -> Vec<u8> {
    let body = [&notes(size - 1)[22..], &[0]].concat();
    one_track(&body)
}

fn after_last_track(size: usize) -> Vec<u8> {
    [notes(size - 1), vec![0]].concat()
}

/// A note in each track; the last track's End_track is padded.
fn many_tracks(size: usize) -> Vec<u8> {
    let track = chunk(&[FIRST_NOTE, END_TRACK].concat());
    let padding = size - 14 - 65_535 * track.len();
    let last = chunk(&[FIRST_NOTE, &vec![0x80; padding], END_TRACK].concat());
    [&b"MThd\0\0\0\x06\0\x01\xFF\xFF\0\x60"[..], &track.repeat(65_534), &last].concat()
}
