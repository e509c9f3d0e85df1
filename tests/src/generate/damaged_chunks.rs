//! Files damaged in their header or in the order and lengths of their chunks.

use super::divisions::no_division;
use super::raw_file::{RawChunk, RawFile};
use super::unknown_chunks::{unknown_chunk, unknown_tag};
use super::Rng;

type Aim = fn(&mut Rng, RawFile) -> Vec<u8>;

/// Each at one rule of header and chunks; two of them meet several refusals each.
const AIMS: [Aim; 13] = [
    header_too_short, header_past_end, header_to_end, unknown_past_end, unknown_to_end,
    track_past_end, few_left_for_a_track, few_left_behind, none_left_for_a_track, hidden_track,
    enclosed_track, one_counted_too_many, one_counted_too_few,
];

/// A file aimed at a random one of these rules.
pub fn aimed_at_chunks(rng: &mut Rng, file: RawFile) -> Vec<u8> {
    rng.pick(&AIMS)(rng, file)
}

pub fn cut_short(rng: &mut Rng, mut file: RawFile) -> Vec<u8> {
    match rng.below(4) {
        0 => {
            let mut bytes = file.bytes();
            bytes.truncate(rng.index(14));
            bytes
        }
        1 => {
            // Ends where a track must begin, or a few bytes after.
            end_before_a_track(rng, &mut file);
            let more = rng.index(9);
            file.tail = b"MTrk\0\0\0\x04"[..more].to_vec();
            file.bytes()
        }
        2 => track_past_end(rng, file),
        _ => {
            let mut bytes = file.bytes();
            bytes.truncate(rng.index(bytes.len()));
            bytes
        }
    }
}

pub fn bad_header(rng: &mut Rng, header: &mut [u8; 14]) {
    // At times two faults, of which the first must decide.
    for _ in 0..rng.between(1, 2) {
        match rng.below(6) {
            0 => header[rng.index(4)] ^= rng.pick(&[0x20, 0x01, 0x80]),
            1 => header[4 + rng.index(4)] ^= rng.pick(&[1, 3, 8, 128]),
            2 => *pair(header, 8) = rng.pick(&[[0, 3], [1, 0], [255, 255], [2, 0], [0, 0]]),
            3 => *pair(header, 10) = rng.pick(&[[0, 0], [0, 2], [1, 0], [255, 255]]),
            _ => *pair(header, 12) = no_division(rng).to_be_bytes(),
        }
    }
}

fn pair(header: &mut [u8; 14], at: usize) -> &mut [u8; 2] {
    (&mut header[at..at + 2]).try_into().expect("two bytes")
}

/// One track more than counted, whole or not, at once or behind unknown chunks.
pub fn further_track(rng: &mut Rng, mut file: RawFile) -> Vec<u8> {
    let last = *file.tracks().last().expect("a good file has a track");
    if rng.one_in(2) {
        file.chunks.truncate(last + 1);
    } else {
        file.chunks.push(unknown_chunk(rng).into());
    }
    let body = rng.pick(&[&b"\0\xFF\x2F\0"[..], b"\0\xF4", b""]).to_vec();
    file.chunks.push(RawChunk { tag: *b"MTrk", length: None, parts: vec![body] });
    let further = file.chunks.len() - 1;
    if rng.one_in(3) {
        file.chunks.push(unknown_chunk(rng).into());
    }
    if rng.one_in(3) {
        return declared_past_end(rng, &file, further);
    }
    file.bytes()
}

fn header_too_short(rng: &mut Rng, mut file: RawFile) -> Vec<u8> {
    let length = rng.below(6) as u8;
    file.header[4..8].copy_from_slice(&[0, 0, 0, length]);
    if rng.one_in(3) {
        file.header[8 + rng.index(6)] = 255;
    }
    file.bytes()
}

/// Half the time with a fault behind it, which must not decide.
fn header_past_end(rng: &mut Rng, mut file: RawFile) -> Vec<u8> {
    if rng.one_in(2) {
        file.header[8 + rng.index(6)] = 255;
    }
    let mut bytes = file.bytes();
    if rng.one_in(3) {
        bytes.truncate(14 + rng.index(9));
    }
    let length = past(rng, bytes.len() - 8);
    declare(&mut bytes, 0, length);
    bytes
}

/// A header that takes all of the file, or leaves less than a chunk's start.
fn header_to_end(rng: &mut Rng, file: RawFile) -> Vec<u8> {
    let mut bytes = file.bytes();
    let length = bytes.len() - 8 - rng.index(8);
    declare(&mut bytes, 0, length as u32);
    bytes
}

fn unknown_past_end(rng: &mut Rng, mut file: RawFile) -> Vec<u8> {
    let index = insert_unknown(rng, &mut file);
    declared_past_end(rng, &file, index)
}

/// An unknown chunk that takes all that is left; where a track is due, none comes.
fn unknown_to_end(rng: &mut Rng, mut file: RawFile) -> Vec<u8> {
    let index = insert_unknown(rng, &mut file);
    let (place, mut bytes) = (file.place_of(index), file.bytes());
    let left = bytes.len() - place - 8;
    declare(&mut bytes, place, (left - rng.index(8).min(left)) as u32);
    bytes
}

fn track_past_end(rng: &mut Rng, file: RawFile) -> Vec<u8> {
    let index = rng.pick(&file.tracks());
    declared_past_end(rng, &file, index)
}

fn few_left_for_a_track(rng: &mut Rng, mut file: RawFile) -> Vec<u8> {
    end_before_a_track(rng, &mut file);
    if rng.one_in(3) {
        file.chunks.push(unknown_chunk(rng).into());
    }
    file.tail = few_bytes(rng);
    file.bytes()
}

fn few_left_behind(rng: &mut Rng, mut file: RawFile) -> Vec<u8> {
    file.tail = few_bytes(rng);
    file.bytes()
}

fn none_left_for_a_track(rng: &mut Rng, mut file: RawFile) -> Vec<u8> {
    end_before_a_track(rng, &mut file);
    file.chunks.push(unknown_chunk(rng).into());
    file.bytes()
}

/// A track under another tag, so that one is missing at the end.
fn hidden_track(rng: &mut Rng, mut file: RawFile) -> Vec<u8> {
    file.any_track(rng).tag = unknown_tag(rng);
    file.bytes()
}

/// A track within an unknown chunk, so that one is missing at the end.
fn enclosed_track(rng: &mut Rng, mut file: RawFile) -> Vec<u8> {
    let tag = unknown_tag(rng);
    let track = file.any_track(rng);
    *track = RawChunk { tag, length: None, parts: vec![track.bytes()] };
    file.bytes()
}

fn one_counted_too_many(rng: &mut Rng, mut file: RawFile) -> Vec<u8> {
    file.header[9] = file.header[9].max(1);
    file.header[11] += 1;
    for _ in 0..rng.below(3) {
        file.chunks.push(unknown_chunk(rng).into());
    }
    file.bytes()
}

/// The last track is then one too many; a file of one track gets another.
fn one_counted_too_few(rng: &mut Rng, mut file: RawFile) -> Vec<u8> {
    if file.header[11] == 1 {
        return further_track(rng, file);
    }
    file.header[11] -= 1;
    file.bytes()
}

/// Leaves out some track and all behind it; unknown chunks may stand before it.
fn end_before_a_track(rng: &mut Rng, file: &mut RawFile) {
    let track = rng.pick(&file.tracks());
    file.chunks.truncate(track);
}

/// Puts an unknown chunk behind all others or anywhere among them; where it stands.
fn insert_unknown(rng: &mut Rng, file: &mut RawFile) -> usize {
    let last = file.chunks.len();
    let index = if rng.one_in(2) { last } else { rng.index(last + 1) };
    file.chunks.insert(index, unknown_chunk(rng).into());
    index
}

/// The file in which a chunk declares more bytes than are left.
fn declared_past_end(rng: &mut Rng, file: &RawFile, chunk: usize) -> Vec<u8> {
    let (place, mut bytes) = (file.place_of(chunk), file.bytes());
    let length = past(rng, bytes.len() - place - 8);
    declare(&mut bytes, place, length);
    bytes
}

/// A length over `left`: by one byte, by some or by far.
fn past(rng: &mut Rng, left: usize) -> u32 {
    let left = left as u32;
    match rng.below(4) {
        0 | 1 => left + 1,
        2 => left + rng.pick(&[2, 8, 255, 256]),
        _ => rng.pick(&[1 << 24, 1 << 28, 1 << 31, u32::MAX - 7, u32::MAX]),
    }
}

fn declare(file: &mut [u8], place: usize, length: u32) {
    file[place + 4..place + 8].copy_from_slice(&length.to_be_bytes());
}

/// Too few for a chunk's start.
fn few_bytes(rng: &mut Rng) -> Vec<u8> {
    let count = rng.between(1, 7) as usize;
    match rng.below(4) {
        0 => b"MTrk\0\0\0"[..count].to_vec(),
        1 => [&unknown_tag(rng)[..], &[0; 3]].concat()[..count].to_vec(),
        2 => vec![0; count],
        _ => rng.bytes(count),
    }
}
