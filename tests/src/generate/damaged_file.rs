//! Files damaged so as to meet one refusal number, and files damaged anyhow.

use super::damaged_chunks::{aimed_at_chunks, bad_header, cut_short, further_track};
use super::raw_file::RawFile;
use super::Rng;

/// A file aimed at a random one of the numbers 2..13 (1 needs a large file), or at a rule
/// of header and chunks; 4 is not given.
pub fn aimed(rng: &mut Rng) -> Vec<u8> {
    let file = RawFile::good(rng);
    damaged(rng, file)
}

/// The same made of a good file.
pub fn damaged(rng: &mut Rng, mut file: RawFile) -> Vec<u8> {
    match rng.between(2, 15) {
        2 => return cut_short(rng, file),
        3 => bad_header(rng, &mut file.header),
        5 => too_long_number(rng, &mut file),
        6 => event_cut_short(rng, &mut file),
        7 => time_too_great(rng, &mut file),
        8 => bad_status(rng, &mut file),
        9 => bad_channel_data(rng, &mut file),
        10 => bad_meta_length(rng, &mut file),
        11 => bad_meta_value(rng, &mut file),
        12 => after_end_track(rng, &mut file),
        13 => return further_track(rng, file),
        _ => return aimed_at_chunks(rng, file),
    }
    file.bytes()
}

fn too_long_number(rng: &mut Rng, file: &mut RawFile) {
    let number: &[u8] = rng.pick(&[
        &[0x80, 0x80, 0x80, 0x80, 0x00][..],
        &[0xFF, 0xFF, 0xFF, 0xFF, 0x7F],
        &[0x80, 0x80, 0x80, 0x80],
        &[0x81, 0x80, 0x80, 0xFF, 0x00],
    ]);
    let before: &[u8] =
        rng.pick(&[&[][..], &[], &[0, 0xF0], &[0, 0xF7], &[0, 0xFF, 1], &[0, 0xFF, 0x51]]);
    file.insert(rng, [before, number, &[0xC0, 0]].concat());
}

fn event_cut_short(rng: &mut Rng, file: &mut RawFile) {
    let track = file.any_track(rng);
    let last = track.parts.len() - 1;
    match rng.below(4) {
        0 => {
            // The bytes are there, the declared length leaves them out.
            let length = track.true_length();
            track.length = Some((length - 1 - rng.index(length)) as u32);
        }
        1 => {
            track.parts.remove(last);
        }
        2 => {
            let cut = rng.index(last + 1);
            track.parts.truncate(cut + 1);
            let length = track.parts[cut].len();
            track.parts[cut].truncate(rng.index(length));
        }
        _ => {
            let body = [&[0, 0xF0][..], &[0, 0xFF, 5], &[0, 0xFF, 0x7F], &[0, 0xFF, 0x60]];
            let length: &[u8] = rng.pick(&[&[0x7F][..], &[0x87, 0x7F], &[0xFF, 0xFF, 0xFF, 0x7F]]);
            track.parts[last] = [rng.pick(&body), length, b"short"].concat();
        }
    }
}

fn time_too_great(rng: &mut Rng, file: &mut RawFile) {
    let deltas = rng.between(15, 17);
    let last = rng.pick(&[0x0E, 0x0F, 0x10, 0x11]);
    let track = file.any_track(rng);
    let end = track.parts.len() - 1;
    // Alone in its track half the time: then only `last` decides.
    if rng.one_in(2) {
        track.parts.drain(..end);
    }
    for _ in 0..deltas {
        track.parts.insert(0, vec![0xFF, 0xFF, 0xFF, 0x7F, 0xC0, 1]);
    }
    let end = track.parts.len() - 1;
    let after: &[u8] =
        rng.pick(&[&[][..], &[0xFF, 0x2F, 0], &[0xF4], &[0xC0], &[0xFF, 0x2F, 1, 0]]);
    track.parts[end] = [&[last], after].concat();
}

fn bad_status(rng: &mut Rng, file: &mut RawFile) {
    let data = rng.below(128) as u8;
    match rng.below(5) {
        0 => {
            let statuses: Vec<u8> = (0xF1..=0xF6).chain(0xF8..=0xFE).collect();
            let status = rng.pick(&statuses);
            file.insert(rng, vec![0, status, data, data]);
        }
        1 => {
            let meta_type = rng.between(128, 255) as u8;
            file.insert(rng, vec![0, 0xFF, meta_type, 0]);
        }
        2 => file.any_track(rng).parts.insert(0, vec![0, data, data]),
        3 => file.any_track(rng).parts.insert(0, vec![data]),
        _ => {
            // A status is not kept in force over these.
            let over: &[u8] = rng.pick(&[&[0, 0xFF, 1, 0][..], &[0, 0xF0, 0], &[0, 0xF7, 1, 0x90]]);
            file.insert(rng, [&[0, 0x90, 60, 64], over, &[0, data, 0]].concat());
        }
    }
}

fn bad_channel_data(rng: &mut Rng, file: &mut RawFile) {
    let status = rng.between(0x80, 0xEF) as u8;
    let bad = rng.pick(&[0x80, 0x81, 0x90, 0xF0, 0xF7, 0xF8, 0xFE, 0xFF]);
    let event = match rng.below(3) {
        0 => vec![0, status, bad, 0],
        1 => vec![0, status, 1, bad],
        _ => vec![0, 0x9F & status, 1, 2, 0, 1, bad],
    };
    file.insert(rng, event);
}

const FIXED: [(u8, u8); 8] =
    [(0, 2), (0x20, 1), (0x21, 1), (0x2F, 0), (0x51, 3), (0x54, 5), (0x58, 4), (0x59, 2)];

fn bad_meta_length(rng: &mut Rng, file: &mut RawFile) {
    let (meta_type, due) = rng.pick(&FIXED);
    let length = if rng.one_in(2) { due + 1 } else { due.wrapping_sub(1) & 0x7F };
    let spelled = rng.pick(&[&[][..], &[0x80], &[0x80, 0x80, 0x80]]);
    // At times without the body: the length is at fault before it.
    let body = if rng.one_in(3) { Vec::new() } else { vec![1; usize::from(length)] };
    let event = [&[0, 0xFF, meta_type], spelled, &[length], &body].concat();
    if body.is_empty() {
        let track = file.any_track(rng);
        let end = track.parts.len() - 1;
        track.parts[end] = event;
    } else {
        file.insert(rng, event);
    }
}

fn bad_meta_value(rng: &mut Rng, file: &mut RawFile) {
    let some = rng.byte();
    let bad: &[u8] = match rng.below(4) {
        0 => &[0x51, 3, 0, 0, 0],
        1 => &[0x54, 5, 96, 0, 3, 0, some % 156 + 100],
        2 => rng.pick(&[&[0x59, 2, 8, 0][..], &[0x59, 2, 0xF8, 1], &[0x59, 2, 0x80, 0]]),
        _ => rng.pick(&[&[0x59, 2, 0, 2][..], &[0x59, 2, 7, 255], &[0x59, 2, 0xF9, 2]]),
    };
    file.insert(rng, [&[0, 0xFF], bad].concat());
}

fn after_end_track(rng: &mut Rng, file: &mut RawFile) {
    let more = match rng.below(3) {
        0 => vec![0],
        1 => vec![0, 0xFF, 0x2F, 0],
        _ => {
            let count = rng.between(1, 12) as usize;
            rng.bytes(count)
        }
    };
    file.any_track(rng).parts.push(more);
}

/// A file of `make` with some bytes changed, lost, doubled or put in.
pub fn mutated(rng: &mut Rng, make: fn(&mut Rng) -> Vec<u8>) -> Vec<u8> {
    let file = make(rng);
    mutated_copy(rng, &file)
}

/// A copy of `file` with some bytes changed, lost, doubled or put in.
pub fn mutated_copy(rng: &mut Rng, file: &[u8]) -> Vec<u8> {
    let mut copy = file.to_vec();
    for _ in 0..rng.between(1, 4) {
        mutate(rng, &mut copy);
    }
    copy
}

/// One small random change; also of use for texts.
pub fn mutate(rng: &mut Rng, bytes: &mut Vec<u8>) {
    if bytes.is_empty() {
        return;
    }
    let at = rng.index(bytes.len());
    let run = rng.between(1, 8).min((bytes.len() - at) as u64) as usize;
    match rng.below(6) {
        0 => bytes[at] = rng.byte(),
        1 => bytes[at] ^= 1 << rng.below(8),
        2 => {
            bytes.drain(at..at + run);
        }
        3 => bytes.insert(at, rng.pick(&[0, 0x7F, 0x80, 0x90, 0xF0, 0xFF])),
        4 => {
            let copy = bytes[at..at + run].to_vec();
            bytes.splice(at..at, copy);
        }
        _ => bytes.truncate(at),
    }
}

/// Random bytes, at times behind a good header and track start.
pub fn random_bytes(rng: &mut Rng) -> Vec<u8> {
    let count = rng.index(80);
    let bytes = rng.bytes(count);
    match rng.below(3) {
        0 => bytes,
        1 => [b"MThd\0\0\0\x06\0\0\0\x01\0\x60", &bytes[..]].concat(),
        _ => {
            let start = b"MThd\0\0\0\x06\0\0\0\x01\0\x60MTrk\0\0\0";
            // Few events, each of a few random bytes, so that some are good.
            [&start[..], &[bytes.len() as u8], &bytes].concat()
        }
    }
}
