//! Files at the limit of size and past it that have a long header or unknown chunks, by hand.

use super::at_limit::{chunk, notes, LimitCase, Shape, END_TRACK};
use crate::FILE_MAX;

/// What it is, a maker of such a file of a given size, the answer at the limit.
pub(super) const SHAPES: [Shape; 11] = [
    ("a track more than counted", |size| with(size, b"MTrk\0\0\0\0"), 13, FILE_MAX - 8),
    ("an empty chunk behind the track", |size| with(size, EMPTY), 0, 0),
    ("a chunk that is a byte too long", |size| with(size, b"XFIH\0\0\0\x01"), 2, FILE_MAX - 8),
    ("a long chunk before the track", |size| long_chunk(size, true), 0, 0),
    ("a long chunk behind the track", |size| long_chunk(size, false), 0, 0),
    ("a long header", |size| padded(size, 0, 1, &empty_track()), 0, 0),
    ("131,068 empty chunks before a track", |size| round_track(size, 131_068, 0), 0, 0),
    ("131,068 empty chunks behind a track", |size| round_track(size, 0, 131_068), 0, 0),
    ("131,068 empty chunks, then six bytes", then_six_bytes, 2, FILE_MAX - 6),
    ("131,070 empty chunks, then two bytes", no_track, 2, FILE_MAX - 2),
    ("32,767 empty chunks among 65,535 tracks", |size| among_tracks(size, 65_535), 0, 0),
];

/// Just so many chunks that less than one more would fit: the track is due where the file
/// ends.
pub(super) fn exactly_empty_chunks() -> LimitCase {
    let file = no_track(FILE_MAX - 2);
    let place = file.len();
    LimitCase { what: "131,070 empty chunks and no track", file, number: 2, place }
}

const EMPTY: &[u8] = b"XFIH\0\0\0\0";

fn empty_track() -> Vec<u8> {
    chunk(END_TRACK)
}

/// A file of just this size: the header has as many extra bytes as that takes.
fn padded(size: usize, format: u8, tracks: u16, rest: &[u8]) -> Vec<u8> {
    let extra = size - 14 - rest.len();
    let mut file = b"MThd".to_vec();
    file.extend((6 + extra as u32).to_be_bytes());
    file.extend([0, format]);
    file.extend(tracks.to_be_bytes());
    file.extend([0, 96]);
    file.resize(14 + extra, b'x');
    file.extend(rest);
    file
}

/// Notes, and then these bytes.
fn with(size: usize, rest: &[u8]) -> Vec<u8> {
    [&notes(size - rest.len())[..], rest].concat()
}

fn long_chunk(size: usize, before: bool) -> Vec<u8> {
    let track = empty_track();
    let length = size - 14 - track.len() - 8;
    let data = b"MTrk\0\0\0\0".iter().copied().cycle().take(length).collect();
    let unknown = [b"XFKM".to_vec(), (length as u32).to_be_bytes().to_vec(), data].concat();
    let rest = if before { [unknown, track] } else { [track, unknown] };
    padded(size, 0, 1, &rest.concat())
}

/// One track with so many empty chunks before and behind it.
pub(super) fn round_track(size: usize, before: usize, behind: usize) -> Vec<u8> {
    let rest = [EMPTY.repeat(before), empty_track(), EMPTY.repeat(behind)].concat();
    padded(size, 0, 1, &rest)
}

fn then_six_bytes(size: usize) -> Vec<u8> {
    [round_track(size - 6, 0, 131_068), vec![0; 6]].concat()
}

/// As many empty chunks as there is room for, and what is left over.
fn no_track(size: usize) -> Vec<u8> {
    let rest = [EMPTY.repeat((size - 14) / 8), vec![0; (size - 14) % 8]].concat();
    padded(size, 0, 1, &rest)
}

/// An odd number of tracks, with an empty chunk between every other two.
pub(super) fn among_tracks(size: usize, tracks: u16) -> Vec<u8> {
    let three = [&empty_track(), EMPTY, &empty_track()].concat();
    let rest = [three.repeat(usize::from(tracks / 2)), empty_track()].concat();
    padded(size, 1, tracks, &rest)
}
