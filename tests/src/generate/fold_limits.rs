//! Large files for the fold, by hand: those that fold to the limit of size and past it,
//! and those refused before that is seen.

use super::at_limit::{chunk, LimitCase, END_TRACK};
use crate::number::{fewest_bytes, write_variable};
use crate::FILE_MAX;

/// The number due is that of a fold in room enough.
pub fn fold_limit_cases() -> Vec<LimitCase> {
    let case = |what, file, number, place| LimitCase { what, file, number, place };
    let port = in_turn(1, 2, 174_755, own_status, MIDI_PORT);
    let (length, port_at) = (port.len(), port.len() - END_TRACK.len() - MIDI_PORT.len());
    // With room for one track more than is counted.
    let shorter = in_turn(1, 2, 174_752, own_status, MIDI_PORT);
    let further = [shorter.clone(), chunk(&[])].concat();
    vec![
        case("folded to one byte under the limit", folded_to(FILE_MAX - 1), 0, 0),
        case("folded to the limit", folded_to(FILE_MAX), 0, 0),
        case("folded to one byte over the limit", folded_to(FILE_MAX + 1), 29, 0),
        case("two tracks at the limit, statuses in turn", own_statuses(2, 174_756), 29, 0),
        case("one byte over the limit", [own_statuses(2, 174_756), vec![0]].concat(), 1, 0),
        case("one long text", in_turn(1, 2, 9, own_status, &text(1_000_000)), 0, 0),
        case("64 tracks, one status", in_turn(1, 64, 5_456, |_| 0x90, &[]), 0, 0),
        case("64 tracks, statuses in turn", own_statuses(64, 5_456), 29, 0),
        case("65 tracks, one status", in_turn(1, 65, 5_372, |_| 0x90, &[]), 31, 10),
        case("65 tracks, statuses in turn", own_statuses(65, 5_372), 31, 10),
        case("format 2", in_turn(2, 2, 174_756, own_status, &[]), 32, 8),
        case("33 comes before 29", port.clone(), 33, port_at),
        case("2 comes before 33 and 29", [port, vec![0]].concat(), 2, length),
        case("13 comes before 33 and 29", further, 13, shorter.len()),
    ]
}

const MIDI_PORT: &[u8] = &[0, 0xFF, 0x21, 1, 5];

/// A status that is not that of the track before or after.
fn own_status(track: usize) -> u8 {
    0x90 | (track % 16) as u8
}

fn own_statuses(tracks: usize, notes: usize) -> Vec<u8> {
    in_turn(1, tracks, notes, own_status, &[])
}

/// A file whose notes stand in turn, each a tick after that of the track before it; the
/// events of `last` come behind those of the last track. Each note but a track's first
/// leaves its status out; so 14 + tracks * (13 + 3 * notes) bytes, and `last`. The fold
/// takes 26 + 4 * tracks * notes, and `last`, where each note has a status of its own.
fn in_turn(
    format: u8,
    tracks: usize,
    notes: usize,
    status: fn(usize) -> u8,
    last: &[u8],
) -> Vec<u8> {
    let mut file = [&b"MThd\0\0\0\x06\0"[..], &[format, 0, tracks as u8, 0, 96]].concat();
    for track in 0..tracks {
        let first = [track as u8, status(track), 60, 64];
        let others = [tracks as u8, 60, 64].repeat(notes - 1);
        let last = if track == tracks - 1 { last } else { &[] };
        file.extend(chunk(&[&first, &others[..], last, END_TRACK].concat()));
    }
    file
}

/// Two tracks with statuses of their own, and a text that makes up the size due.
fn folded_to(size: usize) -> Vec<u8> {
    const NOTES: usize = 131_000;
    // The text has a delta, FF 01, two bytes of length and then this many.
    in_turn(1, 2, NOTES, own_status, &text(size - 26 - 8 * NOTES - 5))
}

fn text(length: usize) -> Vec<u8> {
    let mut event = vec![0, 0xFF, 1];
    let width = fewest_bytes(length as u32).expect("shorter than a file");
    write_variable(length as u32, width, &mut event);
    event.resize(event.len() + length, b'a');
    event
}
