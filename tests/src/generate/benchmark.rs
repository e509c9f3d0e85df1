//! The files to measure with.

use crate::piece::{Division, Event, Format, Kind, Piece, TextKind, Time, Track};
use crate::spelling::{shortest, Manner};
use crate::write_file::{write_event, write_file};
use crate::FILE_MAX;

use super::chunk_limits::{among_tracks, round_track};
use super::pieces::{kind_of, KINDS};
use super::Rng;

const SEED: u64 = 1_048_576;
const LEAST: usize = 1_048_000;
/// How many times as large the file is as the small one.
const TIMES_SMALL: usize = 16;
const TRACKS: usize = 16;
const TEXT_MOST: usize = 60;
/// The number of Note_on_c among the kinds.
const NOTE_ON: u64 = 1;

/// Always the same file of 1,048,000 to 1,048,576 bytes, in manner 1, with
/// every kind of event and all seven texts, no event over 100 bytes.
pub fn benchmark_file() -> Vec<u8> {
    file_of(LEAST)
}

/// One like it, a sixteenth as large, to see how times grow.
pub fn small_benchmark_file() -> Vec<u8> {
    file_of(LEAST / TIMES_SMALL)
}

/// Always the same file of 1,048,000 to 1,048,576 bytes in manner 1, to be folded: so
/// many tracks of notes, each note a tick after that of the track before it. All have
/// one status, so that the fold leaves it out too and is no longer than the file.
pub fn fold_benchmark_file(tracks: usize) -> Vec<u8> {
    notes_in_turn(tracks, FILE_MAX)
}

/// One like it, a sixteenth as large.
pub fn small_fold_benchmark_file(tracks: usize) -> Vec<u8> {
    notes_in_turn(tracks, FILE_MAX / TIMES_SMALL)
}

/// Always the same file of 1,048,576 bytes: as many empty unknown chunks as it holds,
/// half of them before its one track, half behind.
pub fn chunks_round_track_file() -> Vec<u8> {
    chunks_round_track(FILE_MAX)
}

/// One like it, a sixteenth as large.
pub fn small_chunks_round_track_file() -> Vec<u8> {
    chunks_round_track(FILE_MAX / TIMES_SMALL)
}

fn chunks_round_track(size: usize) -> Vec<u8> {
    // Of eight bytes each, beside the header of 14 and a track of 12.
    let chunks = (size - 26) / 8;
    round_track(size, chunks / 2, chunks - chunks / 2)
}

/// Always the same file of 1,048,576 bytes: as many tracks as can be counted, each
/// End_track alone, and an empty unknown chunk between every other two.
pub fn chunks_among_tracks_file() -> Vec<u8> {
    among_tracks(FILE_MAX, u16::MAX)
}

/// One like it, a sixteenth as large.
pub fn small_chunks_among_tracks_file() -> Vec<u8> {
    among_tracks(FILE_MAX / TIMES_SMALL, u16::MAX / TIMES_SMALL as u16)
}

/// Up to 64 tracks with as many notes as there is room for, in each the same number.
fn notes_in_turn(tracks: usize, most: usize) -> Vec<u8> {
    let rng = &mut Rng::new(SEED);
    // Of a track 8 bytes before its events, a status, End_track's 4; a note takes 3.
    let notes = ((most - 14) / tracks - 13) / 3;
    let event = |track: usize, index: usize, kind| Event {
        time: Time((index * tracks + track) as u32),
        kind,
    };
    let mut track = |track: usize| {
        let mut events: Vec<Event> =
            (0..notes).map(|index| event(track, index, kind_of(rng, NOTE_ON, 0))).collect();
        events.push(event(track, notes - 1, Kind::EndTrack));
        Track { events }
    };
    let tracks = (0..tracks).map(&mut track).collect();
    let piece = Piece { format: Format::Together, division: Division::Pulses(480), tracks };
    write_file(&piece, Manner::Short).expect("short steps")
}

fn file_of(least: usize) -> Vec<u8> {
    let rng = &mut Rng::new(SEED);
    let mut size = 14;
    let mut tracks = Vec::new();
    for number in 1..=TRACKS {
        // Each track brings the file to its share, the last to its least size.
        size += 8;
        let (track, length) = track(rng, (least * number / TRACKS).saturating_sub(size));
        size += length;
        tracks.push(track);
    }
    let piece = Piece { format: Format::Together, division: Division::Pulses(480), tracks };
    write_file(&piece, Manner::Short).expect("the benchmark's piece has a layout")
}

/// A track of at least `least` bytes of events, and how many it has.
fn track(rng: &mut Rng, least: usize) -> (Track, usize) {
    let mut events: Vec<Event> = Vec::new();
    let mut bytes = Vec::new();
    let mut time = 0;
    while bytes.len() + 4 < least {
        time += rng.pick(&[0, 0, 12, 120, 240, 1_000, 20_000]);
        let event = Event { time: Time(time), kind: short_kind(rng) };
        append(&event, events.last(), &mut bytes);
        events.push(event);
    }
    let end = Event { time: Time(time), kind: Kind::EndTrack };
    append(&end, events.last(), &mut bytes);
    events.push(end);
    (Track { events }, bytes.len())
}

fn append(event: &Event, before: Option<&Event>, bytes: &mut Vec<u8>) {
    shortest(event, before)
        .and_then(|spelling| write_event(event, before, spelling, bytes))
        .expect("a short step and length");
}

/// Mostly channel events, as in music, and every other kind among them.
fn short_kind(rng: &mut Rng) -> Kind {
    let number = if rng.below(4) < 3 { rng.below(7) } else { rng.below(KINDS - 1) };
    let channel = rng.below(4) as u8;
    let mut kind = kind_of(rng, number, channel);
    match &mut kind {
        Kind::Text(_, data)
        | Kind::SystemExclusive(data)
        | Kind::SystemExclusivePacket(data)
        | Kind::SequencerSpecific(data)
        | Kind::UnknownMeta { data, .. } => data.truncate(TEXT_MOST),
        _ => {}
    }
    if let Kind::Text(_, data) = kind {
        kind = Kind::Text(rng.pick(&TextKind::ALL), data);
    }
    kind
}
