//! What holds of every fold, on seeded pieces of many tracks and few Times.

mod common;

use std::collections::{BTreeMap, BTreeSet};

use common::{folded, tidied, UNTOUCHED};
use second::coverage::Coverage;
use second::fold::{self, fold_rows};
use second::generate::{file_case, many_tracks_case, many_tracks_piece, room, spelling, Rng};
use second::number::{read_variable, VARIABLE_MAX};
use second::operations::list_tracks;
use second::piece::{Event, Format, Kind, Piece, Time};
use second::read_file::read_file;
use second::spelling::Manner;
use second::write_file::{layout, write_file};

const SEEDS: u64 = 6_000;

/// A piece that the fold takes, its file in a random spelling, and the folded piece.
fn pieces() -> impl Iterator<Item = (u64, Piece, Vec<u8>, Piece)> {
    (0..SEEDS).filter_map(|seed| {
        let rng = &mut Rng::new(seed);
        let piece = many_tracks_piece(rng);
        let file = layout(&piece, &spelling(rng, &piece)).unwrap();
        let made = folded(&file).ok()?;
        Some((seed, piece, file, read_file(&made).unwrap()))
    })
}

fn is_end(event: &Event) -> bool {
    event.kind == Kind::EndTrack
}

/// The events but End_tracks, sorted by what they are.
fn sorted<'a>(pieces: impl Iterator<Item = &'a Event>) -> Vec<String> {
    let mut events: Vec<String> =
        pieces.filter(|event| !is_end(event)).map(|event| format!("{event:?}")).collect();
    events.sort();
    events
}

#[test]
fn each_event_appears_once() {
    let mut count = 0;
    for (seed, piece, _, fold) in pieces() {
        let old = sorted(piece.tracks.iter().flat_map(|track| &track.events));
        assert_eq!(old, sorted(fold.tracks[0].events.iter()), "seed {seed}");
        count += old.len();
    }
    println!("{count} events, seeds 0..{SEEDS}");
    assert!(count > 50_000);
}

#[test]
fn the_head_and_the_end_are_as_due() {
    let mut later = 0;
    for (seed, piece, _, fold) in pieces() {
        assert_eq!((fold.format, fold.division), (Format::OneTrack, piece.division), "seed {seed}");
        assert_eq!(fold.tracks.len(), 1, "seed {seed}");
        let events = &fold.tracks[0].events;
        assert_eq!(events.iter().filter(|event| is_end(event)).count(), 1, "seed {seed}");
        let ends = piece.tracks.iter().map(|track| track.end_time());
        assert_eq!(Some(fold.tracks[0].end_time()), ends.max(), "seed {seed}");
        let last = piece.tracks.last().unwrap().end_time();
        later += u32::from(fold.tracks[0].end_time() > last);
    }
    assert!(later > 500, "the last track's End_track was last all but {later} times");
}

/// The order by its own words: of the events that come next in their tracks, the one
/// with the least Time, and of those the one in the least track.
#[test]
fn the_order_is_as_due() {
    let (mut across, mut within) = (0, 0);
    for (seed, piece, _, fold) in pieces() {
        let mut at = vec![0; piece.tracks.len()];
        let mut before: Option<(Time, usize)> = None;
        for event in fold.tracks[0].events.iter().filter(|event| !is_end(event)) {
            let next = |track: usize| &piece.tracks[track].events[at[track]];
            let open = (0..at.len()).filter(|track| !is_end(next(*track)));
            let (time, track) = open.map(|track| (next(track).time, track)).min().unwrap();
            assert_eq!(event, next(track), "seed {seed}");
            if let Some((_, other)) = before.filter(|(earlier, _)| *earlier == time) {
                *if other == track { &mut within } else { &mut across } += 1;
            }
            before = Some((time, track));
            at[track] += 1;
        }
        let left = at.iter().zip(&piece.tracks).map(|(at, track)| track.events.len() - at);
        assert!(left.into_iter().all(|left| left == 1), "seed {seed}: only End_tracks are left");
    }
    println!("equal Times: {across} across tracks, {within} within one, seeds 0..{SEEDS}");
    assert!(across > 20_000 && within > 20_000);
}

#[test]
fn no_step_passes_the_bound() {
    let (mut greatest, mut across) = (0, 0);
    for (seed, piece, _, fold) in pieces() {
        let mut before = 0;
        for Event { time, .. } in &fold.tracks[0].events {
            let step = time.0 - before;
            assert!(step <= VARIABLE_MAX, "seed {seed}");
            if step == VARIABLE_MAX {
                greatest += 1;
                across += u32::from(piece.tracks.len() > 1);
            }
            before = time.0;
        }
    }
    println!("{greatest} steps of {VARIABLE_MAX}, {across} of them in pieces of several tracks");
    assert!(across > 500);
}

#[test]
fn folding_twice_is_folding_once() {
    for (seed, piece, file, fold) in pieces() {
        let once = folded(&file).unwrap();
        assert_eq!(folded(&once).as_ref(), Ok(&once), "seed {seed}");
        assert_eq!(tidied(&once).as_ref(), Ok(&once), "seed {seed}: manner 1");
        assert_eq!(write_file(&fold, Manner::Short).as_ref(), Some(&once), "seed {seed}");
        // Only the piece counts, not how the file spells it.
        assert_eq!(folded(&tidied(&file).unwrap()), Ok(once), "seed {seed}");
        assert_eq!(fold::folded(piece), fold, "seed {seed}");
    }
}

#[test]
fn format_0_comes_back_tidied() {
    let (mut count, mut refused) = (0, 0);
    for file in (0..SEEDS).flat_map(|seed| [file_case(seed), many_tracks_case(seed)]) {
        match read_file(&file) {
            Ok(piece) if piece.format == Format::OneTrack => {
                count += 1;
                assert_eq!(folded(&file), tidied(&file));
            }
            Ok(_) => {}
            Err(refusal) => {
                refused += 1;
                assert_eq!(folded(&file), Err(refusal.into()));
            }
        }
    }
    println!("{count} files of format 0, {refused} refused by the reader, seeds 0..{SEEDS}");
    assert!(count > 500 && refused > 1_000);
}

/// A row's place is that of a delta, then FF 2F and the length 0, which end the track.
#[test]
fn rows_lead_to_the_end_tracks() {
    for (seed, piece, file, _) in pieces() {
        let count = piece.tracks.len();
        let (mut rows, mut after_success) = ([UNTOUCHED; 66], [UNTOUCHED; 66]);
        let asked = fold_rows(&file, &mut [], &mut rows[..count + 2]);
        assert_eq!(asked.number, 14, "seed {seed}");
        let answer = fold_rows(&file, &mut vec![0; asked.length], &mut after_success);
        assert_eq!((answer.number, after_success), (0, rows), "seed {seed}");
        assert!(rows[count..].iter().all(|row| *row == UNTOUCHED), "seed {seed}: spare rows");
        let mut times = [0; 64];
        list_tracks(&file, &mut times, &mut [0; 64], &mut [0; 64]);
        let ends = track_ends(&file);
        assert_eq!(ends.len(), count, "seed {seed}");
        for (index, (row, end)) in rows.iter().zip(ends).enumerate() {
            assert_eq!((row.time.0, row.status), (times[index], 0), "seed {seed}");
            let events = &piece.tracks[index].events;
            let before = events.iter().rev().nth(1).map_or(0, |event| event.time.0);
            let delta = read_variable(&file[row.place..end]).unwrap();
            assert_eq!(delta.value, row.time.0 - before, "seed {seed}");
            let bytes = &file[row.place + delta.width..end];
            assert_eq!(bytes[..2], [0xFF, 0x2F], "seed {seed}");
            let length = read_variable(&bytes[2..]).unwrap();
            assert_eq!((length.value, length.width), (0, bytes.len() - 2), "seed {seed}");
        }
    }
}

/// Where the tracks of a good file end, whatever stands round them.
fn track_ends(file: &[u8]) -> Vec<usize> {
    let end =
        |at: usize| at + 8 + u32::from_be_bytes(file[at + 4..at + 8].try_into().unwrap()) as usize;
    let (mut at, mut ends) = (0, Vec::new());
    while at < file.len() {
        if file[at..].starts_with(b"MTrk") {
            ends.push(end(at));
        }
        at = end(at);
    }
    ends
}

/// What the generator of many tracks must not lose without anybody seeing it.
#[test]
fn the_generator_meets_every_number_and_count() {
    let (mut numbers, mut counts, mut formats) = (BTreeMap::new(), BTreeSet::new(), [0; 3]);
    let mut held = Coverage::default();
    for seed in 0..20_000 {
        let file = many_tracks_case(seed);
        let asked = fold::fold(&file, &mut []);
        let size = room(&mut Rng::new(seed), asked.length);
        let answer = fold::fold(&file, &mut vec![0; size]);
        *numbers.entry(answer.number).or_insert(0) += 1;
        if let Ok(piece) = read_file(&file) {
            counts.insert(piece.tracks.len());
            formats[usize::from(piece.format.number())] += 1;
            if asked.number == 14 {
                held.add(&piece);
            }
        }
    }
    println!("seeds 0..20000: {numbers:?}, formats {formats:?}; {}", held.summary());
    let records = held.missing().into_iter().filter(|word| !word.contains(' '));
    assert_eq!(records.collect::<Vec<_>>(), [""; 0], "records never folded");
    assert!(counts.into_iter().eq(1..=66), "a count of tracks was not met");
    for (number, least) in [(0, 8_000), (14, 3_000), (31, 100), (32, 500), (33, 500)] {
        assert!(numbers.get(&number).is_some_and(|count| *count >= least), "{number}: {numbers:?}");
    }
    assert!(!numbers.contains_key(&37) && !numbers.contains_key(&27), "{numbers:?}");
    assert!(formats.iter().all(|count| *count > 500), "{formats:?}");
}
