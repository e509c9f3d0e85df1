//! A run of the fold: that it is good when the programs agree, and that the generator of
//! many tracks and the limits show each fault that is planted in one of them.

use second::compare::{Archive, Operation};
use second::fold::fold;
use second::generate::{file_case, fold_limit_cases, many_tracks_case};
use second::piece::{Event, Format, Piece, Time, Track};
use second::read_file::read_file;
use second::refusal::Answer;
use second::run::Run;
use second::spelling::Manner;
use second::write_file::write_file;

const GOOD: Operation = Operation::new(
    "fold",
    |file, _, room| fold(file, room),
    |file, _, room| fold(file, room).packed(),
);

/// The seeds of each source; `limits` takes long.
fn run_of(operation: &Operation, seeds: u64, limits: bool) -> Run<'_> {
    let mut run = Run::of(operation).silent();
    run.source("many tracks", 0..seeds, many_tracks_case);
    run.source("generated", 0..seeds, file_case);
    if limits {
        run.file_limits("fold limits", &fold_limit_cases());
    }
    run
}

#[test]
fn a_good_run_is_good() {
    let due: Vec<u8> = (0..=3).chain(5..=14).chain([29, 31, 32, 33]).collect();
    let run = run_of(&GOOD, 4_000, true);
    assert_eq!(run.differences(), 0);
    assert!(run.report(&due));
    // What is not due is not passed over.
    assert!(!run.report(&due[1..]));
    assert!(!run.report(&[&due[..], &[37]].concat()));
    let without_limits = run_of(&GOOD, 4_000, false);
    assert!(!without_limits.report(&due), "29 was not met");
}

/// Folds the piece with its tracks changed.
fn changed(file: &[u8], room: &mut [u8], change: fn(&mut Piece)) -> u64 {
    let Ok(mut piece) = read_file(file) else {
        return fold(file, room).packed();
    };
    change(&mut piece);
    fold(&write_file(&piece, Manner::Short).unwrap(), room).packed()
}

/// Answers as the fold does, but for what is changed in the answer.
fn answered(file: &[u8], room: &mut [u8], change: fn(&[u8], &mut Answer)) -> u64 {
    let mut answer = fold(file, room);
    change(file, &mut answer);
    answer.packed()
}

fn count_of(file: &[u8]) -> usize {
    file.get(10..12).map_or(0, |bytes| usize::from(bytes[0]) * 256 + usize::from(bytes[1]))
}

/// Events of equal Times in a track, End_track aside, the other way round.
fn turn_equal_times(track: &mut Track) {
    let events = track.events.len() - 1;
    let turned = |a: &Event, b: &Event| a.time == b.time;
    track.events[..events].chunk_by_mut(turned).for_each(|equal| equal.reverse());
}

/// Every End_track no later than the last track's, if its own events let it.
fn end_with_the_last(piece: &mut Piece) {
    let last = piece.tracks.last().map_or(Time::START, Track::end_time);
    for track in &mut piece.tracks {
        let before = track.events.iter().rev().nth(1).map_or(Time::START, |event| event.time);
        let end = track.events.last_mut().expect("an End_track");
        end.time = end.time.min(last.max(before));
    }
}

const PLANTED: [(&str, Archive); 14] = [
    ("ties reversed", |file, _, room| changed(file, room, |piece| piece.tracks.reverse())),
    ("own order broken", |file, _, room| {
        changed(file, room, |piece| piece.tracks.iter_mut().for_each(turn_equal_times))
    }),
    ("End_track with the last track's", |file, _, room| changed(file, room, end_with_the_last)),
    ("an event at Time 0 lost", |file, _, room| {
        changed(file, room, |piece| {
            let events = &mut piece.tracks.last_mut().expect("a track").events;
            if events.len() > 1 && events[0].time == Time::START {
                events.remove(0);
            }
        })
    }),
    ("an event doubled", |file, _, room| {
        changed(file, room, |piece| {
            let events = &mut piece.tracks[0].events;
            if events.len() > 1 {
                events.insert(0, events[0].clone());
            }
        })
    }),
    ("format 2 folded", |file, _, room| {
        changed(file, room, |piece| {
            if piece.format == Format::InTurn {
                piece.format = Format::Together;
            }
        })
    }),
    ("manner 0", |file, _, room| {
        let asked = fold(file, &mut []);
        if asked.number != 14 {
            return asked.packed();
        }
        let mut short = vec![0; asked.length];
        fold(file, &mut short);
        let full = write_file(&read_file(&short).unwrap(), Manner::Full).unwrap();
        match room.get_mut(..full.len()) {
            Some(start) => start.copy_from_slice(&full),
            None => return Answer::room_needed(full.len()).packed(),
        }
        Answer::success(full.len()).packed()
    }),
    ("31 at 64 tracks", |file, _, room| {
        answered(file, room, |file, answer| {
            if count_of(file) == 64 && [0, 14].contains(&answer.number) {
                *answer = Answer { number: 31, place: 10, length: 0 };
            }
        })
    }),
    ("31 only from 66 tracks", |file, _, room| {
        answered(file, room, |file, answer| {
            if count_of(file) == 65 && answer.number == 31 {
                *answer = Answer::room_needed(26);
            }
        })
    }),
    ("31 before 32", |file, _, room| {
        answered(file, room, |file, answer| {
            if count_of(file) > 64 && answer.number == 32 {
                *answer = Answer { number: 31, place: 10, length: 0 };
            }
        })
    }),
    ("33 one byte late", |file, _, room| {
        answered(file, room, |_, answer| answer.place += usize::from(answer.number == 33))
    }),
    ("33 in one track", |file, _, room| {
        let ports = [b"\xFF\x20\x01", b"\xFF\x21\x01"];
        let at = file.windows(3).position(|bytes| ports.iter().any(|port| bytes == *port));
        match (fold(file, room), at) {
            (answer, Some(place)) if count_of(file) == 1 && [0, 14].contains(&answer.number) => {
                Answer { number: 33, place, length: 0 }.packed()
            }
            (answer, _) => answer.packed(),
        }
    }),
    ("29 one early", |file, _, room| {
        answered(file, room, |_, answer| {
            if answer.length == 1_048_576 {
                *answer = Answer { number: 29, place: 0, length: 0 };
            }
        })
    }),
    ("33 writes", |file, _, room| {
        let answer = fold(file, room);
        if answer.number == 33 {
            room.iter_mut().take(4).zip(b"MThd").for_each(|(byte, tag)| *byte = *tag);
        }
        answer.packed()
    }),
];

#[test]
fn planted_faults_are_seen() {
    for (what, archive) in PLANTED {
        let operation = Operation { archive, ..GOOD };
        let differences = run_of(&operation, 4_000, what.starts_with("29")).differences();
        println!("{what}: {differences} differences");
        assert!(differences > 0, "{what} is not seen");
    }
}
