//! Times: the greatest step, the greatest Time, Times that fall.

use crate::piece::{Division, Event, Format, Kind, Piece, Time, Track};

use super::super::pieces::kind_of;
use super::super::text_lines::{lines_of, Field};
use super::super::Rng;
use super::{is_named, number_in, Aim, Made};

const STEP: u32 = 268_435_455;

/// Where in a track the step is.
#[derive(Clone, Copy, Debug)]
enum Where {
    First,
    Later,
    EndTrack,
    OnlyEndTrack,
}

pub fn aims() -> Vec<Aim> {
    let mut aims = Vec::new();
    for place in [Where::First, Where::Later, Where::EndTrack, Where::OnlyEndTrack] {
        let steps =
            [(0, 0), (127, 0), (128, 0), (16_383, 0), (16_384, 0), (2_097_151, 0), (2_097_152, 0)];
        let greatest = [(STEP - 1, 0), (STEP, 0), (STEP + 1, 27), (STEP + 2, 27), (1 << 31, 27)];
        for (step, number) in steps.into_iter().chain(greatest) {
            aims.push(Aim::new(format!("{place:?}: step {step}"), number, move |rng| {
                stepped(rng, place, step, number)
            }));
        }
        aims.push(Aim::new(format!("{place:?}: Time 4294967295 at once"), 27, move |rng| {
            stepped(rng, place, u32::MAX - 3_000, 27)
        }));
    }
    for (last, number) in [(u32::MAX, 0), (u32::MAX - 1, 0)] {
        aims.push(Aim::new(format!("End_track at {last}"), number, move |rng| far(rng, last)));
    }
    aims.push(Aim::new("an event at 4294967296", 22, |rng| after_far(rng, b"4294967296")));
    aims.push(Aim::new("an event at 0 after 4294967295", 26, |rng| after_far(rng, b"0")));
    for fall in [1, 2, 1_000] {
        for place in [Where::Later, Where::EndTrack] {
            aims.push(Aim::new(format!("{place:?}: Time falls by {fall}"), 26, move |rng| {
                fallen(rng, place, fall)
            }));
        }
    }
    aims
}

/// One or two tracks, of which the last has `count` events before End_track, all at
/// Times under 3,000.
fn small(rng: &mut Rng, count: usize) -> Piece {
    let mut track = |count: usize| {
        let mut events = Vec::new();
        let mut time = 0;
        for index in 0..=count {
            time += rng.below(300) as u32;
            let number = if index < count { rng.below(19) } else { 19 };
            events.push(Event { time: Time(time), kind: kind_of(rng, number, 0) });
        }
        Track { events }
    };
    let tracks = vec![track(2), track(count)];
    Piece { format: Format::Together, division: Division::Pulses(96), tracks }
}

/// The index of the event meant, in a track of so many before End_track.
fn target(rng: &mut Rng, place: Where) -> (usize, usize) {
    let count = 2 + rng.index(6);
    match place {
        Where::First => (0, count),
        Where::Later => (1 + rng.index(count - 1), count),
        Where::EndTrack => (count, count),
        Where::OnlyEndTrack => (0, 0),
    }
}

/// A step of this length before one event; all later ones move with it.
fn stepped(rng: &mut Rng, place: Where, step: u32, number: u8) -> Made {
    let (index, count) = target(rng, place);
    let mut piece = small(rng, count);
    let events = &mut piece.tracks[1].events;
    let before = index.checked_sub(1).map_or(0, |before| events[before].time.0);
    let old = events[index].time.0;
    for event in &mut events[index..] {
        event.time = Time(event.time.0 - old + before + step);
    }
    of_second_track(&piece, index, number)
}

fn of_second_track(piece: &Piece, index: usize, number: u8) -> Made {
    let lines = lines_of(piece);
    let is_start = |line: &_| is_named(line, &["Start_track"]) && number_in(line, 0) == 2;
    let start = lines.iter().position(is_start).expect("a second track");
    Made::Lines(lines, (number > 0).then_some(start + 1 + index))
}

fn fallen(rng: &mut Rng, place: Where, fall: u32) -> Made {
    let (index, count) = target(rng, place);
    let mut piece = small(rng, count);
    let events = &mut piece.tracks[1].events;
    for event in &mut events[..index] {
        event.time = Time(event.time.0 + fall);
    }
    events[index].time = Time(events[index - 1].time.0 - fall);
    of_second_track(&piece, index, 26)
}

/// Sixteen of the greatest steps, and one to the end.
fn far_piece(rng: &mut Rng, last: u32) -> Piece {
    let mut piece = small(rng, 0);
    let events = (1..=16).map(|step| {
        let number = rng.below(19);
        Event { time: Time(step * STEP), kind: kind_of(rng, number, 0) }
    });
    piece.tracks[1].events = events.collect();
    piece.tracks[1].events.push(Event { time: Time(last), kind: Kind::EndTrack });
    piece
}

fn far(rng: &mut Rng, last: u32) -> Made {
    Made::Lines(lines_of(&far_piece(rng, last)), None)
}

/// An event at the greatest Time, and End_track at a Time spelled so.
fn after_far(rng: &mut Rng, time: &'static [u8]) -> Made {
    let mut piece = far_piece(rng, u32::MAX);
    let event = Event { time: Time(u32::MAX), kind: kind_of(rng, 4, 0) };
    piece.tracks[1].events.insert(16, event);
    let mut lines = lines_of(&piece);
    let end = lines.len() - 2;
    lines[end][1] = Field::Raw(time.to_vec());
    Made::Lines(lines, Some(end))
}
