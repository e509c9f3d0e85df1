//! Files of many tracks for the fold: few Times, so that events meet within and across
//! tracks, and few channels, so that a status goes on from one track to another.

use crate::number::VARIABLE_MAX;
use crate::piece::{Delta, Division, Event, Format, Kind, Piece, Time, Track};
use crate::write_file::layout;

use super::damaged_file::mutated_copy;
use super::divisions::in_either_kind;
use super::pieces::{kind_of, spelling, KINDS};
use super::Rng;

/// The numbers of Channel_prefix and MIDI_port among the kinds.
const PREFIX_AND_PORT: [u64; 2] = [11, 12];

/// A file for this seed, one in sixteen with some bytes changed.
pub fn many_tracks_case(seed: u64) -> Vec<u8> {
    // Another stream than the file of the same seed.
    let rng = &mut Rng::new(seed ^ 1 << 62);
    let piece = many_tracks_piece(rng);
    let spelling = spelling(rng, &piece);
    let file = layout(&piece, &spelling).expect("a generated piece has a layout");
    if rng.one_in(16) {
        mutated_copy(rng, &file)
    } else {
        file
    }
}

/// A good piece, mostly of format 1.
pub fn many_tracks_piece(rng: &mut Rng) -> Piece {
    let format = match rng.below(16) {
        0 => Format::OneTrack,
        1 => Format::InTurn,
        _ => Format::Together,
    };
    let count = match rng.below(24) {
        _ if format == Format::OneTrack => 1,
        0 => 1,
        1 => rng.pick(&[63, 64, 65, 66]),
        2 => rng.between(13, 62),
        _ => rng.between(2, 12),
    };
    let common = Common {
        times: few_times(rng),
        channels: rng.between(1, 3),
        prefixes: rng.one_in(if count == 1 { 2 } else { 8 }),
    };
    let piece = Piece {
        format,
        division: Division::Pulses(rng.pick(&[1, 96, 480, 32_767])),
        tracks: (0..count).map(|_| track(rng, &common)).collect(),
    };
    in_either_kind(rng, piece)
}

/// What the tracks of a piece have in common.
struct Common {
    /// Those that events and End_tracks stand at, in order.
    times: Vec<Time>,
    channels: u64,
    /// Whether Channel_prefix and MIDI_port may come.
    prefixes: bool,
}

/// Near each other, at the bounds of a delta's widths, or as far as one delta goes.
fn few_times(rng: &mut Rng) -> Vec<Time> {
    let steps: &[u32] = match rng.below(4) {
        0 => &[0],
        1 => &[1, 1, 2, 100],
        2 => &[1, 127, 128, 16_383, 16_384, 2_097_151, 2_097_152],
        _ => &[VARIABLE_MAX, VARIABLE_MAX, VARIABLE_MAX, VARIABLE_MAX - 1, 1],
    };
    let mut time = rng.pick(&[0, steps[0]]);
    let mut times = vec![Time(time)];
    // Sixteen of the longest deltas go to the greatest Time there is.
    let most = if steps[0] == VARIABLE_MAX { 18 } else { rng.pick(&[5, 5, 20]) };
    for _ in 0..rng.between(0, most) {
        time = time.saturating_add(rng.pick(steps));
        times.push(Time(time));
    }
    times
}

fn track(rng: &mut Rng, common: &Common) -> Track {
    let count = match rng.below(8) {
        0 | 1 => 0,
        2 => rng.between(9, 30),
        _ => rng.between(1, 8),
    };
    let last = common.times.len() - 1;
    let (mut index, mut time) = (0, Time::START);
    let mut events = Vec::new();
    for _ in 0..count {
        index = last.min(index + rng.pick(&[0, 0, 0, 1, 1, 2]));
        time = toward(time, common.times[index]);
        events.push(Event { time, kind: kind(rng, common) });
    }
    // End_track stands with the last event, at a Time of others, or later than all.
    let wanted = match rng.below(3) {
        0 => time,
        1 => common.times[last.min(index + 1)],
        _ => Time(common.times[last].0.saturating_add(rng.below(1_000) as u32)),
    };
    events.push(Event { time: toward(time, wanted), kind: Kind::EndTrack });
    Track { events }
}

/// The Time wanted, or one as near to it as a delta reaches.
fn toward(time: Time, wanted: Time) -> Time {
    let furthest = time.after(Delta(VARIABLE_MAX)).unwrap_or(wanted);
    wanted.min(furthest)
}

/// Mostly notes; every other kind among them.
fn kind(rng: &mut Rng, common: &Common) -> Kind {
    let channel = rng.below(common.channels) as u8;
    let number = match rng.below(8) {
        0 => rng.below(7),
        1 if common.prefixes && rng.one_in(2) => rng.pick(&PREFIX_AND_PORT),
        1 => rng.below(KINDS - 1),
        _ => rng.below(2),
    };
    if PREFIX_AND_PORT.contains(&number) && !common.prefixes {
        return Kind::ChannelAftertouch { channel, value: 0 };
    }
    kind_of(rng, number, channel)
}
