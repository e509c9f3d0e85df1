//! Random good pieces and permitted spellings of them.

use crate::number::VARIABLE_MAX;
use crate::piece::{
    has_own_name, Delta, Division, Event, Format, Kind, Mode, Piece, TextKind, Time, Track,
};
use crate::spelling::{EventSpelling, Spelling};

use super::divisions::in_either_kind;
use super::unknown_chunks::besides;
use super::Rng;

/// How many kinds of event there are, End_track among them.
pub const KINDS: u64 = 20;

pub fn piece(rng: &mut Rng) -> Piece {
    let piece = pulse_piece(rng);
    in_either_kind(rng, piece)
}

/// One timed in pulses: for programs that do not write files of frames.
pub fn pulse_piece(rng: &mut Rng) -> Piece {
    let format = rng.pick(&[Format::OneTrack, Format::Together, Format::Together, Format::InTurn]);
    let tracks = match format {
        Format::OneTrack => 1,
        _ if rng.one_in(20) => rng.between(5, 20),
        _ => rng.between(1, 4),
    };
    let pulses = rng.pick(&[1, 24, 96, 127, 128, 255, 256, 480, 960, 32_767]);
    Piece {
        format,
        division: Division::Pulses(pulses),
        tracks: (0..tracks).map(|_| track(rng)).collect(),
    }
}

fn track(rng: &mut Rng) -> Track {
    let count = match rng.below(12) {
        0 => 0,
        1 => rng.between(20, 80),
        _ => rng.between(1, 14),
    };
    // One track in sixteen goes to the greatest Time there is.
    let to_the_end = rng.one_in(16);
    let mut time = Time::START;
    let mut channel = rng.below(16) as u8;
    let mut events = Vec::new();
    for _ in 0..count {
        time = later(rng, time, to_the_end);
        if rng.one_in(4) {
            channel = rng.below(16) as u8;
        }
        events.push(Event { time, kind: kind(rng, channel) });
    }
    if to_the_end {
        while time < Time(u32::MAX) {
            time = time.after(step_to_end(time)).unwrap_or(Time(u32::MAX));
            events.push(Event { time, kind: Kind::Program { channel, program: 0 } });
        }
    }
    let time = later(rng, time, false);
    events.push(Event { time, kind: Kind::EndTrack });
    Track { events }
}

fn step_to_end(time: Time) -> Delta {
    Delta((u32::MAX - time.0).min(VARIABLE_MAX))
}

/// A Time at or after `time`, by a step that is often at a width's boundary.
fn later(rng: &mut Rng, time: Time, far: bool) -> Time {
    let step = match rng.below(if far { 12 } else { 10 }) {
        0..=3 => 0,
        4..=6 => rng.below(1_000),
        7 => rng.pick(&[1, 127, 128, 16_383, 16_384]),
        8 => rng.pick(&[2_097_151, 2_097_152, 268_435_454, 268_435_455, 0, 480]),
        9 => rng.below(100_000),
        _ => u64::from(VARIABLE_MAX),
    };
    let step = (step as u32).min(step_to_end(time).0);
    time.after(Delta(step)).unwrap_or(time)
}

/// Half of all events are of a channel, so that statuses repeat.
fn kind(rng: &mut Rng, channel: u8) -> Kind {
    let number = if rng.one_in(2) { rng.below(7) } else { rng.below(KINDS - 1) };
    kind_of(rng, number, channel)
}

/// A random event of one kind; 0..6 are of the channel, 19 is End_track.
pub fn kind_of(rng: &mut Rng, number: u64, channel: u8) -> Kind {
    let (first, second) = (seven(rng), seven(rng));
    match number {
        0 => Kind::NoteOff { channel, key: first, velocity: second },
        1 => Kind::NoteOn { channel, key: first, velocity: second },
        2 => Kind::PolyAftertouch { channel, key: first, value: second },
        3 => Kind::Control { channel, control: first, value: second },
        4 => Kind::Program { channel, program: first },
        5 => Kind::ChannelAftertouch { channel, value: first },
        6 => Kind::PitchBend { channel, value: bend(rng) },
        7 => Kind::SystemExclusive(data(rng)),
        8 => Kind::SystemExclusivePacket(data(rng)),
        9 => Kind::SequenceNumber(rng.pick(&[0, 1, 255, 256, 65_535])),
        10 => Kind::Text(rng.pick(&TextKind::ALL), text(rng)),
        11 => Kind::ChannelPrefix(eight(rng)),
        12 => Kind::MidiPort(eight(rng)),
        13 => Kind::Tempo(tempo(rng)),
        14 => {
            let mut numbers = [0; 5].map(|_| eight(rng));
            numbers[4] = rng.pick(&[0, 1, 50, 98, 99]);
            Kind::SmpteOffset(numbers)
        }
        15 => Kind::TimeSignature([0; 4].map(|_| eight(rng))),
        16 => Kind::KeySignature {
            key: rng.below(15) as i8 - 7,
            mode: rng.pick(&[Mode::Major, Mode::Minor]),
        },
        17 => Kind::SequencerSpecific(data(rng)),
        18 => Kind::UnknownMeta { meta_type: unnamed_type(rng), data: data(rng) },
        _ => Kind::EndTrack,
    }
}

fn seven(rng: &mut Rng) -> u8 {
    match rng.below(4) {
        0 => rng.pick(&[0, 1, 126, 127]),
        _ => rng.below(128) as u8,
    }
}

fn eight(rng: &mut Rng) -> u8 {
    match rng.below(4) {
        0 => rng.pick(&[0, 1, 15, 16, 127, 128, 254, 255]),
        _ => rng.byte(),
    }
}

fn bend(rng: &mut Rng) -> u16 {
    match rng.below(4) {
        0 => rng.pick(&[0, 127, 128, 8_191, 8_192, 16_383]),
        _ => rng.below(16_384) as u16,
    }
}

fn tempo(rng: &mut Rng) -> u32 {
    match rng.below(4) {
        0 => rng.pick(&[1, 255, 256, 65_535, 65_536, 500_000, 750_000, 16_777_215]),
        _ => rng.between(1, 16_777_215) as u32,
    }
}

fn unnamed_type(rng: &mut Rng) -> u8 {
    loop {
        let meta_type = match rng.below(3) {
            0 => rng.pick(&[0x08, 0x1F, 0x22, 0x2E, 0x30, 0x4B, 0x50, 0x5A, 0x60, 0x7E]),
            _ => rng.below(128) as u8,
        };
        if !has_own_name(meta_type) {
            return meta_type;
        }
    }
}

fn data_length(rng: &mut Rng) -> usize {
    if rng.one_in(150) {
        return rng.pick(&[16_383, 16_384]);
    }
    match rng.below(8) {
        0 => 0,
        1 => rng.pick(&[127, 128]),
        2 => rng.index(300),
        _ => rng.index(24),
    }
}

fn data(rng: &mut Rng) -> Vec<u8> {
    let length = data_length(rng);
    rng.bytes(length)
}

/// Bytes of a text, with many of those that escapes are for.
fn text(rng: &mut Rng) -> Vec<u8> {
    let length = data_length(rng);
    let plain = rng.one_in(3);
    let mut byte = || match rng.below(if plain { 4 } else { 8 }) {
        0..=3 => rng.between(32, 126) as u8,
        4 => rng.pick(b"\"\\\"\\,#;\r\n\t "),
        5 => rng.pick(&[0, 31, 32, 126, 127, 128, 159, 160, 161, 255]),
        _ => rng.byte(),
    };
    (0..length).map(|_| byte()).collect()
}

/// A random permitted spelling of `piece`, half the time with something besides it.
pub fn spelling(rng: &mut Rng, piece: &Piece) -> Spelling {
    let of_events = plain_spelling(rng, piece);
    let (header_extra, unknown) = besides(rng, piece.tracks.len());
    Spelling { header_extra, unknown, ..of_events }
}

/// One with nothing besides it.
pub fn plain_spelling(rng: &mut Rng, piece: &Piece) -> Spelling {
    let pads_one_in = rng.pick(&[1, 3, 10]);
    // Statuses are left out never, always or by chance.
    let leaves_out = rng.pick(&[Some(false), Some(true), None]);
    let choose = |shortest: EventSpelling| EventSpelling {
        delta_bytes: padded(rng, shortest.delta_bytes, pads_one_in),
        length_bytes: padded(rng, shortest.length_bytes, pads_one_in),
        status_left_out: shortest.status_left_out && leaves_out.unwrap_or_else(|| rng.one_in(2)),
    };
    Spelling::choose(piece, choose).expect("a generated piece has spellings")
}

fn padded(rng: &mut Rng, fewest: usize, one_in: u64) -> usize {
    if rng.one_in(one_in) {
        rng.between(fewest as u64, 4) as usize
    } else {
        fewest
    }
}
