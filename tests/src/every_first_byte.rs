//! The file of every byte behind a delta, in every state of the status in force, with the
//! whole answer due to each: by document 01's table, written here as ranges, and by bytes
//! and lines by hand. Nothing of it is worked out by a reader of the second program.

mod track;

#[cfg(test)]
use std::collections::BTreeSet;
use std::ops::RangeInclusive;

use crate::known::Known;
use track::{file, Delta, AT_ONCE, END_TRACK, FIRST};
pub use track::{nothing, short_file, text, Track};

/// What a byte behind a delta begins.
#[derive(Clone, Copy)]
enum Begins {
    /// The data of an event whose status, the one in force, was left out.
    Data,
    /// A record, and how many data bytes follow.
    Channel(&'static str, usize),
    Exclusive(&'static str),
    Meta,
    /// 8, whatever comes behind it.
    Nothing,
}

const TABLE: [(RangeInclusive<u8>, Begins); 13] = [
    (0x00..=0x7F, Begins::Data),
    (0x80..=0x8F, Begins::Channel("Note_off_c", 2)),
    (0x90..=0x9F, Begins::Channel("Note_on_c", 2)),
    (0xA0..=0xAF, Begins::Channel("Poly_aftertouch_c", 2)),
    (0xB0..=0xBF, Begins::Channel("Control_c", 2)),
    (0xC0..=0xCF, Begins::Channel("Program_c", 1)),
    (0xD0..=0xDF, Begins::Channel("Channel_aftertouch_c", 1)),
    (0xE0..=0xEF, Begins::Channel("Pitch_bend_c", 2)),
    (0xF0..=0xF0, Begins::Exclusive("System_exclusive")),
    (0xF1..=0xF6, Begins::Nothing),
    (0xF7..=0xF7, Begins::Exclusive("System_exclusive_packet")),
    (0xF8..=0xFE, Begins::Nothing),
    (0xFF..=0xFF, Begins::Meta),
];

fn begins(byte: u8) -> Begins {
    TABLE.iter().find(|(range, _)| range.contains(&byte)).expect("a row for each byte").1
}

/// The record of a channel status, and its data bytes, out of two.
fn channel_row(status: u8, two: [u8; 2]) -> (&'static str, Vec<u8>) {
    match begins(status) {
        Begins::Channel(name, count) => (name, two[..count].to_vec()),
        _ => panic!("{status:02X} is no channel status"),
    }
}

/// Of the event at hand, in turn: its place is the first byte of these.
const DELTAS: [Delta; 3] = [AT_ONCE, (&[0x60], 96), (&[0x81, 0x00], 128)];
/// Of the event behind it.
const LATER: Delta = (&[0x01], 1);
/// End_track, at the Time of the event before it.
const CLOSED: [u8; 4] = [0x00, 0xFF, 0x2F, 0x00];

/// What may come before the event at hand: nothing, an event of each channel status, and
/// each kind of event that takes a status out of force.
fn states() -> Vec<(String, Track)> {
    let after = |status| {
        let (_, data) = channel_row(status, [0x3C, 0x40]);
        Track::default().channel(AT_ONCE, status, &data, true)
    };
    let mut states = vec![("at the start".to_owned(), Track::default())];
    states.extend((0x80..=0xEF).map(|status| (format!("after {status:02X}"), after(status))));
    let others: [(&str, &[u8], &str); 3] = [
        ("a meta event", &[0xFF, 0x06, 0x01, 0x42], "Marker_t, \"B\""),
        ("an F0 event", &[0xF0, 0x02, 0x43, 0xF7], "System_exclusive, 2, 67, 247"),
        ("an F7 event", &[0xF7, 0x01, 0x44], "System_exclusive_packet, 1, 68"),
    ];
    for (what, bytes, record) in others {
        states.push((format!("after 90 and {what}"), after(0x90).other(AT_ONCE, bytes, record)));
    }
    states
}

/// All files, for an operation that makes this of the good ones.
pub fn files(made: fn(&Track) -> Vec<u8>) -> impl Iterator<Item = Known> {
    (0..=255).flat_map(move |byte| files_of(byte, made))
}

/// Those with this byte behind the delta of the event at hand, in every state.
pub fn files_of(byte: u8, made: fn(&Track) -> Vec<u8>) -> Vec<Known> {
    let mut all = Vec::new();
    for (index, (what, before)) in states().into_iter().enumerate() {
        let what = format!("{what}, byte {byte:02X}");
        let delta = DELTAS[(index + usize::from(byte)) % DELTAS.len()];
        let mut here = Here { what, before, delta, byte, made, all };
        match (begins(byte), here.before.in_force) {
            (Begins::Channel(..), _) => here.channel(byte, true),
            (Begins::Data, Some(status)) => here.channel(status, false),
            (Begins::Data, None) | (Begins::Nothing, _) => here.nothing(),
            (Begins::Exclusive(name), _) => here.exclusive(name),
            (Begins::Meta, _) => here.meta(),
        }
        all = here.all;
    }
    all
}

/// A byte in a state, and the files made with it so far.
struct Here {
    what: String,
    before: Track,
    delta: Delta,
    byte: u8,
    made: fn(&Track) -> Vec<u8>,
    all: Vec<Known>,
}

impl Here {
    fn good(&mut self, what: &str, track: Track) {
        let made = (self.made)(&track);
        self.push(what, &track.bytes, Ok([made.clone(), made]));
    }

    /// Refused at the event at hand, if these bytes come behind its first and no more.
    fn refused(&mut self, what: &str, behind: &[u8], number: u8) {
        let bytes = [&self.before.bytes, self.delta.0, &[self.byte], behind].concat();
        self.push(what, &bytes, Err((number, FIRST + self.before.bytes.len())));
    }

    /// Refused at the event behind the one at hand, if this is all of it.
    fn refused_next(&mut self, what: &str, track: &Track, next: &[u8], number: u8) {
        let bytes = [&track.bytes, next].concat();
        self.push(what, &bytes, Err((number, FIRST + track.bytes.len())));
    }

    /// The event at hand is whole, but the track ends behind it, or behind a delta.
    fn no_end_track(&mut self, track: &Track) {
        for next in [&[][..], LATER.0] {
            self.refused_next("no End_track", track, next, 6);
        }
    }

    fn push(&mut self, what: &str, track: &[u8], due: Result<[Vec<u8>; 2], (u8, usize)>) {
        let what = format!("{}, {what}", self.what);
        self.all.push(Known { what, input: file(track), due });
    }

    fn channel(&mut self, status: u8, written: bool) {
        let first = if written { 0x21 } else { self.byte };
        let (_, data) = channel_row(status, [first, 0x43]);
        let track = self.before.clone().channel(self.delta, status, &data, written);
        self.good("whole", track.clone().end(AT_ONCE));
        self.no_end_track(&track);
        // What it leaves in force shows in an event without a status.
        let (_, next) = channel_row(status, [0x32, 0x54]);
        self.good("another behind", track.channel(LATER, status, &next, false).end(AT_ONCE));
        let behind = &data[usize::from(!written)..];
        for place in 0..behind.len() {
            self.refused("too short", &behind[..place], 6);
            for over in [0x80, 0xFF] {
                let mut wrong = behind.to_vec();
                wrong[place] = over;
                self.refused("data over 127", &[&wrong, &CLOSED[..]].concat(), 9);
            }
        }
    }

    /// 8 also where the track would be good if the byte began an event with no data, with
    /// one data byte or two, a system exclusive or a meta one.
    fn nothing(&mut self) {
        self.refused("nothing behind", &[], 8);
        for behind in [&[][..], &[0x00], &[0x01, 0x00]] {
            self.refused("good but for it", &[behind, &CLOSED].concat(), 8);
        }
    }

    fn exclusive(&mut self, name: &str) {
        self.other(&[0x02, 0x45, 0xF7], &format!("{name}, 2, 69, 247"));
        self.other(&[0x00], &format!("{name}, 0"));
    }

    fn meta(&mut self) {
        self.other(&[0x01, 0x01, 0x41], "Text_t, \"A\"");
        self.other(&[0x7E, 0x00], "Unknown_meta_event, 126, 0");
        for over in [0x80, 0xFF] {
            self.refused("type over 127, nothing behind", &[over], 8);
            self.refused("type over 127", &[&[over, 0x00], &CLOSED[..]].concat(), 8);
        }
        let track = self.before.clone().end(self.delta);
        self.good("End_track", track.clone());
        self.refused_next("behind End_track", &track, &CLOSED, 12);
        self.refused("End_track too short", &END_TRACK[1..2], 6);
    }

    /// A system exclusive or meta event, with these bytes behind its first.
    fn other(&mut self, behind: &[u8], record: &str) {
        let bytes = [&[self.byte], behind].concat();
        let track = self.before.clone().other(self.delta, &bytes, record);
        self.good("whole", track.clone().end(AT_ONCE));
        self.no_end_track(&track);
        // Good only if a status were in force behind it.
        for data in [&[0x32][..], &[0x32, 0x54]] {
            let next = [LATER.0, data, &CLOSED].concat();
            self.refused_next("data behind", &track, &next, 8);
        }
        for place in 0..behind.len() {
            self.refused("too short", &behind[..place], 6);
        }
    }
}

#[test]
fn each_byte_and_each_state_is_there_once() {
    let bytes: Vec<u8> = TABLE.into_iter().flat_map(|(range, _)| range).collect();
    assert_eq!(bytes, (0..=255).collect::<Vec<u8>>());
    let states: BTreeSet<Vec<u8>> = states().into_iter().map(|(_, track)| track.bytes).collect();
    assert_eq!(states.len(), 1 + 112 + 3);
    // A channel event with its status in all states, one without where a status is in force:
    // two good files each. Two for F0, two for F7 and three for FF.
    let good = files(nothing).filter(|known| known.due.is_ok()).count();
    assert_eq!(good, 2 * (116 * 112 + 112 * 128) + 116 * (2 + 2 + 3));
}
