//! What padding the files of a run had, and in what lists it was to be told. A run that
//! compares listings must have met all of it. Numbers and events are told apart here by
//! themselves: padding is the bytes 80h that a number begins with.

use crate::compare::{Met, Room};
use crate::compare_lists::LISTS;
use crate::tally::Tally;

/// Of the padding of whole files and tracks.
const FILES: [&str; 8] = [
    "no padding", "one byte of padding in all", "tracks of different padding",
    "a padded track, then one without", "a track without, then a padded one",
    "a padded track, an unknown chunk, then one without", "over 255 in a track",
    "over 65535 in a track",
];

/// A fault in an event whose delta is padded.
const PADDED_FAULT: &str = "a fault in a padded event";

/// The refusals that may come behind padding; 14 is of a file that is good.
const BEHIND: [u8; 11] = [2, 5, 6, 7, 8, 9, 10, 11, 12, 13, 14];

/// Of all three lists together.
const ALL_LISTS: [&str; 5] =
    ["all lists exact", "all lists larger", "all lists short", "all lists one short", "no lists"];

/// Whose deltas are told apart.
const DELTAS: [&str; 5] =
    ["a channel event", "a running status", "a system exclusive", "a meta event", "End_track"];

/// Whose lengths are told apart.
const LENGTHS: [&str; 19] = [
    "System_exclusive", "System_exclusive_packet", "Sequence_number", "Text_t", "Copyright_t",
    "Title_t", "Instrument_name_t", "Lyric_t", "Marker_t", "Cue_point_t", "Channel_prefix",
    "MIDI_port", "End_track", "Tempo", "SMPTE_offset", "Time_signature", "Key_signature",
    "Sequencer_specific", "Unknown_meta_event",
];
const PACKET: usize = 1;
const END_TRACK: usize = 12;

/// What a number can have above its fewest bytes.
const MOST: usize = 3;

pub struct PaddingCoverage {
    pub tally: Tally,
    /// Where the sorts of deltas begin among all, those of lengths behind them.
    deltas: usize,
}

impl Default for PaddingCoverage {
    fn default() -> PaddingCoverage {
        let mut names: Vec<String> =
            FILES.iter().chain(&ALL_LISTS).map(|name| name.to_string()).collect();
        names.push(PADDED_FAULT.to_owned());
        names.extend(BEHIND.map(behind));
        names.extend(LISTS.iter().flat_map(|list| lists_of(list)));
        let deltas = names.len();
        let by =
            |what: &str| (1..=MOST).map(|more| format!("{what} by {more}")).collect::<Vec<_>>();
        names.extend(DELTAS.iter().flat_map(|event| by(&format!("delta of {event}"))));
        names.extend(LENGTHS.iter().flat_map(|event| by(&format!("length of {event}"))));
        PaddingCoverage { tally: Tally::of(names), deltas }
    }
}

fn behind(number: u8) -> String {
    format!("{number} behind padding")
}

/// One list beside the two others.
fn lists_of(list: &str) -> [String; 4] {
    ["one short alone", "of 0 alone", "alone long enough", "alone larger, the others exact"]
        .map(|word| format!("{list} {word}"))
}

impl PaddingCoverage {
    /// A file, and what both programs answered to it in what lists.
    pub fn add(&mut self, file: &[u8], met: &Met) {
        if let (0 | 14, Some(lists)) = (met.number, met.lists) {
            self.add_lists(lists);
        }
        match met.number {
            0 | 14 => {
                let chunks = chunks_before(file, file.len());
                self.add_good(&chunks);
                let padded = chunks.iter().flatten().any(|track| track.padding > 0);
                self.tally.met_if(&behind(14), padded && met.number == 14);
            }
            number if BEHIND.contains(&number) && file.len() >= 14 => {
                let chunks = chunks_before(file, met.place);
                let padded = chunks.iter().flatten().any(|track| track.padding > 0);
                self.tally.met_if(&behind(number), padded);
                let in_event = (6..=11).contains(&number);
                let at_fault = file.get(met.place) == Some(&0x80);
                self.tally.met_if(PADDED_FAULT, in_event && at_fault);
            }
            _ => {}
        }
    }

    fn add_lists(&mut self, lists: [Room; 3]) {
        let enough = lists.map(|room| matches!(room, Room::Exact | Room::Larger));
        let all = |wanted: Room| lists.iter().all(|room| *room == wanted);
        self.tally.met_if("all lists exact", all(Room::Exact));
        self.tally.met_if("all lists larger", all(Room::Larger));
        self.tally.met_if("all lists short", enough == [false; 3]);
        self.tally.met_if("all lists one short", all(Room::OneShort));
        self.tally.met_if("no lists", all(Room::Zero));
        for (index, list) in LISTS.iter().enumerate() {
            let others =
                |wanted: &dyn Fn(usize) -> bool| (0..3).filter(|other| *other != index).all(wanted);
            let [one_short, zero, alone, larger] = lists_of(list);
            let alone_short = others(&|other| enough[other]);
            self.tally.met_if(&one_short, alone_short && lists[index] == Room::OneShort);
            self.tally.met_if(&zero, alone_short && lists[index] == Room::Zero);
            self.tally.met_if(&alone, enough[index] && others(&|other| !enough[other]));
            let exact = others(&|other| lists[other] == Room::Exact);
            self.tally.met_if(&larger, exact && lists[index] == Room::Larger);
        }
    }

    fn add_good(&mut self, chunks: &[Option<Events>]) {
        let tracks: Vec<&Events> = chunks.iter().flatten().collect();
        let padding: Vec<u64> = tracks.iter().map(|track| track.padding).collect();
        let next = |wanted: fn(&[u64]) -> bool| padding.windows(2).any(wanted);
        let all: u64 = padding.iter().sum();
        self.tally.met_if("no padding", all == 0);
        self.tally.met_if("one byte of padding in all", all == 1);
        self.tally.met_if("tracks of different padding", next(|two| two[0] != two[1]));
        self.tally
            .met_if("a padded track, then one without", next(|two| two[0] > 0 && two[1] == 0));
        self.tally
            .met_if("a track without, then a padded one", next(|two| two[0] == 0 && two[1] > 0));
        let apart = chunks.windows(3).any(|three| match three {
            [Some(first), None, Some(second)] => first.padding > 0 && second.padding == 0,
            _ => false,
        });
        self.tally.met_if("a padded track, an unknown chunk, then one without", apart);
        self.tally.met_if("over 255 in a track", padding.iter().any(|bytes| *bytes > 255));
        self.tally.met_if("over 65535 in a track", padding.iter().any(|bytes| *bytes > 65_535));
        for number in 0..DELTAS.len() * MOST + LENGTHS.len() * MOST {
            if tracks.iter().any(|track| track.met[number]) {
                self.tally.met_number(self.deltas + number);
            }
        }
    }
}

/// What the numbers of a track were.
struct Events {
    padding: u64,
    /// Which sorts of deltas and lengths came, in the order of the tally.
    met: [bool; (DELTAS.len() + LENGTHS.len()) * MOST],
}

impl Events {
    /// A number of this sort, lengths behind deltas.
    fn add(&mut self, sort: usize, padding: usize) {
        self.padding += padding as u64;
        if padding > 0 {
            self.met[sort * MOST + padding - 1] = true;
        }
    }
}

/// What stands before `end`: of each track its events, nothing of other chunks.
fn chunks_before(file: &[u8], end: usize) -> Vec<Option<Events>> {
    let number_at = |at: usize| -> Option<usize> {
        let bytes = file.get(at..at + 4)?;
        Some(bytes.iter().fold(0, |value, byte| 256 * value + usize::from(*byte)))
    };
    let mut chunks = Vec::new();
    let mut at = 8 + number_at(4).unwrap_or(file.len());
    while at < end {
        let Some(length) = number_at(at + 4) else { break };
        let next = (at + 8 + length).min(file.len());
        let is_track = file[at..].starts_with(b"MTrk");
        chunks.push(is_track.then(|| events_in(&file[..next.min(end)], at + 8)));
        at = next;
    }
    chunks
}

/// The events from `at` on, as far as they are whole.
fn events_in(file: &[u8], at: usize) -> Events {
    let mut events = Events { padding: 0, met: [false; (DELTAS.len() + LENGTHS.len()) * MOST] };
    let (mut at, mut status) = (at, 0);
    while let Some(next) = event_at(file, at, &mut status, &mut events) {
        at = next;
    }
    events
}

/// Where the next event begins, if this one is whole.
fn event_at(file: &[u8], at: usize, status: &mut u8, events: &mut Events) -> Option<usize> {
    let (_, delta, at) = number(file, at)?;
    let first = *file.get(at)?;
    let (delta_sort, named, at) = match first {
        0xF0 | 0xF7 => (2, usize::from(first == 0xF7) * PACKET, at + 1),
        0xFF => {
            let sort = sort_of(*file.get(at + 1)?);
            (if sort == END_TRACK { 4 } else { 3 }, sort, at + 2)
        }
        0x00..=0x7F => {
            events.add(1, delta);
            return Some(at + data_bytes(*status));
        }
        _ => {
            *status = first;
            events.add(0, delta);
            return Some(at + 1 + data_bytes(first));
        }
    };
    events.add(delta_sort, delta);
    let (length, padding, at) = number(file, at)?;
    events.add(DELTAS.len() + named, padding);
    Some(at + length)
}

fn data_bytes(status: u8) -> usize {
    if matches!(status, 0xC0..=0xDF) {
        1
    } else {
        2
    }
}

/// Which of `LENGTHS` a meta type is.
fn sort_of(meta_type: u8) -> usize {
    match meta_type {
        0x00 => 2,
        0x01..=0x07 => 2 + usize::from(meta_type),
        0x20 => 10,
        0x21 => 11,
        0x2F => END_TRACK,
        0x51 => 13,
        0x54 => 14,
        0x58 => 15,
        0x59 => 16,
        0x7F => 17,
        _ => 18,
    }
}

/// The number at `at`, the bytes 80h that it begins with, and where it ends.
fn number(file: &[u8], at: usize) -> Option<(usize, usize, usize)> {
    let last = file.get(at..)?.iter().take(4).position(|byte| *byte < 0x80)?;
    let bytes = &file[at..=at + last];
    let value = bytes.iter().fold(0, |value, byte| 128 * value + usize::from(byte % 128));
    let padding = bytes.iter().take_while(|byte| **byte == 0x80).count();
    Some((value, padding, at + last + 1))
}
