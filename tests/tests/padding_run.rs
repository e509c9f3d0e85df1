//! A run of the listing: that it is good when the programs agree and all sorts of padding
//! and of lists were met, and that it sees each fault that is planted in one of them.

use std::sync::Mutex;

use second::compare_lists::Listing;
use second::generate::{known_padding, padded_case, padding_limits};
use second::number::{read_variable, Variable};
use second::operations::list_tracks;
use second::piece::Kind;
use second::read_file::{read_whole, Whole};
use second::refusal::Answer;
use second::run::Run;
use second::write_file::length_of;

const SEEDS: u64 = 4_000;

/// The fault of the one program, none if empty. A program is a function and cannot carry
/// it along; there is one test here, so nobody else changes it.
static FAULT: Mutex<&str> = Mutex::new("");

const LISTING: Listing =
    Listing { second: right, archive: |file, lists| planted(file, lists).packed() };

fn right(file: &[u8], [times, counts, padding]: [&mut [u32]; 3]) -> Answer {
    list_tracks(file, times, counts, padding)
}

/// The two variable-length numbers of an event; a channel event has no second one.
struct Numbers {
    kind: Kind,
    status_left_out: bool,
    delta: Variable,
    length: Option<Variable>,
}

/// Those of each event of each track.
fn numbers_of(file: &[u8], whole: &Whole) -> Vec<Vec<Numbers>> {
    let tracks = whole.piece.tracks.iter().zip(&whole.places);
    let event = |kind: &Kind, place: usize| {
        let delta = read_variable(&file[place..]).expect("a delta");
        let status = place + delta.width;
        let length = length_of(kind).map(|_| {
            let at = status + if file[status] == 0xFF { 2 } else { 1 };
            read_variable(&file[at..]).expect("a length")
        });
        Numbers { kind: kind.clone(), status_left_out: file[status] < 0x80, delta, length }
    };
    tracks
        .map(|(track, places)| {
            track
                .events
                .iter()
                .zip(places)
                .map(|(known, place)| event(&known.kind, *place))
                .collect()
        })
        .collect()
}

fn is_fixed(kind: &Kind) -> bool {
    !matches!(
        kind,
        Kind::SystemExclusive(_)
            | Kind::SystemExclusivePacket(_)
            | Kind::Text(..)
            | Kind::SequencerSpecific(_)
            | Kind::UnknownMeta { .. }
    )
}

/// What one number adds, with a fault in how it is read.
fn number_padding(fault: &str, number: Variable) -> usize {
    match fault {
        "one byte at most" => number.padding.min(1),
        "two bytes at most" => number.padding.min(2),
        "numbers, not bytes" => usize::from(number.padding > 0),
        "all bytes of the number" => number.width,
        "all bytes but one" => number.width - 1,
        "only of 0" if number.value > 0 => 0,
        "not of 0" if number.value == 0 => 0,
        "128 in one byte" if number.value == 128 => number.padding + 1,
        "127 in two bytes" if number.value == 127 && number.padding > 0 => number.padding - 1,
        _ => number.padding,
    }
}

/// What an event adds to the padding of its track, with a fault or without.
fn event_padding(fault: &str, event: &Numbers) -> usize {
    let Numbers { kind, status_left_out, delta, length } = event;
    let is_end = *kind == Kind::EndTrack;
    let mut delta = number_padding(fault, *delta);
    let mut length = length.map_or(0, |length| number_padding(fault, length));
    match fault {
        "length forgotten" => length = 0,
        "delta forgotten" => delta = 0,
        "delta twice" => delta *= 2,
        "length twice" => length *= 2,
        "the greater of delta and length" => (delta, length) = (delta.max(length), 0),
        "length of fixed metas forgotten" if is_fixed(kind) => length = 0,
        "length of other events forgotten" if !is_fixed(kind) => length = 0,
        "length of End_track forgotten" if is_end => length = 0,
        "delta of End_track forgotten" if is_end => delta = 0,
        "delta of a running status forgotten" if *status_left_out => delta = 0,
        "delta of channel events forgotten" if kind.channel_status().is_some() => delta = 0,
        _ => {}
    }
    match (fault, kind) {
        ("length of Tempo forgotten", Kind::Tempo(_))
        | ("length of F0 forgotten", Kind::SystemExclusive(_))
        | ("length of F7 forgotten", Kind::SystemExclusivePacket(_))
        | ("length of texts forgotten", Kind::Text(..))
        | ("length of FF 7F forgotten", Kind::SequencerSpecific(_))
        | ("length of unknown metas forgotten", Kind::UnknownMeta { .. }) => delta,
        _ => delta + length,
    }
}

/// The padding of each track, with a fault or without.
fn track_padding(fault: &str, tracks: &[Vec<Numbers>]) -> Vec<u32> {
    let of_track = |track: &Vec<Numbers>| {
        let events: Vec<u32> =
            track.iter().map(|event| event_padding(fault, event) as u32).collect();
        let last = events.len() - 1;
        let sum: u32 = events.iter().sum();
        match fault {
            "the last event only" => events[last],
            "the first event only" => events[0],
            "not the first event" => sum - events[0],
            "not the last event" => sum - events[last],
            "the greatest of the events" => events.iter().copied().max().unwrap_or(0),
            "8 bits" => sum % 256,
            "16 bits" => sum % 65_536,
            _ => sum,
        }
    };
    let mut padding: Vec<u32> = tracks.iter().map(of_track).collect();
    let all: u32 = padding.iter().sum();
    match fault {
        "carried into the next track" => {
            (1..padding.len()).for_each(|next| padding[next] += padding[next - 1]);
        }
        "the file's sum in every track" => padding.fill(all),
        "the first track's in every track" => padding = vec![padding[0]; padding.len()],
        "tracks turned" => padding.reverse(),
        "one track late" => padding.rotate_right(1),
        _ => {}
    }
    padding
}

/// The listing with a fault or without.
fn planted(file: &mut [u8], mut lists: [&mut [u32]; 3]) -> Answer {
    let fault = *FAULT.lock().expect("nobody panics with it");
    let is = |name: &str| name == fault;
    let whole = match read_whole(file) {
        Ok(whole) => whole,
        Err(refusal) => return refused(fault, lists, refusal.into()),
    };
    let padding = track_padding(fault, &numbers_of(file, &whole));
    let count = padding.len();
    let [times, counts, told] = lists.each_ref().map(|list| list.len());
    let short = times < count && !is("a short first list not noticed")
        || counts < count && !is("a short second list not noticed")
        || told < count && !is("a short third list not noticed")
        || told <= count && is("an exact third list is short")
        || told > count && is("a longer third list is refused");
    if short {
        return too_short(fault, lists, &padding);
    }
    let held = lists[2].first().copied().unwrap_or(0);
    filled(fault, &mut lists, &whole, &padding);
    match fault {
        "the file written" => file[0] ^= 1,
        "success with length 0" => return Answer::success(0),
        "success with a length too many" => return Answer::success(count + 1),
        "an answer that hangs on the list" => return Answer::success(count + (held % 2) as usize),
        _ => {}
    }
    Answer::success(count)
}

/// A refusal of the reader, with a fault or without.
fn refused(fault: &str, [times, _, told]: [&mut [u32]; 3], answer: Answer) -> Answer {
    match fault {
        "a refusal clears the third list" => told.fill(0),
        "a refusal writes the third list" => told.iter_mut().take(1).for_each(|to| *to = 1),
        "a refusal writes the first list" => times.iter_mut().take(1).for_each(|to| *to = 1),
        "14 before other refusals" if told.is_empty() => return Answer::room_needed(1),
        _ => {}
    }
    answer
}

/// Fills the lists as far as they go, with a fault or without.
fn filled(fault: &str, lists: &mut [&mut [u32]; 3], whole: &Whole, padding: &[u32]) {
    let [times, counts, told] = lists;
    let tracks = &whole.piece.tracks;
    times.iter_mut().zip(tracks).for_each(|(to, track)| *to = track.end_time().0);
    counts.iter_mut().zip(tracks).for_each(|(to, track)| *to = track.events.len() as u32);
    for (to, bytes) in told.iter_mut().zip(padding) {
        match fault {
            "the third list not written" => {}
            "0 not written" if *bytes == 0 => {}
            "added to what the list held" => *to = to.wrapping_add(*bytes),
            _ => *to = *bytes,
        }
    }
    let past = padding.len().min(told.len());
    let past = &mut told[past..];
    match fault {
        "the next entry cleared" => past.iter_mut().take(1).for_each(|to| *to = 0),
        "all further entries cleared" => past.fill(0),
        "padding among the counts" => counts[..padding.len()].copy_from_slice(padding),
        _ => {}
    }
}

/// 14, with a fault or without.
fn too_short(fault: &str, [times, counts, told]: [&mut [u32]; 3], padding: &[u32]) -> Answer {
    let count = padding.len();
    match fault {
        "14 writes the third list" => {
            told.iter_mut().zip(padding).for_each(|(to, bytes)| *to = *bytes);
        }
        "14 writes the first list" => times.iter_mut().take(1).for_each(|to| *to = 0),
        "14 clears the counts" => counts.fill(0),
        _ => {}
    }
    let shortest = times.len().min(counts.len()).min(told.len());
    let Answer { number, place, length } = Answer::room_needed(count);
    match fault {
        "14 with length 0" => Answer::room_needed(0),
        "14 with what is missing" => Answer::room_needed(count - shortest),
        "14 with the third list's length" => Answer::room_needed(told.len()),
        "14 with three times the length" => Answer::room_needed(3 * count),
        "14 with the length in bytes" => Answer::room_needed(4 * count),
        "14 at 10" => Answer { number, place: 10, length },
        "29 for a short list" => Answer { number: 29, place, length: 0 },
        "37 for a short third list" if told.len() < count => Answer { number: 37, place, length },
        _ => Answer::room_needed(count),
    }
}

const FAULTS: [&str; 66] = [
    "one byte at most", "two bytes at most", "numbers, not bytes", "all bytes of the number",
    "all bytes but one", "only of 0", "not of 0", "128 in one byte", "127 in two bytes",
    "length forgotten", "delta forgotten", "delta twice", "length twice",
    "the greater of delta and length", "length of fixed metas forgotten",
    "length of other events forgotten", "length of End_track forgotten",
    "delta of End_track forgotten", "delta of a running status forgotten",
    "delta of channel events forgotten", "length of Tempo forgotten", "length of F0 forgotten",
    "length of F7 forgotten", "length of texts forgotten", "length of FF 7F forgotten",
    "length of unknown metas forgotten", "the last event only", "the first event only",
    "not the first event", "not the last event", "the greatest of the events", "8 bits", LARGE,
    "carried into the next track", "the file's sum in every track",
    "the first track's in every track", "tracks turned", "one track late",
    "a refusal clears the third list", "a refusal writes the third list",
    "a refusal writes the first list", "14 before other refusals",
    "a short first list not noticed", "a short second list not noticed",
    "a short third list not noticed", "an exact third list is short",
    "a longer third list is refused", "the third list not written", "0 not written",
    "added to what the list held", "the next entry cleared", "all further entries cleared",
    "padding among the counts", "the file written", "success with length 0",
    "success with a length too many", "an answer that hangs on the list",
    "14 writes the third list", "14 writes the first list", "14 clears the counts",
    "14 with length 0", "14 with what is missing", "14 with the third list's length",
    "14 with three times the length", "14 with the length in bytes", "14 at 10",
];
/// Two more, of numbers that are not due.
const UNDUE: [&str; 2] = ["29 for a short list", "37 for a short third list"];
/// Only the limits have so much padding.
const LARGE: &str = "16 bits";

/// The limits take long.
fn run_of(seeds: u64, limits: bool) -> Run<'static, Listing> {
    let mut run = Run::of(&LISTING).silent().of_padding();
    run.known_lists("spelled", 0..seeds, known_padding);
    run.source("padded", 0..seeds, padded_case);
    if limits {
        run.list_limits("padding limits", &padding_limits());
    }
    run
}

#[test]
fn a_good_run_is_good_and_planted_faults_are_seen() {
    let due: Vec<u8> = (0..=3).chain(5..=14).collect();
    let run = run_of(SEEDS, true);
    assert_eq!(run.differences(), 0);
    assert!(run.report(&due));
    assert!(!run.report(&due[..due.len() - 1]), "what is not due is not passed over");
    assert!(!run.report(&[&due[..], &[29]].concat()), "29 is not met");
    let without_1 = [&due[..1], &due[2..]].concat();
    let no_limits = run_of(SEEDS, false);
    assert!(!no_limits.report(&without_1), "no track had over 65535");
    assert!(no_limits.of_few(true).report(&without_1), "few cases need not meet all");

    for fault in FAULTS.iter().chain(&UNDUE) {
        *FAULT.lock().expect("nobody panics with it") = fault;
        let differences = run_of(SEEDS / 4, *fault == LARGE).differences();
        println!("{fault}: {differences} differences");
        assert!(differences > 0, "{fault} is not seen");
    }
    both_wrong();
}

/// A fault that both programs have shows where what is due is known.
fn both_wrong() {
    *FAULT.lock().expect("nobody panics with it") = "length of fixed metas forgotten";
    const BOTH: Listing = Listing {
        second: |file, lists| planted(&mut file.to_vec(), lists),
        archive: |file, lists| planted(file, lists).packed(),
    };
    let mut run = Run::of(&BOTH).silent();
    run.source("padded", 0..SEEDS / 4, padded_case);
    assert_eq!(run.differences(), 0);
    run.known_lists("spelled", 0..SEEDS / 4, known_padding);
    let spelled = run.differences();
    assert!(spelled > 0, "no list known");
    *FAULT.lock().expect("nobody panics with it") = "all bytes of the number";
    run.listed_divisions("divisions");
    assert!(run.differences() > spelled + 30_000, "lists of divisions not known");
}
