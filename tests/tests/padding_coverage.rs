//! That each sort of padding and of lists is told, by hand.

mod common;

use common::{chunk, file_of, hex};
use second::compare::Room::{self, Exact, Larger, OneShort, Smaller, Unused, Zero};
use second::compare::{Compared, Met};
use second::compare_lists::Listing;
use second::generate::{padded_case, padding_limits};
use second::operations::list_tracks;
use second::padding_coverage::PaddingCoverage;

const END: &str = "00 FF 2F 00";

/// The sorts that this file tells when it is answered so.
fn told(file: &[u8], number: u8, place: usize, lists: [Room; 3]) -> Vec<String> {
    let mut coverage = PaddingCoverage::default();
    let all = coverage.tally.missing();
    let met = Met { number, place, room: Exact, manner: 0, lists: Some(lists) };
    coverage.add(file, &met);
    let missing = coverage.tally.missing();
    all.into_iter().filter(|name| !missing.contains(name)).collect()
}

/// Those of padding alone, of a file that is accepted in lists of no sort that counts.
fn padding_told(bodies: &[&str]) -> Vec<String> {
    let bodies: Vec<Vec<u8>> = bodies.iter().map(|body| hex(body)).collect();
    told(&file_of(1, &bodies), 0, 0, [Exact, Exact, Unused])
}

#[test]
fn deltas_and_lengths_are_told_apart() {
    for (body, sort) in [
        ("80 00 90 3C 40", "delta of a channel event by 1"),
        ("80 80 00 C0 05", "delta of a channel event by 2"),
        ("80 80 80 05 E0 05 06", "delta of a channel event by 3"),
        ("00 90 3C 40 80 60 3C 00", "delta of a running status by 1"),
        ("00 C0 05 80 80 60 05 00 06", "delta of a running status by 2"),
        ("80 00 F0 01 F7", "delta of a system exclusive by 1"),
        ("80 80 80 00 F7 00", "delta of a system exclusive by 3"),
        ("80 81 00 FF 01 00", "delta of a meta event by 1"),
        ("00 F0 80 00", "length of System_exclusive by 1"),
        ("00 F7 80 80 01 80", "length of System_exclusive_packet by 2"),
        ("00 FF 00 80 80 80 02 80 80", "length of Sequence_number by 3"),
        ("00 FF 01 80 01 80", "length of Text_t by 1"),
        ("00 FF 02 80 80 00", "length of Copyright_t by 2"),
        ("00 FF 03 80 00", "length of Title_t by 1"),
        ("00 FF 04 80 00", "length of Instrument_name_t by 1"),
        ("00 FF 05 80 80 80 00", "length of Lyric_t by 3"),
        ("00 FF 06 80 00", "length of Marker_t by 1"),
        ("00 FF 07 80 00", "length of Cue_point_t by 1"),
        ("00 FF 20 80 01 80", "length of Channel_prefix by 1"),
        ("00 FF 21 80 80 01 00", "length of MIDI_port by 2"),
        ("00 FF 51 80 03 80 80 80", "length of Tempo by 1"),
        ("00 FF 54 80 05 00 00 00 00 00", "length of SMPTE_offset by 1"),
        ("00 FF 58 80 80 04 04 02 18 08", "length of Time_signature by 2"),
        ("00 FF 59 80 02 00 00", "length of Key_signature by 1"),
        ("00 FF 7F 80 80 80 00", "length of Sequencer_specific by 3"),
        ("00 FF 08 80 00", "length of Unknown_meta_event by 1"),
        ("00 FF 7E 80 80 00", "length of Unknown_meta_event by 2"),
    ] {
        let told = padding_told(&[&format!("{body} {END}")]);
        let bytes: usize = sort[sort.len() - 1..].parse().unwrap();
        let due = [&["one byte of padding in all"; 1][bytes.min(2) - 1..], &[sort]].concat();
        assert_eq!(told, due, "{body}");
    }
    assert_eq!(
        padding_told(&["80 80 05 FF 2F 80 80 80 00"]),
        ["delta of End_track by 2", "length of End_track by 3"]
    );
    // No padding: 80h within a number, in data, in a chunk's length.
    let data = format!("00 F0 79 {} {END}", "80".repeat(121));
    for body in
        ["00 FF 2F 00", "81 80 00 FF 2F 00", "81 00 C0 00 FF 80 00 C0 00 00 FF 2F 00", &data]
    {
        assert_eq!(padding_told(&[body]), ["no padding"], "{body}");
    }
}

const ONE: &str = "80 00 FF 2F 00";
const ONE_SORT: &str = "delta of End_track by 1";

#[test]
fn tracks_are_told_apart() {
    let one = "one byte of padding in all";
    let different = "tracks of different padding";
    let [before, behind] =
        ["a padded track, then one without", "a track without, then a padded one"];
    for (bodies, due) in [
        (&[END, END][..], &["no padding"][..]),
        (&[ONE, ONE], &[ONE_SORT]),
        (&[ONE, END], &[one, different, before, ONE_SORT]),
        (&[END, ONE], &[one, different, behind, ONE_SORT]),
        (&[ONE, "80 80 00 FF 2F 00"], &[different, ONE_SORT, "delta of End_track by 2"]),
        (&[ONE, END, ONE], &[different, before, behind, ONE_SORT]),
        // A track between is no unknown chunk.
        (&[ONE, ONE, END], &[different, before, ONE_SORT]),
    ] {
        assert_eq!(padding_told(bodies), due, "{bodies:?}");
    }
    let header = hex("4D546864 00000006 0001 0002 0060");
    let unknown = hex("58464948 00000004 80 80 80 00");
    let [one, none] = [ONE, END].map(|body| chunk(&hex(body)));
    let apart = "a padded track, an unknown chunk, then one without";
    let file = [&header[..], &one, &unknown, &none].concat();
    assert!(told(&file, 0, 0, [Unused; 3]).contains(&apart.to_owned()));
    for parts in [[&one, &none, &unknown], [&none, &unknown, &one], [&one, &unknown, &one]] {
        let file = [&header[..], &parts.map(|part| &part[..]).concat()].concat();
        assert!(!told(&file, 0, 0, [Unused; 3]).contains(&apart.to_owned()));
    }
}

#[test]
fn much_padding_is_told() {
    let much = |events: usize, last: &str| {
        padding_told(&[&format!("{} {last}", "80 80 80 00 C0 00 ".repeat(events))])
    };
    let over = |told: Vec<String>| told.iter().filter(|name| name.starts_with("over")).count();
    assert_eq!(over(much(85, END)), 0);
    assert_eq!(over(much(85, ONE)), 1);
    assert_eq!(over(much(21_845, END)), 1);
    assert_eq!(over(much(21_845, ONE)), 2);
}

#[test]
fn refusals_behind_padding_are_told() {
    let behind = |number: u8| format!("{number} behind padding");
    let fault = "a fault in a padded event".to_owned();
    for (bodies, number, place, due) in [
        (["00 C0 05", ""], 6, 25, vec![]),
        (["80 00 C0 05", ""], 6, 26, vec![behind(6)]),
        (["80 00 F4", END], 8, 22, vec![fault.clone()]),
        (["80 00 C0 05 00 F4", END], 8, 26, vec![behind(8)]),
        (["80 00 C0 05 80 00 F4", END], 8, 26, vec![behind(8), fault.clone()]),
        ([ONE, "80 80 80 80"], 5, 35, vec![behind(5)]),
        ([ONE, "00 C0 80 00"], 9, 35, vec![behind(9)]),
        ([END, "80 00 FF 51 80 02 00 00"], 10, 34, vec![fault.clone()]),
        (["00 FF 2F 80 00 80", END], 12, 27, vec![behind(12)]),
    ] {
        let file = file_of(1, &bodies.map(hex));
        let mut made = told(&file, number, place, [Unused; 3]);
        made.sort();
        let mut due = due;
        due.sort();
        assert_eq!(made, due, "{bodies:?}");
    }
    let cut = [&file_of(2, &[hex(ONE), hex(END)])[..], b"abc"].concat();
    assert_eq!(told(&cut, 2, cut.len() - 3, [Unused; 3]), [behind(2)]);
    assert_eq!(told(&cut[..5], 2, 0, [Unused; 3]), [""; 0]);
    let told = told(&file_of(1, &[hex(ONE)]), 14, 0, [Unused; 3]);
    assert!(told.contains(&behind(14)), "{told:?}");
}

#[test]
fn lists_are_told_apart() {
    for (lists, due) in [
        ([Exact; 3], &["all lists exact"][..]),
        ([Larger; 3], &["all lists larger"]),
        ([Larger, Exact, Exact], &["end_times alone larger, the others exact"]),
        ([Exact, Larger, Exact], &["event_counts alone larger, the others exact"]),
        ([Exact, Exact, Larger], &["padding alone larger, the others exact"]),
        ([Exact, Larger, Larger], &[]),
        ([OneShort, Exact, Larger], &["end_times one short alone"]),
        ([Larger, OneShort, Larger], &["event_counts one short alone"]),
        ([Exact, Exact, OneShort], &["padding one short alone"]),
        ([Zero, Exact, Exact], &["end_times of 0 alone"]),
        ([Exact, Zero, Larger], &["event_counts of 0 alone"]),
        ([Larger, Exact, Zero], &["padding of 0 alone"]),
        ([Larger, Zero, OneShort], &["end_times alone long enough"]),
        ([Smaller, Exact, Zero], &["event_counts alone long enough"]),
        ([OneShort, OneShort, Larger], &["padding alone long enough"]),
        ([Smaller, Zero, OneShort], &["all lists short"]),
        ([OneShort; 3], &["all lists short", "all lists one short"]),
        ([Zero; 3], &["all lists short", "no lists"]),
        ([Smaller, Exact, Exact], &[]),
    ] {
        let file = file_of(1, &[hex(END), hex(END)]);
        let made = told(&file, 14, 0, lists);
        assert_eq!(made, [&["no padding"], due].concat(), "{lists:?}");
    }
}

/// As the second program counts it, of all that is accepted.
#[test]
fn the_padding_told_is_that_of_the_second_program() {
    let listing = Listing {
        second: |file, [times, counts, padding]| list_tracks(file, times, counts, padding),
        archive: |file, [times, counts, padding]| {
            list_tracks(file, times, counts, padding).packed()
        },
    };
    let limits = padding_limits().into_iter().map(|known| known.file);
    for (seed, file) in (0..).zip((0..4_000).map(padded_case).chain(limits)) {
        let met = listing.compare(seed, &file).unwrap();
        if met.number != 0 {
            continue;
        }
        let mut padding = vec![0; 65_535];
        list_tracks(&file, &mut vec![0; 65_535], &mut vec![0; 65_535], &mut padding);
        let sum: u64 = padding.iter().map(|bytes| u64::from(*bytes)).sum();
        let told = told(&file, 0, 0, [Unused; 3]);
        let has = |name: &str| told.iter().any(|told| told == name);
        assert_eq!(has("no padding"), sum == 0, "seed {seed}");
        assert_eq!(has("one byte of padding in all"), sum == 1, "seed {seed}");
        for (name, least) in [("over 255 in a track", 256), ("over 65535 in a track", 65_536)] {
            assert_eq!(has(name), padding.iter().any(|bytes| *bytes >= least), "seed {seed}");
        }
    }
}
