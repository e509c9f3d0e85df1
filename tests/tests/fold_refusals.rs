//! Refusals of the fold: each number by hand with its place, what comes before what, and
//! that rows and room stay.

mod common;

use std::collections::BTreeSet;

use common::{file_of, hex, one_track, UNTOUCHED};
use second::fold::{fold, fold_rows};
use second::refusal::Answer;

const END: &str = "00 FF 2F 00";
const PREFIX: &str = "00 FF 20 01 00  00 FF 2F 00";
const PORT: &str = "00 FF 21 01 00  00 FF 2F 00";

/// What it is, the file, the rows lent, number and place of the answer due.
type Case = (&'static str, Vec<u8>, usize, u8, usize);

fn tracks(format: u16, bodies: &[&str]) -> Vec<u8> {
    file_of(format, &bodies.iter().map(|body| hex(body)).collect::<Vec<_>>())
}

/// So many tracks with nothing but End_track, then one with this body.
fn many_and(format: u16, count: usize, last: &str) -> Vec<u8> {
    tracks(format, &[&vec![END; count][..], &[last]].concat())
}

fn format_two() -> Vec<Case> {
    vec![
        ("two tracks", tracks(2, &[END, END]), 9, 32, 8),
        ("one track", tracks(2, &[END]), 9, 32, 8),
        ("32 before 31", many_and(2, 64, END), 99, 32, 8),
        ("32 before 37", tracks(2, &[END, END]), 0, 32, 8),
        ("32 before 33", tracks(2, &[PREFIX, PORT]), 9, 32, 8),
        ("32 before all", many_and(2, 64, PREFIX), 0, 32, 8),
    ]
}

fn tracks_and_rows() -> Vec<Case> {
    vec![
        ("65 tracks", many_and(1, 64, END), 65, 31, 10),
        ("66 tracks", many_and(1, 65, END), 99, 31, 10),
        ("257 tracks", many_and(1, 256, END), 999, 31, 10),
        ("65,535 tracks", many_and(1, 65_534, END), 65_535, 31, 10),
        ("31 before 37", many_and(1, 64, END), 64, 31, 10),
        ("31 before 37, no rows", many_and(1, 64, END), 0, 31, 10),
        ("31 before 33", many_and(1, 64, PREFIX), 65, 31, 10),
        ("63 rows for 64 tracks", many_and(1, 63, END), 63, 37, 10),
        ("1 row for 2 tracks", tracks(1, &[END, END]), 1, 37, 10),
        ("no row for 1 track", tracks(1, &[END]), 0, 37, 10),
        ("no row for format 0", one_track(END), 0, 37, 10),
        ("37 before 33", tracks(1, &[PREFIX, END]), 1, 37, 10),
    ]
}

fn prefixes_and_ports() -> Vec<Case> {
    let late = "00 90 3C 40  60 FF 21 01 00  00 FF 2F 00";
    let two = "00 FF 01 00  05 FF 20 01 0F  00 FF 21 01 00  00 FF 2F 00";
    vec![
        ("Channel_prefix in track 1", tracks(1, &[PREFIX, END]), 2, 33, 22),
        ("MIDI_port in track 1", tracks(1, &[PORT, END]), 2, 33, 22),
        ("Channel_prefix in track 2", tracks(1, &[END, PREFIX]), 2, 33, 34),
        ("MIDI_port in track 2", tracks(1, &[END, PORT]), 2, 33, 34),
        ("behind another event", tracks(1, &[late, END]), 2, 33, 26),
        ("the first of two in a track", tracks(1, &[END, two]), 2, 33, 38),
        ("track 1's, although later in Time", tracks(1, &[late, PREFIX]), 2, 33, 26),
        ("track 2's, although track 3 has one", tracks(1, &[END, PORT, PREFIX]), 3, 33, 34),
        ("a padded delta", tracks(1, &["80 80 00 FF 20 80 01 05  00 FF 2F 00", END]), 2, 33, 22),
        (
            "after a long delta",
            tracks(1, &["81 00 C0 00  81 00 FF 21 01 07  00 FF 2F 00", END]),
            2,
            33,
            26,
        ),
        ("in the last of 64 tracks", many_and(1, 63, PORT), 64, 33, 22 + 63 * 12),
    ]
}

/// What the reader refuses comes before 32, 31, 37 and 33.
fn reading_first() -> Vec<Case> {
    let after = |file: Vec<u8>, rest: &[u8]| [&file, rest].concat();
    let further = b"MTrk\0\0\0\0";
    let cut = |mut file: Vec<u8>| {
        file.pop();
        file
    };
    let bad_then = |body: &str| tracks(1, &[PREFIX, body]);
    vec![
        ("13 before 32", after(tracks(2, &[END, END]), further), 2, 13, 38),
        ("2 behind the last track before 32", after(tracks(2, &[END, END]), &[0]), 2, 2, 38),
        ("2 before 31", cut(many_and(1, 64, END)), 65, 2, 14 + 64 * 12),
        ("13 before 37", after(tracks(1, &[END, END]), further), 0, 13, 38),
        ("2 behind the last track before 37", after(tracks(1, &[END, END]), &[0]), 0, 2, 38),
        ("8 before 33", bad_then("00 3C 40  00 FF 2F 00"), 2, 8, 39),
        ("11 before 33", bad_then("00 FF 51 03 00 00 00  00 FF 2F 00"), 2, 11, 39),
        ("12 before 33", bad_then("00 FF 2F 00 00"), 2, 12, 43),
        ("10 of the prefix itself", tracks(1, &["00 FF 20 02 00 00  00 FF 2F 00", END]), 2, 10, 22),
        (
            "3 before 32",
            hex("4D546864 00000006 0002 0001 0000 4D54726B 00000004 00FF2F00"),
            0,
            3,
            12,
        ),
    ]
}

/// Frames change nothing of these; only bad ones are refused, and before all of them.
fn film_divisions() -> Vec<Case> {
    let divided = |mut file: Vec<u8>, division: &str| {
        file[12..14].copy_from_slice(&hex(division));
        file
    };
    vec![
        ("frames, format 2", divided(tracks(2, &[END, END]), "E7 28"), 9, 32, 8),
        ("frames, 65 tracks", divided(many_and(1, 64, END), "E3 04"), 65, 31, 10),
        ("frames, no row", divided(tracks(1, &[END]), "E2 FF"), 0, 37, 10),
        ("frames, MIDI_port", divided(tracks(1, &[END, PORT]), "E8 01"), 2, 33, 34),
        ("26 frames before 32", divided(tracks(2, &[END, END]), "E6 28"), 0, 3, 12),
        ("0 ticks before 31", divided(many_and(1, 64, END), "E7 00"), 0, 3, 12),
        ("0 ticks before 37", divided(tracks(1, &[END, END]), "E3 00"), 0, 3, 12),
        ("23 frames before 33", divided(tracks(1, &[PREFIX, END]), "E9 01"), 2, 3, 12),
    ]
}

fn refused((what, file, rows, number, place): &Case) {
    let due = Answer { number: *number, place: *place, length: 0 };
    let mut lent = vec![UNTOUCHED; *rows];
    for size in [0, 300] {
        let mut room = vec![0xA5; size];
        assert_eq!(fold_rows(file, &mut room, &mut lent), due, "{what}");
        assert!(room.iter().all(|byte| *byte == 0xA5), "room: {what}");
        assert!(lent.iter().all(|row| *row == UNTOUCHED), "rows: {what}");
    }
    // The exported fold has rows enough for every file that may be folded.
    let exported = fold(file, &mut [0; 300]);
    assert_eq!(exported == due, *number != 37, "exported: {what}");
}

#[test]
fn each_refusal_has_its_number_and_place() {
    let of_tracks = [format_two(), tracks_and_rows(), prefixes_and_ports()].concat();
    let cases = [of_tracks, reading_first(), film_divisions()].concat();
    cases.iter().for_each(refused);
    let met: BTreeSet<u8> = cases.iter().map(|case| case.3).collect();
    assert!([31, 32, 33, 37].iter().all(|number| met.contains(number)), "{met:?}");
    println!("{} refused files", cases.len());
}

/// What is near a refusal is folded, or refused for room alone.
#[test]
fn what_is_near_a_refusal_is_folded() {
    let room_needed = |what: &str, file: &[u8], rows: usize, length: usize| {
        let mut lent = vec![UNTOUCHED; rows];
        assert_eq!(fold_rows(file, &mut [], &mut lent), Answer::room_needed(length), "{what}");
        let mut room = vec![0; length];
        assert_eq!(fold_rows(file, &mut room, &mut lent), Answer::success(length), "{what}");
        let mut short = vec![0xA5; length - 1];
        assert_eq!(fold_rows(file, &mut short, &mut lent), Answer::room_needed(length), "{what}");
        assert!(short.iter().all(|byte| *byte == 0xA5), "{what}");
    };
    room_needed("64 tracks", &many_and(1, 63, END), 64, 26);
    room_needed("63 tracks", &many_and(1, 62, END), 63, 26);
    room_needed("as many rows as tracks", &tracks(1, &[END, END]), 2, 26);
    room_needed("Channel_prefix in format 0", &one_track(PREFIX), 1, 31);
    room_needed("MIDI_port in format 1 of one track", &tracks(1, &[PORT]), 1, 31);
    let others = "00 FF 1F 01 00  00 FF 22 01 00  00 FF 2F 00";
    room_needed("types next to 20h and 21h", &tracks(1, &[others, END]), 2, 36);
}

/// Numbers that fold may give and their places are of bytes, not of lines.
#[test]
fn places_are_bytes() {
    let answers = [31, 32, 33, 37].map(|number| Answer { number, place: 1, length: 0 });
    assert!(answers.iter().all(|answer| !answer.place_is_line()));
    assert!(
        [21, 22, 28, 29].map(|number| Answer { number, place: 1, length: 0 }.place_is_line())
            == [false, true, true, false]
    );
}
