//! The fold: tracks and the one track due, and the rows, written out by hand.

mod common;

use common::{file_of, folded, hex, one_track, tidied, UNTOUCHED};
use second::fold::{fold_rows, Row};
use second::generate::fold_limit_cases;
use second::piece::Time;
use second::refusal::Answer;

/// What it is, the bodies of the tracks, and the body of the one track due.
type Case = (&'static str, &'static [&'static str], &'static str);

const ORDER: &[Case] = &[
    (
        "by Time",
        &["00 90 3C 40  60 3C 00  00 FF 2F 00", "30 90 40 40  60 40 00  00 FF 2F 00"],
        "00 90 3C 40  30 40 40  30 3C 00  30 40 00  00 FF 2F 00",
    ),
    (
        "all of track 2 before track 1",
        &["05 90 3C 40  00 FF 2F 00", "01 90 40 40  02 40 00  00 FF 2F 00"],
        "01 90 40 40  02 40 00  02 3C 40  00 FF 2F 00",
    ),
    (
        "equal Times by track number",
        &["00 92 3C 40 00 FF 2F 00", "00 90 3C 40 00 FF 2F 00", "00 91 3C 40 00 FF 2F 00"],
        "00 92 3C 40  00 90 3C 40  00 91 3C 40  00 FF 2F 00",
    ),
    (
        "then in their own order",
        &["00 90 03 01 00 02 01 00 01 01 00 FF 2F 00", "00 90 06 01 00 05 01 00 04 01 00 FF 2F 00"],
        "00 90 03 01  00 02 01  00 01 01  00 06 01  00 05 01  00 04 01  00 FF 2F 00",
    ),
    (
        "equal Times late, reached by other steps",
        &[
            "05 90 01 01  00 FF 2F 00", "00 90 02 01  05 03 01  00 FF 2F 00",
            "02 90 04 01  03 05 01  01 06 01  00 FF 2F 00",
        ],
        "00 90 02 01  02 04 01  03 01 01  00 03 01  00 05 01  01 06 01  00 FF 2F 00",
    ),
    (
        "the same event in two tracks stays twice",
        &["00 90 3C 40  00 3C 40  00 FF 2F 00", "00 90 3C 40  00 FF 2F 00"],
        "00 90 3C 40  00 3C 40  00 3C 40  00 FF 2F 00",
    ),
    (
        "a step that grows shorter, and one that grows a byte",
        &["81 00 90 3C 40  00 FF 2F 00", "7F 90 40 40  81 01 40 00  00 FF 2F 00"],
        "7F 90 40 40  01 3C 40  81 00 40 00  00 FF 2F 00",
    ),
];

const ENDS: &[Case] = &[
    (
        "the first track's End_track is last",
        &["83 60 FF 2F 00", "00 90 3C 40  60 FF 2F 00"],
        "00 90 3C 40  83 60 FF 2F 00",
    ),
    (
        "the last track's is last",
        &["00 90 3C 40  60 FF 2F 00", "83 60 FF 2F 00"],
        "00 90 3C 40  83 60 FF 2F 00",
    ),
    (
        "the second's of three is last",
        &["10 FF 2F 00", "30 FF 2F 00", "20 90 3C 40  00 FF 2F 00"],
        "20 90 3C 40  10 FF 2F 00",
    ),
    (
        "an End_track before events of another track",
        &["10 FF 2F 00", "00 90 3C 40  60 3C 00  00 FF 2F 00"],
        "00 90 3C 40  60 3C 00  00 FF 2F 00",
    ),
    (
        "an End_track at the Time of another track's event",
        &["10 FF 2F 00", "10 90 3C 40  00 FF 2F 00"],
        "10 90 3C 40  00 FF 2F 00",
    ),
    ("End_tracks alone", &["00 FF 2F 00", "81 00 FF 2F 00", "7F FF 2F 00"], "81 00 FF 2F 00"),
];

const STATUSES: &[Case] = &[
    (
        "statuses that differ are written again",
        &["00 90 3C 40  02 3C 00  00 FF 2F 00", "01 91 3C 40  02 3C 00  00 FF 2F 00"],
        "00 90 3C 40  01 91 3C 40  01 90 3C 00  01 91 3C 00  00 FF 2F 00",
    ),
    (
        "equal ones are left out, across tracks too",
        &["00 90 3C 40  02 90 3C 00  00 FF 2F 00", "01 90 40 40  02 90 40 00  00 FF 2F 00"],
        "00 90 3C 40  01 40 40  01 3C 00  01 40 00  00 FF 2F 00",
    ),
    (
        "another track's meta event leaves none in force",
        &["00 90 3C 40  02 3C 00  00 FF 2F 00", "01 FF 01 01 61  00 FF 2F 00"],
        "00 90 3C 40  01 FF 01 01 61  01 90 3C 00  00 FF 2F 00",
    ),
    (
        "another track's system exclusive event leaves none",
        &["00 C0 01  02 02  00 FF 2F 00", "01 F0 02 43 F7  00 FF 2F 00"],
        "00 C0 01  01 F0 02 43 F7  01 C0 02  00 FF 2F 00",
    ),
    (
        "its own meta event may no longer stand between",
        &["00 90 3C 40  00 FF 01 00  05 90 3C 00  00 FF 2F 00", "03 90 40 40  00 FF 2F 00"],
        "00 90 3C 40  00 FF 01 00  03 90 40 40  02 3C 00  00 FF 2F 00",
    ),
    (
        "an End_track that gives way leaves the status in force",
        &["00 90 3C 40  01 FF 2F 00", "02 90 40 40  00 FF 2F 00"],
        "00 90 3C 40  02 40 40  00 FF 2F 00",
    ),
    (
        "numbers take the fewest bytes",
        &["80 00 90 3C 40  80 80 80 01 FF 2F 80 00", "00 FF 01 80 01 61  00 FF 2F 00"],
        "00 90 3C 40  00 FF 01 01 61  01 FF 2F 00",
    ),
    (
        "every kind that may be folded",
        &[
            "00 FF 00 02 01 02  00 FF 51 03 07 A1 20  00 FF 58 04 04 02 18 08  00 FF 2F 00",
            "00 FF 03 01 41  00 C0 05  00 D0 07  00 E0 00 40  00 FF 2F 00",
            "00 A0 3C 01  00 80 3C 00  00 90 3C 40  00 F0 01 F7  00 FF 2F 00",
            "00 FF 54 05 00 01 02 03 04  00 FF 59 02 FD 01  00 FF 7F 01 00  00 FF 2F 00",
            "00 F7 01 FF  00 FF 60 02 FF 2F  00 B0 07 64  00 FF 2F 00",
        ],
        "00 FF 00 02 01 02  00 FF 51 03 07 A1 20  00 FF 58 04 04 02 18 08  00 FF 03 01 41
         00 C0 05  00 D0 07  00 E0 00 40  00 A0 3C 01  00 80 3C 00  00 90 3C 40  00 F0 01 F7
         00 FF 54 05 00 01 02 03 04  00 FF 59 02 FD 01  00 FF 7F 01 00
         00 F7 01 FF  00 FF 60 02 FF 2F  00 B0 07 64  00 FF 2F 00",
    ),
];

fn tracks_of(bodies: &[&str]) -> Vec<u8> {
    file_of(1, &bodies.iter().map(|body| hex(body)).collect::<Vec<_>>())
}

#[test]
fn tracks_fold_to_one() {
    let cases = [ORDER, ENDS, STATUSES].concat();
    for (what, bodies, due) in &cases {
        assert_eq!(folded(&tracks_of(bodies)), Ok(one_track(due)), "{what}");
    }
    println!("{} folded files", cases.len());
}

/// Every byte of both files; the division is 480.
#[test]
fn a_whole_file() {
    let file = hex("4D546864 00000006 0001 0002 01E0
                    4D54726B 0000000B 00FF510307A120 00FF2F00
                    4D54726B 0000000C 00903C40 8360 3C00 00FF2F00");
    let due = hex("4D546864 00000006 0000 0001 01E0
                   4D54726B 00000013 00FF510307A120 00903C40 8360 3C00 00FF2F00");
    assert_eq!(folded(&file), Ok(due));
}

/// The same timed in 29 frames of 4 ticks; how long a tick is does not count.
#[test]
fn frames_are_kept() {
    let file = hex("4D546864 00000006 0001 0002 E304
                    4D54726B 0000000B 00FF510307A120 00FF2F00
                    4D54726B 0000000C 00903C40 8360 3C00 00FF2F00");
    let due = hex("4D546864 00000006 0000 0001 E304
                   4D54726B 00000013 00FF510307A120 00903C40 8360 3C00 00FF2F00");
    assert_eq!(folded(&file), Ok(due.clone()));
    assert_eq!(folded(&due), Ok(due.clone()), "format 0");
}

#[test]
fn one_track_alone_is_tidied() {
    let body = "80 00 90 3C 40  60 90 3C 00  00 FF 21 01 05  00 FF 20 01 0A  00 FF 2F 00";
    let due = one_track("00 90 3C 40  60 3C 00  00 FF 21 01 05  00 FF 20 01 0A  00 FF 2F 00");
    assert_eq!(folded(&one_track(body)), Ok(due.clone()), "format 0");
    assert_eq!(tidied(&one_track(body)), Ok(due.clone()), "format 0 tidied");
    assert_eq!(folded(&tracks_of(&[body])), Ok(due), "format 1");
}

/// Deltas of 268,435,455 in every track, to the greatest Time of all: in the fold the
/// steps are as long, or one tick shorter where the tracks lie one tick apart.
#[test]
fn no_step_grows() {
    let far = "FF FF FF 7F C0 00 ".repeat(16);
    let late = format!("01 C0 01 {far} 0E FF 2F 00");
    let shifted = format!("00 C0 00 {far} 0F FF 2F 00");
    let file = file_of(1, &[hex(&shifted), hex(&late)]);
    let steps = "FF FF FF 7E 00 01 00 ".repeat(16);
    let due = format!("00 C0 00  01 01  {steps} 0E FF 2F 00");
    assert_eq!(folded(&file), Ok(one_track(&due)));
    let same = file_of(1, &[hex(&shifted), hex(&shifted)]);
    let steps = "FF FF FF 7F 00 00 00 ".repeat(16);
    let due = format!("00 C0 00  00 00  {steps} 0F FF 2F 00");
    assert_eq!(folded(&same), Ok(one_track(&due)));
}

#[test]
fn sixty_four_tracks_fold() {
    // Track n, from 0, has one note of key n at Time 63 - n.
    let body = |n: u8| vec![63 - n, 0x90, n, 1, 0, 0xFF, 0x2F, 0];
    let file = file_of(1, &(0..64).map(body).collect::<Vec<_>>());
    let mut due = hex("00 90 3F 01");
    due.extend((0..63).rev().flat_map(|n| [1, n, 1]));
    due.extend(hex("00 FF 2F 00"));
    assert_eq!(folded(&file), Ok(file_of(0, &[due])));
}

#[test]
fn large_files_are_as_said() {
    for case in fold_limit_cases() {
        let mut room = vec![0xA5; 1_400_000];
        let mut rows = [UNTOUCHED; 64];
        let answer = fold_rows(&case.file, &mut room, &mut rows);
        let due = (case.number, case.place);
        assert_eq!((answer.number, answer.place), due, "{}", case.what);
        assert_eq!(case.file.len() > 1_048_576, case.number == 1, "{}", case.what);
        let size = match case.what {
            "folded to one byte under the limit" => 1_048_575,
            "folded to the limit" => 1_048_576,
            // The text has a delta, FF 01, three bytes of length and then its data.
            "one long text" => 26 + 4 * 2 * 9 + 1_000_006,
            "64 tracks, one status" => 27 + 3 * 64 * 5_456,
            _ => 0,
        };
        assert_eq!(answer.length, size, "{}", case.what);
        let none = fold_rows(&case.file, &mut [], &mut rows);
        let due = match case.number {
            0 => Answer::room_needed(size),
            number => Answer { number, place: case.place, length: 0 },
        };
        assert_eq!(none, due, "{}, no room", case.what);
        let changed = rows.iter().any(|row| *row != UNTOUCHED);
        assert_eq!(changed, [0, 29].contains(&case.number), "{}, rows", case.what);
    }
}

fn row(place: usize, time: u32) -> Row {
    Row { place, time: Time(time), status: 0 }
}

/// Track 1's events are at bytes 22 and 26, its End_track at 29; track 2 begins at 34,
/// its events at 42 and 47, its End_track, of a padded delta, at 50.
const TWO: &[&str] =
    &["00 90 3C 40  60 3C 00  81 00 FF 2F 00", "81 10 91 3C 40  02 C1 05  80 07 FF 2F 00"];
const TWO_FOLDED: &str = "00 90 3C 40  60 3C 00  30 91 3C 40  02 C1 05  4E FF 2F 00";

#[test]
fn rows_show_the_end_tracks() {
    let file = tracks_of(TWO);
    let due = [row(29, 224), row(50, 153)];
    let mut rows = [UNTOUCHED; 4];
    assert_eq!(folded(&file), Ok(one_track(TWO_FOLDED)));
    let mut room = vec![0xA5; 100];
    assert!(fold_rows(&file, &mut room, &mut rows).number == 0);
    assert_eq!(rows, [due[0], due[1], UNTOUCHED, UNTOUCHED], "spare rows stay");
    let mut rows = [UNTOUCHED; 2];
    assert!(fold_rows(&file, &mut room, &mut rows).number == 0);
    assert_eq!(rows, due, "just enough rows");
    let mut rows = [UNTOUCHED; 3];
    assert_eq!(fold_rows(&file, &mut [], &mut rows).number, 14);
    assert_eq!(rows, [due[0], due[1], UNTOUCHED], "after 14");
}

#[test]
fn rows_of_one_track_and_of_sixty_four() {
    let mut rows = [UNTOUCHED; 2];
    assert_eq!(fold_rows(&one_track("00 90 3C 40 05 FF 2F 00"), &mut [0; 40], &mut rows).number, 0);
    assert_eq!(rows, [row(26, 5), UNTOUCHED], "format 0");
    let file = file_of(1, &(0..64).map(|n| vec![n, 0xFF, 0x2F, 0]).collect::<Vec<_>>());
    let mut rows = [UNTOUCHED; 65];
    assert_eq!(fold_rows(&file, &mut [0; 26], &mut rows).number, 0);
    for (n, shown) in rows[..64].iter().enumerate() {
        assert_eq!(*shown, row(22 + 12 * n, n as u32));
    }
    assert_eq!(rows[64], UNTOUCHED);
}

/// After 29 too: two tracks whose statuses come in turn.
#[test]
fn rows_after_29() {
    let cases = fold_limit_cases();
    let case = cases.iter().find(|case| case.what.starts_with("two tracks at the limit")).unwrap();
    let mut rows = [UNTOUCHED; 3];
    let due = Answer { number: 29, place: 0, length: 0 };
    for size in [0, 1_048_576, 1_400_000] {
        let mut room = vec![0xA5; size];
        assert_eq!(fold_rows(&case.file, &mut room, &mut rows), due);
        assert!(room.iter().all(|byte| *byte == 0xA5));
    }
    // Each track has 8 bytes before its events, which are 3 * 174,756 + 1 and End_track.
    let body = 3 * 174_756 + 1;
    let times = [2 * 174_755, 2 * 174_755 + 1];
    assert_eq!(rows, [row(22 + body, times[0]), row(34 + 2 * body, times[1]), UNTOUCHED]);
}
