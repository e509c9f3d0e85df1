//! Refusals of files: each number by hand, with its exact place, and every
//! rule of document 01 on which fault comes first. `chunks` has those of Wish 3.

mod common;

use std::collections::BTreeSet;

use common::{chunk, ended, file_of, hex, one_track, refused, Case};
use second::operations::{check, list_tracks};
use second::refusal::Answer;

fn accepted(what: &str, file: &[u8]) {
    assert_eq!(check(file), Answer::success(0), "{what}");
}

/// A good file of one empty track with some of its bytes changed.
fn changed(changes: &[(usize, u8)]) -> Vec<u8> {
    let mut file = one_track("00 FF 2F 00");
    for (at, byte) in changes {
        file[*at] = *byte;
    }
    file
}

/// A format 1 file of these two tracks.
fn two_tracks(first: &str, second: &str) -> Vec<u8> {
    file_of(1, &[hex(first), hex(second)])
}

/// Two tracks, the second's length at fault.
fn bad_second_length(first: &str) -> Vec<u8> {
    let mut file = two_tracks(first, END);
    file[22 + hex(first).len() + 4] = 1;
    file
}

const END: &str = "00 FF 2F 00";

fn sizes_and_headers() -> Vec<Case> {
    let mut long = one_track(END);
    long.resize(1_048_577, 0);
    vec![
        ("one byte over the limit", long, 1, 0),
        ("size before anything else", vec![0; 2_000_000], 1, 0),
        ("empty", vec![], 2, 0),
        ("13 bytes, bad tag", vec![0; 13], 2, 0),
        ("13 bytes of a good file", one_track(END)[..13].to_vec(), 2, 0),
        ("tag", changed(&[(0, b'm')]), 3, 0),
        ("last byte of the tag", changed(&[(3, b'D')]), 3, 0),
        ("length 5", changed(&[(7, 5)]), 3, 4),
        ("length with its highest byte set", changed(&[(4, 1)]), 2, 0),
        ("format 3", changed(&[(9, 3)]), 3, 8),
        ("format 256", changed(&[(8, 1)]), 3, 8),
        ("count 0", changed(&[(11, 0)]), 3, 10),
        ("count 0 in format 1", changed(&[(9, 1), (11, 0)]), 3, 10),
        ("format 0 with two tracks", changed(&[(11, 2)]), 3, 10),
        ("format 0 with 257 tracks", changed(&[(10, 1)]), 3, 10),
        ("division 0", changed(&[(13, 0)]), 3, 12),
        ("tag before length", changed(&[(0, 0), (7, 5)]), 3, 0),
        ("length before format", changed(&[(7, 5), (9, 3)]), 3, 4),
        ("format before count", changed(&[(9, 3), (11, 0)]), 3, 8),
        ("count before division", changed(&[(11, 0), (13, 0)]), 3, 10),
        ("division before the track's length", changed(&[(13, 0), (18, 1)]), 3, 12),
        ("count before frames", changed(&[(11, 0), (12, 0xE6)]), 3, 10),
        ("ticks before the track's length", changed(&[(12, 0xE7), (13, 0), (18, 1)]), 3, 12),
    ]
}

/// Of neither kind: rates beside those permitted, the least and the greatest, and 0 ticks.
fn divisions() -> Vec<Case> {
    let divided = |high, low| changed(&[(12, high), (13, low)]);
    vec![
        ("32768", divided(0x80, 0x00), 3, 12),
        ("128 frames", divided(0x80, 0x28), 3, 12),
        ("127 frames", divided(0x81, 0xFF), 3, 12),
        ("the low byte negative too", divided(0x80, 0xE7), 3, 12),
        ("31 frames", divided(0xE1, 0xFF), 3, 12),
        ("30 frames of 0 ticks", divided(0xE2, 0x00), 3, 12),
        ("29 frames of 0 ticks", divided(0xE3, 0x00), 3, 12),
        ("28 frames of 0 ticks", divided(0xE4, 0x00), 3, 12),
        ("28 frames", divided(0xE4, 0x01), 3, 12),
        ("27 frames", divided(0xE5, 0x28), 3, 12),
        ("26 frames", divided(0xE6, 0xFF), 3, 12),
        ("25 frames of 0 ticks", divided(0xE7, 0x00), 3, 12),
        ("24 frames of 0 ticks", divided(0xE8, 0x00), 3, 12),
        ("23 frames of 0 ticks", divided(0xE9, 0x00), 3, 12),
        ("23 frames", divided(0xE9, 0x01), 3, 12),
        ("1 frame", divided(0xFF, 0x01), 3, 12),
        ("65535", divided(0xFF, 0xFF), 3, 12),
    ]
}

fn chunks() -> Vec<Case> {
    let good = one_track(END);
    let two = two_tracks(END, END);
    vec![
        ("no track", good[..14].to_vec(), 2, 14),
        ("7 bytes where a track begins", good[..21].to_vec(), 2, 14),
        ("7 bytes of another chunk", [&good[..14], b"xTrk\0\0\0"].concat(), 2, 14),
        ("tag, so that no track is left", changed(&[(17, b'K')]), 2, 26),
        ("length before tag", changed(&[(14, b'm'), (21, 5)]), 2, 14),
        ("length one past the end", changed(&[(21, 5)]), 2, 14),
        ("length far past the end", changed(&[(18, 0xFF)]), 2, 14),
        ("length before the events", changed(&[(21, 5), (23, 0xF4)]), 2, 14),
        ("second track missing", two[..26].to_vec(), 2, 26),
        ("second track's start cut", two[..33].to_vec(), 2, 26),
        ("second track's tag", [&two[..26], b"MThd", &two[30..]].concat(), 2, 38),
        ("second track's length", [&two[..33], &[5], &two[34..]].concat(), 2, 26),
        ("track 1's events before track 2", bad_second_length("00 F4 00 FF 2F 00"), 8, 22),
        ("track 1's 12 before track 2", bad_second_length("00 FF 2F 00 00"), 12, 26),
        ("a byte after the last track", [&good[..], &[0]].concat(), 2, 26),
        ("a track more than counted", [good.clone(), chunk(&hex(END))].concat(), 13, 26),
        ("half a track more", [&good[..], b"MT"].concat(), 2, 26),
        ("events before 13", [ended("00 F4"), chunk(&[])].concat(), 8, 22),
    ]
}

fn deltas_and_times() -> Vec<Case> {
    let far = "FF FF FF 7F C0 00 ".repeat(16);
    let at = 22 + 16 * 6;
    vec![
        ("five bytes of delta", ended("80 80 80 80 00 C0 00"), 5, 22),
        ("fourth byte last in the track", one_track("80 80 80 80"), 5, 22),
        ("5 before the status", one_track("FF FF FF FF F4"), 5, 22),
        ("third byte last in the track", one_track("80 80 80"), 6, 22),
        ("empty track", one_track(""), 6, 22),
        ("no End_track", one_track("00 90 3C 40"), 6, 26),
        ("delta alone", one_track("00"), 6, 22),
        ("delta alone after an event", one_track("00 90 3C 40 81 00"), 6, 26),
        ("Time too great", one_track(&format!("{far} 10 FF 2F 00")), 7, at),
        ("7 though no byte follows", one_track(&format!("{far} 10")), 7, at),
        ("7 before 8", one_track(&format!("{far} 10 F4")), 7, at),
        ("5 before 7", one_track(&format!("{far} FF FF FF FF 00 C0 00")), 5, at),
        ("6 at the greatest Time", one_track(&format!("{far} 0F")), 6, at),
        ("a seventeenth far delta", one_track(&format!("{far} FF FF FF 7F C0 00")), 7, at),
    ]
}

fn statuses() -> Vec<Case> {
    let mut cases = vec![
        ("data byte at a track's start", ended("00 3C 40"), 8, 22),
        ("data byte as the last of the track", one_track("00 3C"), 8, 22),
        ("status over a text", ended("00 90 3C 40 00 FF 01 00 00 3C 00"), 8, 30),
        ("status over F0", ended("00 90 3C 40 00 F0 00 00 3C 00"), 8, 29),
        ("status over F7", ended("00 90 3C 40 00 F7 00 00 3C 00"), 8, 29),
        ("status over an unknown meta", ended("00 90 3C 40 00 FF 60 00 00 3C 00"), 8, 30),
        ("status into the next track", two_tracks("00 90 3C 40 00 FF 2F 00", "00 3C 00"), 8, 38),
        ("meta type 128", ended("00 FF 80 00"), 8, 22),
        ("meta type 255, last in the track", one_track("00 FF FF"), 8, 22),
        ("no meta type", one_track("00 FF"), 6, 22),
        ("bad status before what follows is missing", one_track("00 F2"), 8, 22),
    ];
    for status in (0xF1..=0xF6).chain(0xF8..=0xFE) {
        cases.push(("a status of no event", ended(&format!("00 {status:02X} 00 00")), 8, 22));
    }
    cases
}

fn channel_data() -> Vec<Case> {
    let mut cases = vec![
        ("status alone", one_track("00 90"), 6, 22),
        ("second byte missing", one_track("00 90 3C"), 6, 22),
        ("first byte over 127", ended("00 90 80 40"), 9, 22),
        ("second byte over 127", ended("00 90 3C 80"), 9, 22),
        ("first bad, second missing", one_track("00 90 80"), 9, 22),
        ("second bad, status left out", ended("00 90 3C 40 00 3C FF"), 9, 26),
        ("second missing, status left out", one_track("00 90 3C 40 00 3C"), 6, 26),
        ("FF where data is due", ended("00 C0 FF"), 9, 22),
        ("F8 where data is due", ended("00 90 3C F8 40"), 9, 22),
    ];
    for high in 0x8..=0xE {
        cases.push(("data of every channel status", ended(&format!("00 {high:X}3 90 00")), 9, 22));
    }
    cases
}

fn lengths_and_values() -> Vec<Case> {
    let mut cases = vec![
        ("F0 with no length", one_track("00 F0"), 6, 22),
        ("F0's length cut", one_track("00 F0 81"), 6, 22),
        ("F0's length too long", one_track("00 F0 80 80 80 80 00"), 5, 22),
        ("F7's length too long", ended("00 F7 FF FF FF FF 7F"), 5, 22),
        ("F0's data cut", one_track("00 F0 03 01 02"), 6, 22),
        ("F0 longer than any file", one_track("00 F0 FF FF FF 7F"), 6, 22),
        ("meta with no length", one_track("00 FF 01"), 6, 22),
        ("meta's length too long", ended("00 FF 01 80 80 80 80"), 5, 22),
        ("5 before 10", ended("00 FF 51 80 80 80 80 03"), 5, 22),
        ("text cut", one_track("00 FF 01 05 61 62"), 6, 22),
        ("10 before the body is looked for", one_track("00 FF 51 04"), 10, 22),
        ("End_track of length 1", one_track("00 FF 2F 01 00"), 10, 22),
        ("End_track of length 1, no body", one_track("00 FF 2F 01"), 10, 22),
        ("good length, no body", one_track("00 FF 51 03 07 A1"), 6, 22),
        ("6 before 11", one_track("00 FF 51 03 00 00"), 6, 22),
        ("Tempo 0", ended("00 FF 51 03 00 00 00"), 11, 22),
        ("SMPTE_offset's fifth 100", ended("00 FF 54 05 00 00 00 00 64"), 11, 22),
        ("key 8", ended("00 FF 59 02 08 00"), 11, 22),
        ("key -8", ended("00 FF 59 02 F8 00"), 11, 22),
        ("mode 2", ended("00 FF 59 02 00 02"), 11, 22),
        ("11 in the second event", ended("00 C0 01 05 FF 59 02 00 FF"), 11, 25),
    ];
    for (meta_type, due) in
        [("00", 2), ("20", 1), ("21", 1), ("51", 3), ("54", 5), ("58", 4), ("59", 2)]
    {
        for length in [0, due - 1, due + 1, 127] {
            let body = "01".repeat(length);
            let event = format!("00 FF {meta_type} {length:02X} {body}");
            cases.push(("fixed meta of wrong length", ended(&event), 10, 22));
        }
    }
    cases
}

fn track_ends() -> Vec<Case> {
    vec![
        ("a byte after End_track", one_track("00 FF 2F 00 00"), 12, 26),
        ("an event after End_track", one_track("00 FF 2F 00 00 90 3C 40"), 12, 26),
        ("a second End_track", one_track("00 FF 2F 00 00 FF 2F 00"), 12, 26),
        ("nonsense after End_track", one_track("00 FF 2F 00 F4 F4"), 12, 26),
        ("after a padded End_track", one_track("80 00 FF 2F 80 00 00"), 12, 28),
        ("12 in track 2", two_tracks(END, "00 FF 2F 00 00"), 12, 38),
        ("12 before 13", [one_track("00 FF 2F 00 00"), chunk(&[])].concat(), 12, 26),
        ("12 before 2", [one_track("00 FF 2F 00 00"), vec![0]].concat(), 12, 26),
    ]
}

#[test]
fn each_refusal_has_its_number_and_place() {
    let tables = [
        sizes_and_headers(),
        divisions(),
        chunks(),
        deltas_and_times(),
        statuses(),
        channel_data(),
        lengths_and_values(),
        track_ends(),
    ];
    let cases = tables.concat();
    cases.iter().for_each(refused);
    let met: BTreeSet<u8> = cases.iter().map(|case| case.2).collect();
    // 4 is not given.
    assert_eq!(met, (1..=3).chain(5..=13).collect(), "a number has no case");
    println!("{} refused files", cases.len());
}

#[test]
fn what_is_near_a_refusal_is_accepted() {
    accepted("an equal status written again", &ended("00 90 3C 40 00 90 3C 00"));
    accepted("a status left out", &ended("00 90 3C 40 00 3C 00"));
    accepted("padded numbers", &ended("80 80 80 00 FF 51 80 80 03 07 A1 20"));
    accepted("every format and two tracks", &two_tracks(END, END));
    accepted("format 2", &file_of(2, &[hex(END), hex(END)]));
    accepted("format 2 with one track", &file_of(2, &[hex(END)]));
    accepted("Sequence_number late", &ended("10 90 3C 40 20 FF 00 02 FF FF"));
    accepted("SMPTE_offset late", &ended("10 C0 01 20 FF 54 05 FF FF FF FF 63"));
    accepted("Channel_prefix 255", &ended("00 FF 20 01 FF"));
    accepted("greatest number of pulses", &changed(&[(12, 0x7F), (13, 0xFF)]));
    accepted("least number of pulses", &changed(&[(12, 0), (13, 1)]));
    accepted("pulses that would be 25 frames", &changed(&[(12, 25), (13, 40)]));
    for frames in [0xE8, 0xE7, 0xE3, 0xE2] {
        for ticks in [1, 40, 255] {
            accepted("frames", &changed(&[(12, frames), (13, ticks)]));
        }
    }
    accepted("key 7 and -7", &ended("00 FF 59 02 07 00 00 FF 59 02 F9 01"));
    accepted("Tempo 1", &ended("00 FF 51 03 00 00 01"));
    accepted(
        "empty texts and data",
        &ended("00 FF 01 00 00 F0 00 00 F7 00 00 FF 7F 00 00 FF 7E 00"),
    );
    accepted("no F7 at the end of F0", &ended("00 F0 02 01 02"));
}

#[test]
fn a_file_of_just_the_limit_is_accepted() {
    // 22 before the body, 6 of the text's own (delta, FF 01, length), 4 of End_track.
    let data = 1_048_576 - 32;
    let mut body = hex("00 FF 01");
    second::number::write_variable(data, 3, &mut body);
    body.extend(vec![b'a'; data as usize]);
    body.extend(hex(END));
    let mut file = file_of(0, &[body]);
    assert_eq!(file.len(), 1_048_576);
    accepted("1 MiB", &file);
    file.push(0);
    assert_eq!(check(&file), Answer { number: 1, place: 0, length: 0 });
}

#[test]
fn as_many_tracks_as_can_be_counted() {
    let file = file_of(1, &vec![hex(END); 65_535]);
    accepted("65,535 tracks", &file);
    let (mut times, mut counts, mut padding) = (vec![9; 65_535], vec![9; 65_536], vec![9; 65_535]);
    let answer = list_tracks(&file, &mut times, &mut counts, &mut padding);
    assert_eq!(answer, Answer::success(65_535));
    assert_eq!((times[65_534], counts[65_534], counts[65_535], padding[65_534]), (0, 1, 9, 0));
    let short = list_tracks(&file, &mut times[..65_534], &mut counts, &mut padding);
    assert_eq!(short, Answer::room_needed(65_535));
}
