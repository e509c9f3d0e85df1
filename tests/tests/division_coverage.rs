//! What a run tells of divisions: each sort by hand, on a file or a text that has it.

mod common;

use common::one_track;
use second::division_coverage::{DivisionCoverage, Given};
use second::operations::{check, text_to_file};

fn file(high: u8, low: u8) -> Vec<u8> {
    let mut file = one_track("00 FF 2F 00");
    file[12..14].copy_from_slice(&[high, low]);
    file
}

fn text(division: &str) -> Vec<u8> {
    headed(&format!("0, 0, Header, 0, 1, {division}"))
}

fn headed(header: &str) -> Vec<u8> {
    format!("{header}\n1, 0, Start_track\n1, 0, End_track\n0, 0, End_of_file\n").into_bytes()
}

/// The sorts that are met when the second program's answer is added, in a room of 100.
fn met(given: Given, input: &[u8]) -> String {
    let mut coverage = DivisionCoverage::of(given);
    let all = coverage.tally.missing();
    let answer = match given {
        Given::Files => check(input),
        Given::Texts => text_to_file(input, 1, &mut [0; 100]),
    };
    coverage.add(input, answer.number, answer.place);
    let missing = coverage.tally.missing();
    let met: Vec<String> = all.into_iter().filter(|name| !missing.contains(name)).collect();
    met.join("; ")
}

/// The same of both: high byte, low byte, and what is met.
const BOTH: [(u8, u8, &str); 22] = [
    (0x00, 0x01, "pulses 1"),
    (0x00, 0x02, ""),
    (0x01, 0xFF, ""),
    (0x7F, 0xFE, ""),
    (0x7F, 0xFF, "pulses 32767"),
    (0xE8, 0x01, "24 frames; 1 tick"),
    (0xE8, 0xFF, "24 frames; 255 ticks"),
    (0xE7, 0x28, "25 frames"),
    (0xE3, 0x02, "29 frames"),
    (0xE2, 0xFE, "30 frames"),
    (0x00, 0x00, "division 0"),
    (0xE8, 0x00, "24 frames of 0 ticks"),
    (0xE7, 0x00, "25 frames of 0 ticks"),
    (0xE3, 0x00, "29 frames of 0 ticks"),
    (0xE2, 0x00, "30 frames of 0 ticks"),
    (0xE9, 0x00, "another rate"),
    (0xE6, 0x28, "another rate"),
    (0xE4, 0x01, "another rate"),
    (0xE1, 0xFF, "another rate"),
    (0xFF, 0xFF, "another rate"),
    (0x80, 0x00, "another rate"),
    (0x80, 0x01, "another rate"),
];

#[test]
fn each_sort_is_told_of_files_and_texts() {
    for (high, low, due) in BOTH {
        assert_eq!(met(Given::Files, &file(high, low)), due, "{high:02X} {low:02X}");
        let number = i16::from_be_bytes([high, low]).to_string();
        assert_eq!(met(Given::Texts, &text(&number)), due, "{number}");
    }
}

#[test]
fn each_further_sort_is_told_of_texts() {
    for (division, due) in [
        ("32768", "over 32767"),
        ("59176", "over 32767"),
        ("4294967295", "over 32767"),
        ("-32769", "under -32768"),
        ("-4294967295", "under -32768"),
        ("-0", "division 0"),
        ("\t-06400 ", "25 frames of 0 ticks"),
        ("\t-06399 ", "25 frames; 1 tick"),
        ("frames", "no number"),
        ("\"-6360\"", "no number"),
        // Of no shape: 22.
        ("+1", ""),
    ] {
        assert_eq!(met(Given::Texts, &text(division)), due, "{division}");
    }
}

/// Refused for something else, or not for the division alone.
#[test]
fn other_refusals_tell_nothing() {
    let mut no_format = file(0, 0);
    no_format[9] = 3;
    assert_eq!(met(Given::Files, &no_format), "");
    assert_eq!(met(Given::Files, &file(0xE7, 0x28)[..25]), "");
    assert_eq!(met(Given::Files, &[]), "");
    let after_event = "0, 0, Header, 0, 1, 96\n1, 0, Start_track\n1, 0, Note_on_c, 0, 0, -6400";
    for header in [
        "0, 0, Header, 3, 1, -6400", "0, 0, Header, 0, 0, -6400", "0, 0, Header, 0, 2, 0",
        "-1, 0, Header, 0, 1, 0", "0, -1, Header, 0, 1, 0", "1, 0, Tempo, 0", "", after_event,
        "1, 0, Header, 0, 1, -6360",
    ] {
        assert_eq!(met(Given::Texts, &headed(header)), "", "{header}");
    }
    // A comment before it, and another Header behind it.
    assert_eq!(met(Given::Texts, &headed("# 1\n\n0,0,HEADER,0,1,1")), "pulses 1");
    let second = "0, 0, Header, 0, 1, 96\n0, 0, Header, 0, 1, 0";
    assert_eq!(met(Given::Texts, &headed(second)), "division 0");
}

#[test]
fn counts_go_up_and_what_is_missing_goes_down() {
    for (given, sorts) in [(Given::Files, 14), (Given::Texts, 17)] {
        let mut coverage = DivisionCoverage::of(given);
        assert_eq!(coverage.tally.missing().len(), sorts);
        for _ in 0..2 {
            match given {
                Given::Files => coverage.add(&file(0, 1), 0, 0),
                Given::Texts => coverage.add(&text("1"), 0, 0),
            }
        }
        assert_eq!(coverage.tally.missing().len(), sorts - 1);
        assert!(coverage.tally.summary().starts_with("pulses 1 2; pulses 32767 0; "));
        assert_eq!(coverage.tally.least(), ("pulses 32767", 0));
    }
}
