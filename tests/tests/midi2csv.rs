//! What is stored for the programs midi2csv and midi2csv_cases, which `rt ci`
//! runs: their input and output as the second program has them.

mod common;

use common::{hex, stored, to_text};
use second::operations::midi2csv;

#[test]
fn the_example_of_document_01() {
    let file = hex("4D 54 68 64 00 00 00 06 00 00 00 01 00 60 4D 54 72 6B 00 00 00 11
        00 FF 03 02 41 22 00 90 3C 40 60 3C 00 00 FF 2F 00");
    let text = "0, 0, Header, 0, 1, 96\n1, 0, Start_track\n1, 0, Title_t, \"A\"\"\"\n\
        1, 0, Note_on_c, 0, 60, 64\n1, 96, Note_on_c, 0, 60, 0\n1, 96, End_track\n\
        0, 0, End_of_file\n";
    assert_eq!(stored("midi2csv/stdin"), file);
    assert_eq!(stored("midi2csv/stdout"), text.as_bytes());
    assert_eq!(midi2csv(&file), text.as_bytes());
}

/// In the order in which midi2csv_cases takes them, with what each is refused
/// with; nothing for those that are not.
const CASES: [(&str, &str); 9] = [
    ("empty.mid", "refused 2 at 0\n"),
    ("film_division.mid", ""),
    ("rate_26.mid", "refused 3 at 12\n"),
    ("after_end_track.mid", "refused 12 at 39\n"),
    ("other_chunks.mid", ""),
    ("further_track.mid", "refused 13 at 48\n"),
    ("over_limit.mid", "refused 1 at 0\n"),
    ("over_room.mid", "refused 14 at 0\n"),
    ("at_limits.mid", ""),
];

#[test]
fn further_files() {
    let mut due = Vec::new();
    for (name, refusal) in CASES {
        let written = midi2csv(&stored(&format!("midi2csv_cases/data/{name}")));
        assert!(refusal.is_empty() || written == refusal.as_bytes(), "{name}");
        due.extend([name.as_bytes(), b": ", &written].concat());
    }
    assert!(stored("midi2csv_cases/stdout") == due);
}

/// One byte decides in each: all three are good files.
#[test]
fn limits_are_met_exactly() {
    let sizes = ["at_limits", "over_limit", "over_room"].map(|name| {
        let file = stored(&format!("midi2csv_cases/data/{name}.mid"));
        (file.len(), to_text(&file).unwrap().len())
    });
    assert_eq!(sizes, [(16_384, 65_536), (16_385, 65_536), (16_384, 65_537)]);
}
