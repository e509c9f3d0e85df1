//! The twelve rows of the standard's table, which show the four sizes of variable-length
//! numbers, as deltas: each is written so, and read back (document 02, Wish 4).

mod common;

use common::{hex, shown, tidied, to_file, to_text};

/// The least number of each size, one between, and the greatest.
const ROWS: [(u32, &str); 12] = [
    (0, "00"),
    (64, "40"),
    (127, "7F"),
    (128, "81 00"),
    (8_192, "C0 00"),
    (16_383, "FF 7F"),
    (16_384, "81 80 00"),
    (1_048_576, "C0 80 00"),
    (2_097_151, "FF FF 7F"),
    (2_097_152, "81 80 80 00"),
    (134_217_728, "C0 80 80 00"),
    (268_435_455, "FF FF FF 7F"),
];

#[test]
fn written_in_both_manners_and_read_back() {
    for (time, bytes) in ROWS {
        let text = format!(
            "0, 0, Header, 0, 1, 96\n1, 0, Start_track\n1, {time}, End_track\n0, 0, End_of_file\n"
        );
        for manner in [0, 1] {
            let file = to_file(text.as_bytes(), manner).unwrap();
            assert_eq!(file[22..], hex(&format!("{bytes} FF 2F 00")), "{time}");
            assert_eq!(shown(to_text(&file)), text);
            assert_eq!(tidied(&file), Ok(file));
        }
    }
}
