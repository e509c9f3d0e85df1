//! The worked bytes and texts of the source documents 000, 002, 003 and 004.
//! The texts expected of 004 were made with midicsv, those of 002 by hand.

mod common;

use common::{ended, event_lines, file_of, hex, one_track, shown, tidied, to_file, to_text};
use second::operations::check;
use second::refusal::Answer;

fn refusal(number: u8, place: usize) -> Answer {
    Answer { number, place, length: 0 }
}

/// A run of events of 002, wrapped in a file, gives these records.
fn run_gives(bytes: &str, records: &[&str]) {
    let mut lines = event_lines(&ended(bytes));
    lines.pop();
    let records: Vec<String> = records.iter().map(|record| format!("1, {record}")).collect();
    assert_eq!(lines, records, "{bytes}");
}

const CLOSE_ENCOUNTERS: &str = "0, 0, Header, 1, 2, 480
1, 0, Start_track
1, 0, Title_t, \"Close Encounters\"
1, 0, Text_t, \"Sample for MIDIcsv Distribution\"
1, 0, Copyright_t, \"This file is in the public domain\"
1, 0, Time_signature, 4, 2, 24, 8
1, 0, Tempo, 500000
1, 0, End_track
2, 0, Start_track
2, 0, Instrument_name_t, \"Church Organ\"
2, 0, Program_c, 1, 19
2, 0, Note_on_c, 1, 79, 81
2, 960, Note_off_c, 1, 79, 0
2, 960, Note_on_c, 1, 81, 81
2, 1920, Note_off_c, 1, 81, 0
2, 1920, Note_on_c, 1, 77, 81
2, 2880, Note_off_c, 1, 77, 0
2, 2880, Note_on_c, 1, 65, 81
2, 3840, Note_off_c, 1, 65, 0
2, 3840, Note_on_c, 1, 72, 81
2, 4800, Note_off_c, 1, 72, 0
2, 4800, End_track
0, 0, End_of_file
";

#[test]
fn close_encounters_of_000_there_and_back() {
    let text = CLOSE_ENCOUNTERS.as_bytes();
    for manner in [0, 1] {
        let file = to_file(text, manner).unwrap();
        assert_eq!(file[..14], hex("4D546864 00000006 0001 0002 01E0"));
        assert_eq!(shown(to_text(&file)), CLOSE_ENCOUNTERS);
        // No two neighbours share a status, so the manners agree.
        assert_eq!(tidied(&file), Ok(file));
    }
    let file = to_file(text, 1).unwrap();
    let notes = hex("87 40 81 4F 00 00 91 51 51");
    assert!(file.windows(notes.len()).any(|window| window == notes));
}

#[test]
fn header_and_texts_of_002() {
    let mut file = hex("4d 54 68 64 00 00 00 06 00 01 00 02 01 e0");
    file.extend(&file_of(1, &[hex("00 FF 2F 00"), hex("00 FF 2F 00")])[14..]);
    assert!(shown(to_text(&file)).starts_with("0, 0, Header, 1, 2, 480\n"));
    run_gives("00 FF 02 03 41 42 43", &["0, Copyright_t, \"ABC\""]);
    run_gives("00 FF 07 03 41 42 43", &["0, Cue_point_t, \"ABC\""]);
}

#[test]
fn metas_and_controls_of_002() {
    run_gives(
        "00 ff 51 03 0b 71 b0 87 40 ff 51 03 07 a1 20 87 40 ff 51 03 16 e3 60 8f 00 ff 51 03 07 a1 20",
        &["0, Tempo, 750000", "960, Tempo, 500000", "1920, Tempo, 1500000", "3840, Tempo, 500000"],
    );
    run_gives("00 ff 58 04 02 02 18 08", &["0, Time_signature, 2, 2, 24, 8"]);
    run_gives("00 ff 59 02 F9 00", &["0, Key_signature, -7, \"major\""]);
    run_gives("00 b3 00 00", &["0, Control_c, 3, 0, 0"]);
    run_gives("00 80 40 7F", &["0, Note_off_c, 0, 64, 127"]);
}

#[test]
fn notes_of_002() {
    run_gives(
        "8e 44 91 3c 64 83 60 81 3c 7f",
        &["1860, Note_on_c, 1, 60, 100", "2340, Note_off_c, 1, 60, 127"],
    );
    run_gives(
        "93 58 90 2c 7f 81 34 2c 00 00 2d 7f 81 34 2d 00 00 2a 7f 78 2a 00 00 28 7f",
        &[
            "2520, Note_on_c, 0, 44, 127", "2700, Note_on_c, 0, 44, 0",
            "2700, Note_on_c, 0, 45, 127", "2880, Note_on_c, 0, 45, 0",
            "2880, Note_on_c, 0, 42, 127", "3000, Note_on_c, 0, 42, 0",
            "3000, Note_on_c, 0, 40, 127",
        ],
    );
    run_gives(
        "0f 90 4f 7f 78 52 7f 00 80 4f 7f 77 90 5b 7f 65 44 7f 50 80 52 7f 40 5b 7f 50 44 7f",
        &[
            "15, Note_on_c, 0, 79, 127", "135, Note_on_c, 0, 82, 127",
            "135, Note_off_c, 0, 79, 127", "254, Note_on_c, 0, 91, 127",
            "355, Note_on_c, 0, 68, 127", "435, Note_off_c, 0, 82, 127",
            "499, Note_off_c, 0, 91, 127", "579, Note_off_c, 0, 68, 127",
        ],
    );
    run_gives(
        "81 05 ff 05 02 61 62 00 9f 31 64 69 31 00 0f ff 05 04 63 64 65 66 00 9f 34 4f 3c 34 00",
        &[
            "133, Lyric_t, \"ab\"", "133, Note_on_c, 15, 49, 100", "238, Note_on_c, 15, 49, 0",
            "253, Lyric_t, \"cdef\"", "253, Note_on_c, 15, 52, 79", "313, Note_on_c, 15, 52, 0",
        ],
    );
}

#[test]
fn deltas_of_002() {
    run_gives("59 C0 00", &["89, Program_c, 0, 0"]);
    run_gives("92 d8 60 C0 00", &["306272, Program_c, 0, 0"]);
    // 002 says 165 * 128 + 64, but keeps the top bit of A5 in it.
    run_gives("A5 40 C0 00", &["4800, Program_c, 0, 0"]);
}

#[test]
fn slips_in_the_bytes_of_002_are_refused() {
    // "81 e5" for 81 05: the delta runs on into FF 05, and 02 has no status.
    assert_eq!(check(&ended("81 e5 ff 05 02 61 62")), refusal(8, 22));
    // "78 2a" is no delta of two bytes: 2a is a key and 80 its velocity.
    assert_eq!(check(&ended("00 90 2a 55 78 2a 80 2a 7F")), refusal(9, 26));
    assert_eq!(check(&one_track("00 90 2a 55 78 27 2a 00 00 ff 2f 00")), refusal(9, 29));
    assert_eq!(check(&ended("08 65 B4 00 00")), refusal(8, 22));
    // "size of the block less the 3 bytes of its end": they are counted.
    let mut file = one_track("00 90 3C 40 00 FF 2F 00");
    file[21] -= 3;
    assert_eq!(check(&file), refusal(6, 26));
}

#[test]
fn dates_of_003() {
    run_gives(
        "0A C0 01 19 C0 02 05 C0 03",
        &["10, Program_c, 0, 1", "35, Program_c, 0, 2", "40, Program_c, 0, 3"],
    );
}

#[test]
fn repeated_notes_of_004() {
    let file = hex("4D 54 68 64 00 00 00 06 00 00 00 01 00 C0 4D 54 72 6B 00 00 00 3B \
         00 FF 01 07 54 72 61 63 6B 20 31 00 90 3C 47 0C 80 3C 47 81 1F 90 3C 43 11 80 3C 43 \
         81 26 90 3C 42 0E 80 3C 42 81 32 90 3C 42 0F 80 3C 42 81 3C 90 3C 47 0E 80 3C 47 \
         00 FF 2F 00");
    let text = "0, 0, Header, 0, 1, 192
1, 0, Start_track
1, 0, Text_t, \"Track 1\"
1, 0, Note_on_c, 0, 60, 71
1, 12, Note_off_c, 0, 60, 71
1, 171, Note_on_c, 0, 60, 67
1, 188, Note_off_c, 0, 60, 67
1, 354, Note_on_c, 0, 60, 66
1, 368, Note_off_c, 0, 60, 66
1, 546, Note_on_c, 0, 60, 66
1, 561, Note_off_c, 0, 60, 66
1, 749, Note_on_c, 0, 60, 71
1, 763, Note_off_c, 0, 60, 71
1, 763, End_track
0, 0, End_of_file
";
    assert_eq!(shown(to_text(&file)), text);
    assert_eq!(to_file(text.as_bytes(), 1), Ok(file.clone()));
    assert_eq!(to_file(text.as_bytes(), 0), Ok(file));
}

#[test]
fn dumped_file_of_004() {
    let file = hex(
        "4D 54 68 64 00 00 00 06 00 01 00 02 01 E0 4D 54 72 6B 00 00 00 4A 08 FF 58 04 0C 03 0C 0C \
         8D 64 90 45 32 00 39 32 00 3F 32 83 60 3F 00 00 45 00 00 39 00 81 20 39 28 00 45 28 \
         00 3F 28 82 40 3F 00 00 45 00 00 39 00 81 20 39 2D 00 45 2D 00 3E 2D 83 60 39 00 \
         00 45 00 00 3E 00 83 5C FF 2F 00 4D 54 72 6B 00 00 00 38 8D 6C 90 23 32 83 60 23 00 \
         00 2F 30 81 20 2F 00 00 27 35 82 40 27 00 00 33 2B 81 20 33 00 00 28 37 82 40 28 00 \
         00 34 35 81 20 34 00 00 28 2E 82 40 28 00 81 1C FF 2F 00",
    );
    let text = include_str!("sources/dump_004.csv");
    assert_eq!(shown(to_text(&file)), text);
    // Written short throughout, so manner 1 gives it back.
    assert_eq!(to_file(text.as_bytes(), 1), Ok(file.clone()));
    assert_eq!(tidied(&file), Ok(file));
}

#[test]
fn au_clair_de_la_lune_of_004() {
    let head = [77, 84, 104, 100, 0, 0, 0, 6, 0, 0, 0, 1, 1, 244, 77, 84, 114, 107];
    let tempo = [0, 255, 81, 3, 7, 161, 32];
    let notes = [
        128, 0, 144, 60, 120, 131, 66, 144, 60, 0, 128, 50, 144, 60, 120, 131, 66, 144, 60, 0, 128,
        50, 144, 60, 120, 131, 66, 144, 60, 0, 128, 50, 144, 62, 120, 131, 66, 144, 62, 0, 128, 50,
        144, 64, 120, 135, 54, 144, 64, 0, 128, 50, 144, 62, 120, 135, 54, 144, 62, 0,
    ];
    let end = [0, 255, 47, 0];
    let length = (tempo.len() + notes.len() + end.len()) as u32;
    let file = [&head[..], &length.to_be_bytes(), &tempo, &notes, &end].concat();
    let text = include_str!("sources/lune_004.csv");
    assert_eq!(shown(to_text(&file)), text);
    // Its deltas are padded (128 0) and its statuses written: tidied, it shrinks
    // by a byte for each of six deltas under 128 and eleven equal statuses.
    let short = tidied(&file).unwrap();
    assert_eq!(short.len(), file.len() - 6 - 11);
    assert_eq!(to_file(text.as_bytes(), 1), Ok(short));
}
