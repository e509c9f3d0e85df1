//! Every reading that document 01 gives in its section "Readings".

mod common;

use common::{ended, event_lines, hex, one_track, shown, to_file, to_text};
use second::number::{read_variable, Fault};
use second::operations::{check, file_to_text, midi2csv, text_to_file};
use second::refusal::Answer;

const EXAMPLE: &str = "4D 54 68 64 00 00 00 06 00 00 00 01 00 60 4D 54 72 6B 00 00 00 11 00 FF 03 \
    02 41 22 00 90 3C 40 60 3C 00 00 FF 2F 00";

const EXAMPLE_TEXT: &str = "0, 0, Header, 0, 1, 96
1, 0, Start_track
1, 0, Title_t, \"A\"\"\"
1, 0, Note_on_c, 0, 60, 64
1, 96, Note_on_c, 0, 60, 0
1, 96, End_track
0, 0, End_of_file
";

fn refusal(number: u8, place: usize) -> Answer {
    Answer { number, place, length: 0 }
}

/// The greatest variable-length number as a delta, then Program_c.
fn far(count: usize) -> String {
    "FF FF FF 7F C0 00 ".repeat(count)
}

#[test]
fn variable_length_numbers() {
    let readings = [
        ("00", 0),
        ("7F", 127),
        ("81 00", 128),
        ("FF 7F", 16_383),
        ("81 80 00", 16_384),
        ("FF FF FF 7F", 268_435_455),
        ("80 00", 0),
        ("87 40", 960),
    ];
    for (bytes, value) in readings {
        let bytes = hex(bytes);
        let read = read_variable(&bytes).map(|read| (read.value, read.width));
        assert_eq!(read, Ok((value, bytes.len())), "{bytes:02X?}");
    }
    assert_eq!(read_variable(&hex("80 80 80 80 00")), Err(Fault::TooLong));
}

#[test]
fn variable_length_numbers_as_deltas() {
    for (bytes, time) in
        [("81 00", 128), ("80 00", 0), ("87 40", 960), ("FF FF FF 7F", 268_435_455)]
    {
        let lines = event_lines(&ended(&format!("{bytes} C0 05")));
        assert_eq!(lines[0], format!("1, {time}, Program_c, 0, 5"));
    }
    assert_eq!(check(&ended("80 80 80 80 00 C0 05")), refusal(5, 22));
}

#[test]
fn values_of_events() {
    assert_eq!(event_lines(&ended("00 E0 00 40"))[0], "1, 0, Pitch_bend_c, 0, 8192");
    assert_eq!(event_lines(&ended("00 FF 59 02 FD 01"))[0], "1, 0, Key_signature, -3, \"minor\"");
    assert_eq!(event_lines(&ended("00 FF 51 03 0B 71 B0"))[0], "1, 0, Tempo, 750000");
    assert_eq!(check(&ended("00 FF 51 03 00 00 00")), refusal(11, 22));
}

/// Wish 6: E7 28 is 25 frames a second of 40 ticks each.
#[test]
fn a_film_division_both_ways() {
    let mut file = hex(EXAMPLE);
    file[12..14].copy_from_slice(&hex("E7 28"));
    let text = EXAMPLE_TEXT.replace(", 96\n1, 0, Start", ", -6360\n1, 0, Start");
    assert_ne!(text, EXAMPLE_TEXT);
    assert_eq!(shown(to_text(&file)), text);
    assert_eq!(midi2csv(&file), text.as_bytes());
    assert_eq!(to_file(text.as_bytes(), 1), Ok(file.clone()));
    let full = to_file(text.as_bytes(), 0).unwrap();
    assert_eq!(full[12..14], hex("E7 28"));
    assert_eq!(shown(to_text(&full)), text);
}

#[test]
fn greatest_time() {
    let fits = one_track(&format!("{} 0F FF 2F 00", far(16)));
    assert_eq!(check(&fits), Answer::success(0));
    assert_eq!(event_lines(&fits)[16], "1, 4294967295, End_track");
    let over = one_track(&format!("{} 10 FF 2F 00", far(16)));
    assert_eq!(check(&over), refusal(7, 22 + 16 * 6));
}

#[test]
fn greatest_step_of_a_text() {
    let text = |time: u32| {
        format!(
            "0, 0, Header, 0, 1, 96\n1, 0, Start_track\n1, {time}, End_track\n0, 0, End_of_file\n"
        )
    };
    let file = to_file(text(268_435_455).as_bytes(), 1).unwrap();
    assert_eq!(file[22..], hex("FF FF FF 7F FF 2F 00"));
    assert_eq!(to_file(text(268_435_456).as_bytes(), 1), Err(refusal(27, 3)));
}

#[test]
fn nothing_at_all() {
    assert_eq!(check(&[]), refusal(2, 0));
    assert_eq!(file_to_text(&[], &mut []), refusal(2, 0));
    assert_eq!(text_to_file(&[], 1, &mut []), refusal(28, 1));
}

#[test]
fn the_example_both_ways() {
    let file = hex(EXAMPLE);
    assert_eq!(file.len(), 39);
    assert_eq!(shown(to_text(&file)), EXAMPLE_TEXT);
    assert_eq!(to_file(EXAMPLE_TEXT.as_bytes(), 1), Ok(file.clone()));
    let full = to_file(EXAMPLE_TEXT.as_bytes(), 0).unwrap();
    assert_eq!(full.len(), 40);
    // One status more, and the track's length grown by it.
    assert_eq!(full[14..22], hex("4D 54 72 6B 00 00 00 12"));
    assert_eq!(full[22..], hex("00 FF 03 02 41 22 00 90 3C 40 60 90 3C 00 00 FF 2F 00"));
}

#[test]
fn the_program_midi2csv() {
    assert_eq!(midi2csv(&hex(EXAMPLE)), EXAMPLE_TEXT.as_bytes());
    assert_eq!(midi2csv(&[]), b"refused 2 at 0\n");
    assert_eq!(midi2csv(&[0; 16_384]), b"refused 3 at 0\n");
    assert_eq!(midi2csv(&[0; 16_385]), b"refused 1 at 0\n");
    // 5,000 events of 3 bytes make over 65,536 bytes of text.
    assert_eq!(
        midi2csv(&ended(&format!("00 C0 00 {}", "00 00 ".repeat(5_000)))),
        b"refused 14 at 0\n"
    );
}

#[test]
fn an_answer_as_one_number() {
    let answer = Answer { number: 12, place: 39, length: 0 };
    assert_eq!(answer.packed(), (12 << 56) + (39 << 28));
    assert_eq!(Answer::room_needed(77).packed(), (14 << 56) + 77);
    let all = Answer { number: 255, place: (1 << 28) - 1, length: (1 << 28) - 1 };
    assert_eq!(all.packed(), u64::MAX);
    for answer in [answer, all, Answer::success(5)] {
        assert_eq!(Answer::unpacked(answer.packed()), answer);
    }
}
