//! Errors of the source documents that document 01 overrules, and the slips
//! it rules out by name.

mod common;

use common::{ended, event_lines, file_of, hex, one_track, shown, to_file, to_text};
use second::number::write_variable;
use second::operations::check;
use second::refusal::Answer;

/// 002 caps texts at 255 bytes and tracks at 65,535.
#[test]
fn texts_over_255_bytes_and_tracks_over_65_535() {
    for size in [255, 256, 300, 65_535, 65_536, 200_000] {
        let mut body = hex("00 FF 01");
        write_variable(size, 4, &mut body);
        body.extend(vec![b'a'; size as usize]);
        body.extend(hex("00 FF 2F 00"));
        let file = file_of(0, &[body]);
        assert_eq!(check(&file), Answer::success(0), "{size}");
        let text = to_text(&file).unwrap();
        let letters = text.iter().filter(|byte| **byte == b'a').count();
        assert!(letters >= size as usize, "{size}");
        assert_eq!(to_text(&to_file(&text, 1).unwrap()), Ok(text), "{size}");
    }
    let many = ended(&"00 90 3C 40 ".repeat(20_000));
    assert!(many.len() > 65_535 + 22);
    assert_eq!(event_lines(&many).len(), 20_001);
}

/// 003 exchanges the names of 80h and 90h.
#[test]
fn note_off_is_80_and_note_on_is_90() {
    let lines = event_lines(&ended("00 80 3C 40 00 90 3C 40"));
    assert_eq!(lines[..2], ["1, 0, Note_off_c, 0, 60, 64", "1, 0, Note_on_c, 0, 60, 64"]);
    let text = "0, 0, Header, 0, 1, 96\n1, 0, Start_track\n1, 0, Note_off_c, 2, 1, 3\n\
        1, 0, Note_on_c, 2, 1, 3\n1, 0, End_track\n0, 0, End_of_file\n";
    let file = to_file(text.as_bytes(), 1).unwrap();
    assert_eq!(file[22..], hex("00 82 01 03 00 92 01 03 00 FF 2F 00"));
}

/// 000 and 001 give End_track the Time of the event before it.
#[test]
fn end_track_has_its_own_delta() {
    let file = one_track("10 C0 05 83 5C FF 2F 00");
    assert_eq!(event_lines(&file), ["1, 16, Program_c, 0, 5", "1, 492, End_track"]);
    let text = to_text(&file).unwrap();
    assert_eq!(to_file(&text, 1), Ok(file));
}

/// 002 reckons 01 E0 as 01 * FF + E0, which would be 479.
#[test]
fn division_is_high_byte_first() {
    let mut file = one_track("00 FF 2F 00");
    file[12..14].copy_from_slice(&hex("01 E0"));
    assert!(shown(to_text(&file)).starts_with("0, 0, Header, 0, 1, 480\n"));
}

#[test]
fn no_status_is_kept_over_a_meta_or_into_the_next_track() {
    let text = "0, 0, Header, 1, 2, 96\n1, 0, Start_track\n1, 0, Note_on_c, 0, 1, 2\n\
        1, 0, Lyric_t, \"\"\n1, 0, Note_on_c, 0, 1, 2\n1, 0, System_exclusive, 0\n\
        1, 0, Note_on_c, 0, 1, 2\n1, 0, Note_on_c, 0, 3, 4\n1, 0, End_track\n\
        2, 0, Start_track\n2, 0, Note_on_c, 0, 3, 4\n2, 0, End_track\n0, 0, End_of_file\n";
    let file = to_file(text.as_bytes(), 1).unwrap();
    let first = "00 90 01 02 00 FF 05 00 00 90 01 02 00 F0 00 00 90 01 02 00 03 04 00 FF 2F 00";
    assert_eq!(file, file_of(1, &[hex(first), hex("00 90 03 04 00 FF 2F 00")]));
    assert_eq!(shown(to_text(&file)), text);
}

#[test]
fn a_type_with_its_own_name_is_no_unknown_meta_event() {
    let line = |meta_type: u32| {
        format!(
            "0, 0, Header, 0, 1, 96\n1, 0, Start_track\n1, 0, Unknown_meta_event, {meta_type}, 0\n\
             1, 0, End_track\n0, 0, End_of_file\n"
        )
    };
    let told = to_file(line(47).as_bytes(), 1);
    assert_eq!(told, Err(Answer { number: 25, place: 3, length: 0 }));
    assert!(to_file(line(48).as_bytes(), 1).is_ok());
}

#[test]
fn note_on_at_velocity_0_stays_note_on() {
    let file = ended("00 90 3C 00");
    assert_eq!(event_lines(&file)[0], "1, 0, Note_on_c, 0, 60, 0");
    assert_eq!(to_file(&to_text(&file).unwrap(), 1), Ok(file));
}

#[test]
fn end_track_is_compared_with_the_declared_length() {
    for (less, number) in [(1, 6), (2, 6), (3, 6), (4, 6)] {
        let mut file = one_track("00 C0 05 00 FF 2F 00");
        file[21] -= less;
        assert_eq!(check(&file).number, number, "{less} bytes less declared");
    }
    let mut file = [one_track("00 C0 05 00 FF 2F 00"), vec![0]].concat();
    file[21] += 1;
    assert_eq!(check(&file), Answer { number: 12, place: 29, length: 0 });
}
