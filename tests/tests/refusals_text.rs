//! Refusals of texts: each number by hand, with its exact line, and every
//! rule of document 01 on which fault comes first.

mod common;

use std::collections::BTreeSet;

use common::to_file;
use second::operations::text_to_file;
use second::refusal::Answer;

type Case = (String, u8, usize);

fn answer(number: u8, place: usize) -> Answer {
    Answer { number, place, length: 0 }
}

/// Both manners refuse the text alike and write nothing.
fn refused((text, number, place): &Case) {
    for manner in [0, 1] {
        let mut room = [0xAA; 300];
        let told = text_to_file(text.as_bytes(), manner, &mut room);
        assert_eq!(told, answer(*number, *place), "{text}");
        assert_eq!(room, [0xAA; 300], "written: {text}");
        assert_eq!(text_to_file(text.as_bytes(), manner, &mut []), told, "no room: {text}");
    }
}

fn accepted(text: &str) {
    to_file(text.as_bytes(), 1).unwrap_or_else(|told| panic!("{told:?}: {text}"));
}

const START: &str = "0, 0, Header, 1, 1, 96\n1, 0, Start_track\n";
const END: &str = "1, 4294967295, End_track\n0, 0, End_of_file\n";

/// A text with this as its third line; all after it is good or not reached.
fn third(line: &str) -> String {
    format!("{START}{line}\n1, 0, End_track\n0, 0, End_of_file\n")
}

/// The cases that a third line is refused with a number, for each line.
fn thirds(number: u8, lines: &[&str]) -> Vec<Case> {
    lines.iter().map(|line| (third(line), number, 3)).collect()
}

fn shapes() -> Vec<Case> {
    let mut cases = thirds(
        22,
        &[
            "1, 0, Tempo, +1", "1, 0, Tempo, 4294967296", "1, 0, Tempo, -4294967296",
            "1, 0, Tempo, 00000000001", "1, 0, Tempo, 1 2", "1, 0, Tempo, - 1", "1, 0, Tempo, -",
            "1, 0, Tempo, --1", "1, 0, Tempo, 1x", "1, 0, Tempo, 0x1", "1, 0, Tempo, \u{2212}1",
            "1, 0, Tempo, ", "1, 0, Tempo,,1", ",1, 0, Tempo", "1, 0, Tempo, 1,", ",", "1,",
            "1, 0, Note-on", "1, 0, Note on", "1, 0, Note1", "1, 0, \u{e9}", "1, 0, Tempo, 1 #",
            "1, 0, Text_t, \"a", "1, 0, Text_t, \"", "1, 0, Text_t, \"a\"\"", "1, 0, Text_t, a\"",
            "1, 0, Text_t, \"a\"b", "1, 0, Text_t, \"a\" \"b\"", "1, 0, Text_t, \"a\";",
            "1, 0, Text_t, \"\\400\"", "1, 0, Text_t, \"\\777\"", "1, 0, Text_t, \"\\12\"",
            "1, 0, Text_t, \"\\1\"", "1, 0, Text_t, \"\\128\"", "1, 0, Text_t, \"\\n\"",
            "1, 0, Text_t, \"\\\"", "1, 0, Text_t, \"\\\\\\\"", "1, 0, Text_t, \"a\rb\"",
            "1, 0, Text_t, \"a\r\"", "1, 0, Text_t, \"a\" \r ", "\r\r", "1, 0, Tempo, 1\r\r",
            "\rx", "\r# no comment", "\u{b}", "\0", "1; 0; Tempo; 1", "'1', 0, Tempo, 1",
        ],
    );
    // LF ends a line even inside quotes: the first part is unended.
    cases.push((third("1, 0, Text_t, \"a\nb\""), 22, 3));
    cases.push(("\r\r".into(), 22, 1));
    cases.push(("# one\n\n \t\n+\n".into(), 22, 4));
    cases
}

fn names_and_counts() -> Vec<Case> {
    let names = thirds(
        23,
        &[
            "1, 0, Tempos, 1", "1, 0, Note_on, 1", "1, 0, 5", "1, 0, -0, 3", "1, 0, \"Tempo\", 1",
            "1, 0, major", "1, 0, _", "1, 0, Text, \"a\"", "1, 0, End_of_track",
        ],
    );
    let counts = thirds(
        24,
        &[
            "1", "1, 0", "Tempo", "\"a\"", "1, Tempo", "1, 0, Tempo", "1, 0, Tempo, 1, 2",
            "1, 0, Header, 1, 1", "1, 0, Start_track, 0", "1, 0, End_track, 0",
            "0, 0, End_of_file, 0", "1, 0, Note_on_c, 0, 60", "1, 0, Note_on_c, 0, 60, 64, 0",
            "1, 0, Note_off_c, 0, 60", "1, 0, Poly_aftertouch_c, 0, 60", "1, 0, Control_c, 0, 60",
            "1, 0, Program_c, 0", "1, 0, Program_c, 0, 0, 0", "1, 0, Channel_aftertouch_c, 0",
            "1, 0, Pitch_bend_c, 0", "1, 0, Pitch_bend_c, 0, 0, 0", "1, 0, Sequence_number",
            "1, 0, Text_t", "1, 0, Text_t, \"a\", \"b\"", "1, 0, Copyright_t", "1, 0, Title_t",
            "1, 0, Instrument_name_t", "1, 0, Lyric_t", "1, 0, Marker_t", "1, 0, Cue_point_t",
            "1, 0, Channel_prefix", "1, 0, MIDI_port", "1, 0, SMPTE_offset, 0, 0, 0, 0",
            "1, 0, SMPTE_offset, 0, 0, 0, 0, 0, 0", "1, 0, Time_signature, 4, 2, 24",
            "1, 0, Key_signature, 0", "1, 0, Key_signature, 0, \"major\", 0",
            "1, 0, System_exclusive", "1, 0, System_exclusive_packet", "1, 0, Sequencer_specific",
            "1, 0, Unknown_meta_event", "1, 0, Unknown_meta_event, 96",
            "1, 0, System_exclusive, 2, 1", "1, 0, System_exclusive, 0, 1",
            "1, 0, Unknown_meta_event, 96, 1", "1, 0, Unknown_meta_event, 96, 0, 1",
            "1, 0, Sequencer_specific, 4294967295, 1",
        ],
    );
    [names, counts].concat()
}

fn ranges() -> Vec<Case> {
    thirds(
        25,
        &[
            "-1, 0, Tempo, 1", "65536, 0, Tempo, 1", "a, 0, Tempo, 1", "\"1\", 0, Tempo, 1",
            "1, -1, Tempo, 1", "1, a, Tempo, 1", "1, \"0\", Tempo, 1", "1, 0, Tempo, 0",
            "1, 0, Tempo, 16777216", "1, 0, Tempo, -1", "1, 0, Tempo, a", "1, 0, Tempo, \"1\"",
            "1, 0, Tempo, 4294967295", "1, 0, Tempo, -4294967295", "1, 0, Note_on_c, 16, 0, 0",
            "1, 0, Note_on_c, 0, 128, 0", "1, 0, Note_on_c, 0, 0, 128",
            "1, 0, Note_off_c, -1, 0, 0", "1, 0, Note_off_c, 0, 0, 128",
            "1, 0, Poly_aftertouch_c, 0, 128, 0", "1, 0, Control_c, 0, 0, 128",
            "1, 0, Program_c, 0, 128", "1, 0, Program_c, 16, 0",
            "1, 0, Channel_aftertouch_c, 0, 128", "1, 0, Pitch_bend_c, 0, 16384",
            "1, 0, Pitch_bend_c, 16, 0", "1, 0, Pitch_bend_c, 0, -1",
            "1, 0, Sequence_number, 65536", "1, 0, Sequence_number, -1", "1, 0, Text_t, 1",
            "1, 0, Text_t, a", "1, 0, Channel_prefix, 256", "1, 0, MIDI_port, 256",
            "1, 0, SMPTE_offset, 256, 0, 0, 0, 0", "1, 0, SMPTE_offset, 0, 0, 0, 256, 0",
            "1, 0, SMPTE_offset, 0, 0, 0, 0, 100", "1, 0, Time_signature, 256, 0, 0, 0",
            "1, 0, Time_signature, 0, 0, 0, 256", "1, 0, Key_signature, 8, \"major\"",
            "1, 0, Key_signature, -8, \"major\"", "1, 0, Key_signature, 0, major",
            "1, 0, Key_signature, 0, \"Major\"", "1, 0, Key_signature, 0, \"major \"",
            "1, 0, Key_signature, 0, \"\"", "1, 0, Key_signature, 0, 0",
            "1, 0, System_exclusive, 1, 256", "1, 0, System_exclusive, 1, -1",
            "1, 0, System_exclusive, 2, 0, a", "1, 0, System_exclusive_packet, 1, 256",
            "1, 0, Sequencer_specific, 1, \"1\"", "1, 0, Unknown_meta_event, 96, 1, 256",
            "1, 0, Unknown_meta_event, 128, 0", "1, 0, Unknown_meta_event, -1, 0",
            "1, 0, Unknown_meta_event, a, 0", "0, 0, Header, 3, 1, 96", "0, 0, Header, -1, 1, 96",
            "0, 0, Header, 1, 0, 96", "0, 0, Header, 1, 65536, 96", "0, 0, Header, 0, 2, 96",
            "65536, 0, End_of_file", "0, a, Start_track",
        ],
    )
}

/// The division of a Header: 25 on its own line, and before 26 on a later one.
fn divisions() -> Vec<Case> {
    let bad = [
        "0", "-0", "32768", "59176", "65535", "65632", "4294967295", "-1", "-216", "-5848",
        "-5887", "-5888", "-6144", "-6400", "-06400", "-6616", "-6872", "-7128", "-7168", "-7424",
        "-7680", "-7681", "-7896", "-32728", "-32768", "-32769", "-65440", "-65536", "-71896",
        "-4294967295", "film", "\"-6360\"", "\"96\"",
    ];
    let text = |header: &str| format!("{header}\n1, 0, Start_track\n1, 0, End_track\n");
    let mut cases: Vec<Case> = bad
        .iter()
        .map(|division| (text(&format!("0, 0, Header, 1, 1, {division}")), 25, 1))
        .collect();
    cases.extend(thirds(25, &["0, 0, Header, 1, 1, 0", "0, 0, Header, 1, 1, -6400"]));
    cases.extend(thirds(26, &["0, 0, Header, 1, 1, 96", "0, 0, Header, 1, 1, -6360"]));
    cases.extend([
        (text("0, 0, Header, 1, 1, -6360.0"), 22, 1),
        (text("0, 0, Header, 1, 1, - 6360"), 22, 1),
        (text("0, 0, Header, 1, 1, +6360"), 22, 1),
        (text("0, 0, Header, 1, 1, E728"), 22, 1),
        (text("0, 0, Header, 1, 1, 25, 40"), 24, 1),
        (text("1, 0, Header, 1, 1, -6400"), 25, 1),
        (text("1, 0, Header, 1, 1, -6360"), 26, 1),
    ]);
    cases
}

fn types_and_texts() -> Vec<Case> {
    let mut cases = Vec::new();
    for named in [0, 1, 7, 32, 33, 47, 81, 84, 88, 89, 127] {
        cases.push((third(&format!("1, 0, Unknown_meta_event, {named}, 0")), 25, 3));
    }
    for kind in
        ["Copyright_t", "Title_t", "Instrument_name_t", "Lyric_t", "Marker_t", "Cue_point_t"]
    {
        cases.push((third(&format!("1, 0, {kind}, 1")), 25, 3));
    }
    cases
}

/// Which of two faults in a line decides.
fn order_within_a_line() -> Vec<Case> {
    let faults: [(u8, &str); 14] = [
        (22, "1, 0, Tempos, +"),
        (22, "1, +"),
        (22, "+, 0, 5, 3, a"),
        (22, "1, 0, Tempo, a, \"b"),
        (24, "a, b"),
        (23, "-1, a, Tempos, 1, 2"),
        (24, "-1, 0, Tempo"),
        (24, "1, 0, Tempo, a, b"),
        // Length: missing 24, no non-negative number 25, count 24, then other 25.
        (24, "-1, 0, System_exclusive"),
        (25, "1, 0, System_exclusive, -1, 0, 0"),
        (25, "1, 0, System_exclusive, a"),
        (24, "-1, 0, System_exclusive, 2, 256"),
        (25, "1, 0, Unknown_meta_event, 200, \"1\""),
        (24, "1, 0, Unknown_meta_event, 200, 1"),
    ];
    let mut cases: Vec<Case> =
        faults.iter().map(|(number, line)| (third(line), *number, 3)).collect();
    let late = |line: &str| format!("{START}1, 9, Tempo, 1\n{line}\n{END}");
    cases.extend([
        (late("1, 3, Tempo, 0"), 25, 4),
        (late("2, 3, Tempo, 0"), 25, 4),
        (late("1, 3, Tempo, 1"), 26, 4),
        (late("2, 4294967295, Tempo, 1"), 26, 4),
        (late("1, 4294967295, Tempo, 1"), 27, 4),
        (late("1, 268435465, Tempo, 1"), 27, 4),
        (late("1, 268435465, Tempo, 0"), 25, 4),
        // An earlier line decides, whatever is wrong later.
        (late("1, 3, Tempo, 1\n+"), 26, 4),
        (late("1, 9, Tempo, 2\n+\n1, 3, Tempo, 1"), 22, 5),
    ]);
    cases
}

fn order_of_records() -> Vec<Case> {
    let header = "0, 0, Header, 1, 2, 96\n";
    let one = "1, 0, Start_track\n1, 0, End_track\n";
    let two = "2, 0, Start_track\n2, 0, End_track\n";
    let mut cases: Vec<Case> = vec![
        ("1, 0, Start_track\n".into(), 26, 1),
        ("0, 0, End_of_file\n".into(), 26, 1),
        ("1, 0, Tempo, 1\n".into(), 26, 1),
        ("1, 0, Header, 1, 2, 96\n".into(), 26, 1),
        ("0, 1, Header, 1, 2, 96\n".into(), 26, 1),
        (format!("{header}{header}"), 26, 2),
        (format!("{header}2, 0, Start_track\n"), 26, 2),
        (format!("{header}0, 0, Start_track\n"), 26, 2),
        (format!("{header}1, 1, Start_track\n"), 26, 2),
        (format!("{header}1, 0, Tempo, 1\n"), 26, 2),
        (format!("{header}1, 0, End_track\n"), 26, 2),
        (format!("{header}0, 0, End_of_file\n"), 26, 2),
        (format!("{header}{one}0, 0, End_of_file\n"), 26, 4),
        (format!("{header}{one}{one}"), 26, 4),
        (format!("{header}{one}3, 0, Start_track\n"), 26, 4),
        (format!("{header}{one}1, 0, Tempo, 1\n"), 26, 4),
        (format!("{header}{one}{two}3, 0, Start_track\n"), 26, 6),
        (format!("{header}{one}{two}1, 0, End_of_file\n"), 26, 6),
        (format!("{header}{one}{two}0, 1, End_of_file\n"), 26, 6),
        (format!("{header}1, 0, Start_track\n1, 0, Start_track\n"), 26, 3),
        (format!("{header}1, 0, Start_track\n2, 0, Tempo, 1\n"), 26, 3),
        (format!("{header}1, 0, Start_track\n0, 0, Tempo, 1\n"), 26, 3),
        (format!("{header}1, 0, Start_track\n2, 0, End_track\n"), 26, 3),
        (format!("{header}1, 0, Start_track\n0, 0, End_of_file\n"), 26, 3),
        (format!("{header}1, 0, Start_track\n0, 0, Header, 1, 2, 96\n"), 26, 3),
        (format!("{header}1, 0, Start_track\n1, 5, Tempo, 1\n1, 4, End_track\n"), 26, 4),
    ];
    cases.push((format!("{START}1, 268435456, End_track\n"), 27, 3));
    cases.push((format!("{START}1, 268435456, Tempo, 1\n"), 27, 3));
    cases.push((format!("{START}1, 1, Tempo, 1\n1, 268435457, End_track\n"), 27, 4));
    cases
}

/// After End_of_file the whole order of tests goes on.
fn records_after_the_last() -> Vec<Case> {
    let header = "0, 0, Header, 1, 1, 96\n";
    let whole = format!("{header}1, 0, Start_track\n1, 0, End_track\n0, 0, End_of_file\n");
    vec![
        (format!("{whole}0, 0, End_of_file\n"), 26, 5),
        (format!("{whole}{header}"), 26, 5),
        (format!("{whole}1, 0, Tempo, 1\n"), 26, 5),
        (format!("{whole}1, 0, Tempo, 0\n"), 25, 5),
        (format!("{whole}1, 0, Tempo\n"), 24, 5),
        (format!("{whole}1, 0, x\n"), 23, 5),
        (format!("{whole}\n# fine\nx\n"), 24, 7),
        (format!("{whole}+"), 22, 5),
    ]
}

fn texts_that_stop() -> Vec<Case> {
    let header = "0, 0, Header, 1, 1, 96\n";
    [
        ("", 1),
        ("\n", 2),
        ("\r", 2),
        ("\r\n", 2),
        ("\n\n", 3),
        ("# only\n; comments", 3),
        (" \t", 2),
        (header, 2),
        (&header[..header.len() - 1], 2),
        (&format!("{header}1, 0, Start_track\n"), 3),
        (&format!("{header}1, 0, Start_track\n1, 0, End_track\n"), 4),
        (&format!("{header}1, 0, Start_track\n1, 0, End_track"), 4),
        (&format!("{header}1, 0, Start_track\n1, 0, End_track\n\r"), 5),
        (&format!("{header}1, 0, Start_track\n1, 0, End_track\n#0, 0, End_of_file"), 5),
    ]
    .map(|(text, line)| (text.to_owned(), 28, line))
    .to_vec()
}

#[test]
fn each_refusal_has_its_number_and_line() {
    let tables = [
        shapes(),
        names_and_counts(),
        ranges(),
        divisions(),
        types_and_texts(),
        order_within_a_line(),
        order_of_records(),
        records_after_the_last(),
        texts_that_stop(),
    ];
    let cases = tables.concat();
    cases.iter().for_each(refused);
    let met: BTreeSet<u8> = cases.iter().map(|case| case.1).collect();
    assert_eq!(met, (22..=28).collect(), "a number has no case");
    println!("{} refused texts", cases.len());
}

#[test]
fn what_is_near_a_refusal_is_accepted() {
    let lines = [
        "1, 0, Tempo, 1", "1, 0, Tempo, 0000000001", "1,0,tempo,16777215", "01, -0, TEMPO, 1",
        "\t1\t, 0 ,Tempo,1 \t", "1, 0, Tempo, 1\r", "1, 0, Text_t, \"\\377\\000\"",
        "1, 0, Text_t, \"a\" ", "1, 0, Text_t, \"a,\"\"b\\\\\"", "1, 0, Text_t, \"\"",
        "1, 0, Text_t, \"#;\t\u{e9}\"", "1, 0, Text_t, \"a\"\r",
        "1, 0, Key_signature, -7, \"mino\\162\"", "1, 0, System_exclusive, -0",
        "1, 0, System_exclusive, 1, 255", "1, 0, Channel_prefix, 255",
        "1, 0, Unknown_meta_event, 126, 0", "1, 0, Unknown_meta_event, 8, 1, 0",
        "1, 0, Sequence_number, 65535", "1, 0, Note_on_c, 15, 127, 127",
        "1, 0, Pitch_bend_c, 15, 16383", "1, 0, SMPTE_offset, 255, 255, 255, 255, 99", "# , \"",
        " \t; x", "", " \t ", "\r", "#\r\r",
    ];
    lines.iter().for_each(|line| accepted(&third(line)));
    for division in [
        "1", "32767", "-5889", "-6143", "-6145", "-6360", "-6399", "-7169", "-7423", "-7425",
        "-7679", "-06360", "-0000006360", "\t-6360 ",
    ] {
        accepted(&third("").replace(", 96\n", &format!(", {division}\n")));
    }
    let whole = third("1, 0, Tempo, 1");
    accepted(whole.trim_end());
    accepted(&format!("{}\r", whole.trim_end()));
    accepted(&format!("{whole}# after\n\n \t\r"));
    accepted(&format!(" ; before\n{whole}"));
    accepted(&whole.replace('\n', "\r\n"));
    accepted(&format!(
        "{START}1, 268435455, Tempo, 1\n1, 536870910, End_track\n0, 0, End_of_file\n"
    ));
}

#[test]
fn sizes_of_text_and_file_and_manners() {
    let good = third("1, 0, Tempo, 1");
    let mut met = BTreeSet::new();
    let mut tell = |text: &[u8], manner: u32, due: Answer| {
        assert_eq!(text_to_file(text, manner, &mut []), due);
        met.insert(due.number);
    };
    let mut filled = [good.as_bytes(), &vec![b'#'; 33_554_432 - good.len()]].concat();
    tell(&filled, 1, Answer::room_needed(33));
    filled.push(b'#');
    tell(&filled, 1, answer(21, 0));
    // The manner is tested before all else, and in all its 32 bits.
    tell(&filled, 2, answer(30, 0));
    for manner in [2, 256, 257, 1 << 31, u32::MAX] {
        tell(good.as_bytes(), manner, answer(30, 0));
    }
    // 32 bytes round a text: 22, then delta and FF 01 and length 6, then End_track 4.
    let text = |size: usize| third(&format!("1, 0, Text_t, \"{}\"", "a".repeat(size - 32)));
    tell(text(1_048_576).as_bytes(), 0, Answer::room_needed(1_048_576));
    tell(text(1_048_577).as_bytes(), 0, answer(29, 0));
    // 29 comes after every fault of a line, and after 28.
    let cut = text(1_048_577).replace("0, 0, End_of_file\n", "");
    tell(cut.as_bytes(), 1, answer(28, 5));
    tell(format!("{}+", text(1_048_577)).as_bytes(), 1, answer(22, 6));
    assert_eq!(met, BTreeSet::from([14, 21, 22, 28, 29, 30]));
}

#[test]
fn the_manner_decides_whether_a_file_fits() {
    let notes = "1, 0, Note_on_c, 0, 60, 64\n".repeat(2);
    let text = third(&format!("{notes}1, 0, Text_t, \"{}\"", "a".repeat(1_048_576 - 39)));
    assert_eq!(text_to_file(text.as_bytes(), 1, &mut []), Answer::room_needed(1_048_576));
    assert_eq!(text_to_file(text.as_bytes(), 0, &mut []), answer(29, 0));
}

#[test]
fn as_many_tracks_as_can_be_counted() {
    let text = |count: usize| {
        let tracks: String =
            (1..=count).map(|n| format!("{n}, 0, Start_track\n{n}, 0, End_track\n")).collect();
        format!("0, 0, Header, 1, {count}, 96\n{tracks}0, 0, End_of_file\n")
    };
    let file = to_file(text(65_535).as_bytes(), 1).unwrap();
    assert_eq!(file.len(), 14 + 12 * 65_535);
    assert_eq!(to_file(text(65_536).as_bytes(), 1), Err(answer(25, 1)));
}
