//! Texts of 32 MiB, in the shapes that a careless reader takes too long over.

mod common;

use std::time::Instant;

use second::operations::text_to_file;
use second::refusal::Answer;
use second::TEXT_MAX;

const HEAD: &str = "0, 0, Header, 0, 1, 96\n1, 0, Start_track\n";
const TAIL: &str = "1, 0, End_track\n0, 0, End_of_file\n";

/// The answer to a text that is filled with `unit` up to the limit.
fn filled(before: &str, unit: &str, after: &str, number: u8, place: usize) {
    let units = (TEXT_MAX - before.len() - after.len()) / unit.len() / 2 * 2;
    let text = [before, &unit.repeat(units), after].concat();
    let start = Instant::now();
    let answer = text_to_file(text.as_bytes(), 1, &mut []);
    println!("{unit:?}: {:?}", start.elapsed());
    assert_eq!(answer, Answer { number, place, length: 0 }, "{unit:?}");
    // Linear time takes well under a second; quadratic would take hours.
    assert!(start.elapsed().as_secs() < 30, "{unit:?} took {:?}", start.elapsed());
}

#[test]
fn long_lines_and_many_lines() {
    let open = format!("{HEAD}1, 0, Text_t, \"");
    let shut = format!("\"\n{TAIL}");
    filled(&open, "a", &shut, 29, 0);
    filled(&open, "\"\"", &shut, 29, 0);
    filled(&open, "\\101", &shut, 29, 0);
    filled(&open, "\"\"", TAIL, 22, 3);
    filled(&format!("{HEAD}1, 0, System_exclusive, 1"), ",0", &format!("\n{TAIL}"), 24, 3);
    filled(&format!("{HEAD}1, 0"), ",", "", 22, 3);
    filled(HEAD, "1,0,Program_c,0,0\n", TAIL, 29, 0);
    filled(HEAD, "1,0,Title_t,\"\"\n", TAIL, 29, 0);
    filled("", " ", "", 28, 2);
    filled("", "\n", "", 28, TEXT_MAX + 1);
    filled("", "\r", "", 22, 1);
    // An even number of quotes is one good quoted text.
    filled("", "\"", "", 24, 1);
    filled("", "\"", "\"", 22, 1);
    let comments = (TEXT_MAX - HEAD.len() - TAIL.len() - 2) / 4 * 2;
    filled(&format!("{HEAD}{TAIL}"), "#\n", "x\n", 24, 5 + comments);
}

#[test]
fn long_data_is_read_whole() {
    // 3,000,000 data bytes in one record: under the text's limit, over the file's.
    let data = ", 255".repeat(3_000_000);
    let text = format!("{HEAD}1, 0, System_exclusive, 3000000{data}\n{TAIL}");
    assert_eq!(text_to_file(text.as_bytes(), 1, &mut []).number, 29);
    let data = ", 255".repeat(1_000_000);
    let text = format!("{HEAD}1, 0, System_exclusive, 1000000{data}\n{TAIL}");
    let needed = 22 + 1 + 1 + 3 + 1_000_000 + 4;
    assert_eq!(text_to_file(text.as_bytes(), 1, &mut []), Answer::room_needed(needed));
}
