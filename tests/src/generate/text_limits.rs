//! Texts at the limits of size and count and past them, by hand.

use crate::refusal::Answer;
use crate::{FILE_MAX, TEXT_MAX};

use super::large::{many_tracks, one_long_text};
use super::text_lines::plain_text;

/// What a text is, and the answers due in manner 0 and 1 if no room is lent. It is
/// made when it is asked for: such texts are large.
pub struct LimitText {
    pub what: String,
    pub due: [Answer; 2],
    make: Box<dyn Fn() -> Vec<u8>>,
}

impl LimitText {
    pub fn text(&self) -> Vec<u8> {
        (self.make)()
    }
}

fn refused(number: u8, place: usize) -> Answer {
    Answer { number, place, length: 0 }
}

/// The answer for a file of this size.
fn sized(size: usize) -> Answer {
    if size > FILE_MAX {
        refused(29, 0)
    } else {
        Answer::room_needed(size)
    }
}

pub fn text_limit_cases() -> Vec<LimitText> {
    let mut cases = filled_texts();
    let mut add = |what: &str, due: [Answer; 2], make: Box<dyn Fn() -> Vec<u8>>| {
        cases.push(LimitText { what: what.to_owned(), due, make });
    };
    for size in FILE_MAX - 1..=FILE_MAX + 1 {
        let what = |of: &str| format!("{of} for a file of {size} bytes");
        let both = [sized(size); 2];
        let more = [sized(size + 1), sized(size)];
        let long = [refused(29, 0), sized(size)];
        let text = move || plain_text(&one_long_text(size));
        add(&what("a text, one byte more in manner 0"), more, Box::new(text));
        add(&what("data"), both, Box::new(move || data(size)));
        add(&what("notes of two channels in turn"), both, Box::new(move || notes(size, 4)));
        add(&what("notes of one channel, far more in manner 0"), long, {
            Box::new(move || notes(size - 1, 3))
        });
    }
    // The faults of a line, then 28, come before 29.
    for (end, due) in [
        ("", refused(28, 6)),
        (TAIL, refused(29, 0)),
        ("1, 0, Tempo, 0\n", refused(25, 6)),
        ("1, 0, End_track\n0, 0, End_of_file\n+", refused(22, 8)),
    ] {
        let text = move || {
            let long = plain_text(&one_long_text(FILE_MAX + 9));
            [&long[..long.len() - TAIL.len()], end.as_bytes()].concat()
        };
        add(&format!("too long for a file, then {end:?}"), [due; 2], Box::new(text));
    }
    for (count, said, due) in [
        (65_535, 65_535, sized(14 + 12 * 65_535)),
        (65_536, 65_536, refused(25, 1)),
        // Track 65536 is out of range, and so 25 and not 26.
        (65_536, 65_535, refused(25, 131_072)),
        (65_534, 65_535, refused(26, 131_070)),
        (65_535, 65_534, refused(26, 131_070)),
    ] {
        let what = format!("{count} tracks, {said} counted");
        add(&what, [due; 2], Box::new(move || counted_tracks(count, said)));
    }
    cases
}

const HEAD: &str = "0, 0, Header, 0, 1, 96\n1, 0, Start_track\n";
const TAIL: &str = "1, 0, End_track\n0, 0, End_of_file\n";

/// Each shape at the limit, and one byte over it, where nothing but 21 counts.
fn filled_texts() -> Vec<LimitText> {
    let mut cases = Vec::new();
    for (before, unit, after, due) in shapes() {
        let units = (TEXT_MAX - before.len() - after.len()) / unit.len();
        for (size, due) in [(TEXT_MAX, due(units)), (TEXT_MAX + 1, refused(21, 0))] {
            let (before, after) = (before.clone(), after.clone());
            let make = Box::new(move || filled(&before, unit, &after, size));
            let what = format!("{size} bytes of {unit:?}");
            cases.push(LimitText { what, due: [due; 2], make });
        }
    }
    cases
}

/// Up to the size as many units as fit, and blanks.
fn filled(before: &str, unit: &str, after: &str, size: usize) -> Vec<u8> {
    let left = size - before.len() - after.len();
    let blanks = " ".repeat(left % unit.len());
    [before, &unit.repeat(left / unit.len()), &blanks, after].concat().into_bytes()
}

type Shape = (String, &'static str, String, fn(usize) -> Answer);

/// What stands before, the unit, what stands after, and the answer for so many units.
fn shapes() -> Vec<Shape> {
    let whole = format!("{HEAD}{TAIL}");
    let open = format!("{HEAD}1, 0, Text_t, \"");
    let close = format!("\"\n{TAIL}");
    let data = format!("{HEAD}1, 0, System_exclusive, 1");
    let head = HEAD.to_owned();
    let nothing = String::new();
    vec![
        (whole.clone(), "#", nothing.clone(), |_| sized(26)),
        (nothing.clone(), ";", format!("\n{whole}"), |_| sized(26)),
        (whole.clone(), "# a line\r\n", nothing.clone(), |_| sized(26)),
        (nothing.clone(), " ", nothing.clone(), |_| refused(28, 2)),
        (nothing.clone(), "\n", nothing.clone(), |units| refused(28, units + 1)),
        (nothing.clone(), "\r", nothing.clone(), |_| refused(22, 1)),
        // An even number of quotes is one good quoted text.
        (nothing.clone(), "\"\"", nothing.clone(), |_| refused(24, 1)),
        (open.clone(), "a", close.clone(), |_| refused(29, 0)),
        (open.clone(), "\"\"", close.clone(), |_| refused(29, 0)),
        (open, "\\101", close, |_| refused(29, 0)),
        (data, ",0", format!("\n{TAIL}"), |_| refused(24, 3)),
        (head.clone(), "1,0,Program_c,0,0\n", TAIL.to_owned(), |_| refused(29, 0)),
        (head, "1,0,Program_c,0,0\n", "x".into(), |units| refused(24, units + 3)),
        (whole, "\n", "x".into(), |units| refused(24, units + 5)),
    ]
}

/// One System_exclusive in a file of this size; its own bytes are 5, the rest 26.
fn data(size: usize) -> Vec<u8> {
    let length = size - 31;
    let data = ", 247".repeat(length);
    format!("{HEAD}1, 0, System_exclusive, {length}{data}\n{TAIL}").into_bytes()
}

/// Notes of `each` bytes: with 3 all but the first have no status, and the file has
/// one byte more than asked for. The delta of End_track makes up the size.
fn notes(size: usize, each: usize) -> Vec<u8> {
    let (count, left) = ((size - 26) / each, (size - 26) % each);
    let line = |channel: usize| format!("1, 0, Note_on_c, {channel}, 60, 64\n");
    let notes: String = (0..count).map(|note| line(if each == 4 { note % 2 } else { 0 })).collect();
    let time = [0, 128, 16_384, 2_097_152][left];
    format!("{HEAD}{notes}1, {time}, End_track\n0, 0, End_of_file\n").into_bytes()
}

/// So many tracks, and so many said in the header.
fn counted_tracks(count: usize, said: usize) -> Vec<u8> {
    let text = plain_text(&many_tracks(count));
    let end = text.iter().position(|byte| *byte == b'\n').expect("a header's line");
    [format!("0, 0, Header, 1, {said}, 480").as_bytes(), &text[end..]].concat()
}
