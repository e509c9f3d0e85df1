//! The examples in the tables of docs/REFUSALS.md.

use second::archive;
use second::refusal::Answer;

use super::{answer_to_text, cells, refused, text_with, Tally};

/// Numbers with at least one example: 1..3, 5..14 and 21..30; 4 is not given. Those of folding
/// and of tables are tried by tests/pages.d/refusals.
const NUMBERS: usize = 23;
/// Examples that are no cell of a table stand in lines indented so.
pub const INDENT: &str = "    ";

pub fn examples(page: &str, tally: &mut Tally) {
    let rows: Vec<Vec<&str>> = page.lines().filter_map(row).collect();
    if rows.len() != NUMBERS {
        tally.fault(&format!("REFUSALS.md has {} rows of numbers, not {NUMBERS}", rows.len()));
    }
    for cells in rows {
        let number: u8 = cells[0].parse().expect("a row begins with its number");
        for example in cells[4].split(" <br> ") {
            let what = format!("REFUSALS.md, {number}, '{example}'");
            match number {
                1..=13 => file_example(&what, number, example, tally),
                14 => buffer_example(&what, page, example, tally),
                _ => text_example(&what, number, example, tally),
            }
        }
    }
}

/// The cells of a row that begins with a number.
fn row(line: &str) -> Option<Vec<&str>> {
    cells(line, 6).filter(|cells| matches!(cells[0].parse::<u8>(), Ok(1..=30)))
}

/// `file: place`, refused by each operation that takes a file.
fn file_example(what: &str, number: u8, example: &str, tally: &mut Tally) {
    let found = example.rsplit_once(": ");
    let found = found.and_then(|(file, place)| Some((file_of(file)?, place.parse().ok()?)));
    let Some((mut file, place)) = found else {
        return tally.fault(&format!("{what} is no file and place"));
    };
    let mut room = vec![0; 25 * file.len()];
    for packed in [
        archive::check(&mut file),
        archive::tidy(&mut file, &mut room),
        archive::file_to_text(&mut file, &mut room),
    ] {
        tally.expect(what, Answer::unpacked(packed), refused(number, place));
    }
}

pub fn file_of(example: &str) -> Option<Vec<u8>> {
    if let Some(file) = size_of(example) {
        return Some(file);
    }
    let mut parts = example.split('`').skip(1).step_by(2);
    if !example.starts_with("sixteen times") {
        return bytes_of(parts.next()?);
    }
    let (many, last, first) = (parts.next()?, parts.next()?, parts.next()?);
    Some([bytes_of(first)?, bytes_of(many)?.repeat(16), bytes_of(last)?].concat())
}

/// `no bytes` or `any 1,048,577 bytes`.
pub fn size_of(example: &str) -> Option<Vec<u8>> {
    if example == "no bytes" {
        return Some(Vec::new());
    }
    let count = example.strip_prefix("any ")?.strip_suffix(" bytes")?.replace(',', "");
    Some(vec![0; count.parse().ok()?])
}

/// Hexadecimal bytes, with the pages' short names for parts of files.
pub fn bytes_of(words: &str) -> Option<Vec<u8>> {
    let mut bytes = Vec::new();
    for word in words.split(' ') {
        match word {
            "H" => bytes.extend(b"MThd\0\0\0\x06\0\0\0\x01\0\x60"),
            "T" => bytes.extend(b"MTrk\0\0\0"),
            "E" => bytes.extend(b"\0\xFF\x2F\0"),
            _ => bytes.push(u8::from_str_radix(word, 16).ok()?),
        }
    }
    Some(bytes)
}

/// The file that a page has in indented lines.
pub fn file_in(page: &str) -> Option<Vec<u8>> {
    let lines = page.lines().filter_map(|line| line.strip_prefix(INDENT));
    let lines: Vec<&str> = lines.filter(|line| bytes_of(line).is_some()).collect();
    bytes_of(&lines.join(" "))
}

/// The one example of 14: tidying the file below the table into a buffer that is too small.
fn buffer_example(what: &str, page: &str, example: &str, tally: &mut Tally) {
    let numbers: Vec<usize> =
        example.split(|sign: char| !sign.is_ascii_digit()).filter_map(|n| n.parse().ok()).collect();
    let (Some(mut file), [size, buffer, needed]) = (file_in(page), &numbers[..]) else {
        return tally.fault(&format!("{what} is not understood"));
    };
    if file.len() != *size {
        tally.fault(&format!("{what}: the file has {} bytes", file.len()));
    }
    let packed = archive::tidy(&mut file, &mut vec![0; *buffer]);
    tally.expect(what, Answer::unpacked(packed), Answer { length: *needed, ..refused(14, 0) });
}

/// A line, a text told in words, or a manner; the place stands after it if it is not
/// line 3, and is 0 for what is wrong with the whole.
fn text_example(what: &str, number: u8, example: &str, tally: &mut Tally) {
    let whole = matches!(number, 21 | 29 | 30);
    let (example, place) = match example.rsplit_once(": ") {
        Some((start, place)) if !whole => (start, place.parse().ok()),
        _ => (example, Some(if whole { 0 } else { 3 })),
    };
    let manner = example.strip_prefix("manner ").map_or(Some(1), |manner| manner.parse().ok());
    let (Some(text), Some(place), Some(manner)) = (text_of(example), place, manner) else {
        return tally.fault(&format!("{what} is not understood"));
    };
    tally.expect(what, answer_to_text(&text, manner), refused(number, place));
}

fn text_of(example: &str) -> Option<Vec<u8>> {
    if let Some(line) = example.strip_prefix('`') {
        return Some(text_with(line.strip_suffix('`')?).into_bytes());
    }
    if let Some(letters) = example.strip_prefix("a Text_t of ") {
        let count = letters.strip_suffix(" letters")?.replace(',', "").parse().ok()?;
        let line = format!("1, 0, Text_t, \"{}\"", "a".repeat(count));
        return Some(text_with(&line).into_bytes());
    }
    if example == "the first three lines" {
        let lines: Vec<String> = text_with("").split_inclusive('\n').map(str::to_owned).collect();
        return Some(lines[..3].concat().into_bytes());
    }
    if example.starts_with("manner ") {
        return Some(text_with("").into_bytes());
    }
    size_of(example)
}
