//! The examples in the last section of docs/FORMAT.md.

use second::archive;
use second::refusal::Answer;

use super::refusals::{bytes_of, file_in, file_of, size_of, INDENT};
use super::{answer_to_text, cells, file_of_text, quoted, refused, text_of_file, text_with, Tally};

/// A table's head, the least number of its rows, and what tries a row.
type Table = (&'static str, usize, fn(&str, &str, &mut Tally) -> Option<()>);
const TABLES: [Table; 6] = [
    ("| Bytes | Number |", 16, number),
    ("| Bytes of an event | Record, without Track and Time |", 8, event),
    ("| File | Answer |", 25, file),
    ("| Line | Answer |", 44, line),
    ("| Text | Answer |", 15, text),
    ("| File | Padding |", 12, padding),
];
/// The place of the first event in a file.
const EVENTS: usize = 22;
/// A leading byte that adds nothing to a variable-length number.
const PADDING: u8 = 0x80;

pub fn examples(page: &str, tally: &mut Tally) {
    for (head, least, try_row) in TABLES {
        let rows = page.lines().skip_while(|line| *line != head).skip(2);
        let rows: Vec<&str> = rows.take_while(|line| line.starts_with('|')).collect();
        if rows.len() < least {
            tally.fault(&format!("FORMAT.md: {} rows below {head}", rows.len()));
        }
        for row in rows {
            let tried = cells(row, 2).and_then(|cells| try_row(cells[0], cells[1], tally));
            if tried.is_none() {
                tally.fault(&format!("FORMAT.md: {row} is not understood"));
            }
        }
    }
    if worked(page, tally).is_none() {
        tally.fault("FORMAT.md: 11.1 is not understood");
    }
}

/// The file of 39 bytes, its text, and back in both manners.
fn worked(page: &str, tally: &mut Tally) -> Option<()> {
    let file = file_in(page)?;
    let lines = page.lines().filter_map(|line| line.strip_prefix(INDENT));
    let text: String =
        lines.filter(|line| bytes_of(line).is_none()).flat_map(|line| [line, "\n"]).collect();
    let sizes = page.lines().find(|line| line.starts_with("**11.1**"))?;
    let sizes: Vec<usize> =
        sizes.split(' ').filter_map(|word| word.trim_end_matches(':').parse().ok()).collect();
    tally.equal("11.1, the text", &String::from_utf8_lossy(&text_of_file(&file).1)[..], &text[..]);
    tally.equal("11.1, the short manner", &file_of_text(text.as_bytes(), 1).1, &file);
    let full = file_of_text(text.as_bytes(), 0).1;
    tally.equal("11.1, the lengths", &[file.len(), full.len()][..], &sizes[..]);
    Some(())
}

/// A number as the delta of a file's only event, read, and written where it takes the fewest bytes.
fn number(bytes: &str, due: &str, tally: &mut Tally) -> Option<()> {
    let delta = bytes_of(quoted(bytes)?)?;
    let file = with_events(&[&delta[..], b"\xFF\x2F\0"].concat());
    let (answer, text) = text_of_file(&file);
    match due.strip_prefix("is ") {
        Some(number) => tally.expect(bytes, answer, refused(number.parse().ok()?, EVENTS)),
        None => {
            let due: u32 = due.parse().ok()?;
            let line = third(&text);
            tally.equal(bytes, &line, &format!("1, {due}, End_track"));
            if delta[0] != PADDING {
                tally.equal(&format!("{bytes}, written"), &file_of_text(&text, 1).1, &file);
            }
        }
    }
    Some(())
}

/// An event after a delta of 0.
fn event(bytes: &str, due: &str, tally: &mut Tally) -> Option<()> {
    let event = bytes_of(quoted(bytes)?)?;
    let file = with_events(&[b"\0", &event[..], b"\0\xFF\x2F\0"].concat());
    let (answer, text) = text_of_file(&file);
    match due.strip_prefix("is ") {
        Some(number) => tally.expect(bytes, answer, refused(number.parse().ok()?, EVENTS)),
        None => tally.equal(bytes, &third(&text), &format!("1, 0, {}", quoted(due)?)),
    }
    Some(())
}

fn file(file: &str, due: &str, tally: &mut Tally) -> Option<()> {
    let checked = archive::check(&mut file_of(file)?);
    tally.expect(file, Answer::unpacked(checked), answer_of(due)?);
    Some(())
}

/// `1, 0` is due to a file of two tracks, in lists that just have room.
fn padding(file: &str, due: &str, tally: &mut Tally) -> Option<()> {
    let due: Vec<u32> = due.split(", ").map(|number| number.parse().ok()).collect::<Option<_>>()?;
    let (mut times, mut counts, mut listed) = (due.clone(), due.clone(), vec![u32::MAX; due.len()]);
    let lists = [&mut times[..], &mut counts[..], &mut listed[..]];
    let answer = archive::list_tracks(&mut file_of(file)?, lists);
    tally.expect(file, Answer::unpacked(answer), Answer::success(due.len()));
    tally.equal(file, &listed[..], &due[..]);
    Some(())
}

fn line(line: &str, due: &str, tally: &mut Tally) -> Option<()> {
    let text = text_with(quoted(line)?);
    tally.expect(line, answer_to_text(text.as_bytes(), 1), answer_of(due)?);
    Some(())
}

fn text(text: &str, due: &str, tally: &mut Tally) -> Option<()> {
    let bytes = match quoted(text) {
        Some(text) => text.replace("<CR>", "\r").replace("<LF>", "\n").into_bytes(),
        None => size_of(text)?,
    };
    tally.expect(text, answer_to_text(&bytes, 1), answer_of(due)?);
    Some(())
}

/// `good` or `22 at 3`.
fn answer_of(words: &str) -> Option<Answer> {
    if words == "good" {
        return Some(Answer::success(0));
    }
    let (number, place) = words.split_once(" at ")?;
    Some(refused(number.parse().ok()?, place.parse().ok()?))
}

/// A file of one track.
fn with_events(events: &[u8]) -> Vec<u8> {
    let length = u32::try_from(events.len()).expect("a short track").to_be_bytes();
    [b"MThd\0\0\0\x06\0\0\0\x01\0\x60MTrk", &length[..], events].concat()
}

/// The third line of a text, or nothing.
fn third(text: &[u8]) -> String {
    String::from_utf8_lossy(text).lines().nth(2).unwrap_or_default().to_owned()
}
