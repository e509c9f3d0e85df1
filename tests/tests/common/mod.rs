//! What the tests share: bytes from hexadecimal, files round a track, what is stored
//! for the programs of ../crates, and the operations with as much room as they need.
#![allow(dead_code)]

use std::fs;
use std::path::Path;

use second::fast_text;
use second::fold::{fold, fold_rows, Row};
use second::operations::{check, file_to_text, list_tracks, text_to_file, tidy};
use second::piece::Time;
use second::refusal::Answer;
use second::sheet::file_to_sheet;

/// Bytes from hexadecimal digits; blanks are passed over.
pub fn hex(digits: &str) -> Vec<u8> {
    let digits: Vec<u32> =
        digits.split_whitespace().flat_map(str::chars).map(|c| c.to_digit(16).unwrap()).collect();
    assert_eq!(digits.len() % 2, 0, "whole bytes");
    digits.chunks(2).map(|pair| (16 * pair[0] + pair[1]) as u8).collect()
}

/// A file of ../crates: what a program there is run on, or what it must write.
pub fn stored(path: &str) -> Vec<u8> {
    let path = Path::new(env!("CARGO_MANIFEST_DIR")).join("../crates").join(path);
    fs::read(&path).unwrap_or_else(|error| panic!("{}: {error}", path.display()))
}

/// A track chunk round a body.
pub fn chunk(body: &[u8]) -> Vec<u8> {
    [b"MTrk", &(body.len() as u32).to_be_bytes()[..], body].concat()
}

/// A file of these format and track bodies, division 96.
pub fn file_of(format: u16, bodies: &[Vec<u8>]) -> Vec<u8> {
    let mut file = b"MThd\0\0\0\x06".to_vec();
    file.extend(format.to_be_bytes());
    file.extend((bodies.len() as u16).to_be_bytes());
    file.extend(96_u16.to_be_bytes());
    file.extend(bodies.iter().flat_map(|body| chunk(body)));
    file
}

/// A format 0 file whose only track has this body, which begins at byte 22.
pub fn one_track(body: &str) -> Vec<u8> {
    file_of(0, &[hex(body)])
}

/// The same, with an End_track at delta 0 put after the body.
pub fn ended(body: &str) -> Vec<u8> {
    one_track(&format!("{body} 00 FF 2F 00"))
}

/// Runs an operation with no room, then with just enough.
pub fn with_room(operation: impl Fn(&mut [u8]) -> Answer) -> Result<Vec<u8>, Answer> {
    let asked = operation(&mut []);
    if asked.number != 14 {
        assert_ne!(asked.number, 0, "every success writes something");
        return Err(asked);
    }
    let mut room = vec![0; asked.length];
    assert_eq!(operation(&mut room), Answer::success(asked.length));
    Ok(room)
}

pub fn to_text(file: &[u8]) -> Result<Vec<u8>, Answer> {
    with_room(|room| file_to_text(file, room))
}

pub fn to_file(text: &[u8], manner: u32) -> Result<Vec<u8>, Answer> {
    with_room(|room| text_to_file(text, manner, room))
}

pub fn tidied(file: &[u8]) -> Result<Vec<u8>, Answer> {
    with_room(|room| tidy(file, room))
}

pub fn folded(file: &[u8]) -> Result<Vec<u8>, Answer> {
    with_room(|room| fold(file, room))
}

pub fn to_sheet(file: &[u8]) -> Result<Vec<u8>, Answer> {
    with_room(|room| file_to_sheet(file, room))
}

/// A row as no fold leaves it.
pub const UNTOUCHED: Row = Row { place: 77, time: Time(78), status: 79 };

/// What it is, the file, number and place of the refusal due.
pub type Case = (&'static str, Vec<u8>, u8, usize);

/// Every operation on a file refuses it alike and writes nothing.
pub fn refused((what, file, number, place): &Case) {
    let answer = Answer { number: *number, place: *place, length: 0 };
    let mut room = [0xAA; 300];
    let (mut times, mut counts, mut padding) = ([7; 5], [8; 5], [9; 5]);
    assert_eq!(check(file), answer, "check: {what}");
    assert_eq!(file_to_text(file, &mut room), answer, "to text: {what}");
    assert_eq!(tidy(file, &mut room), answer, "tidy: {what}");
    assert_eq!(fold(file, &mut room), answer, "fold: {what}");
    let mut rows = [UNTOUCHED; 2];
    assert_eq!(fold_rows(file, &mut room, &mut rows), answer, "fold with rows: {what}");
    assert_eq!(rows, [UNTOUCHED; 2], "rows: {what}");
    // No room and no rows at all change nothing: the fault is met first.
    assert_eq!(fold_rows(file, &mut [], &mut []), answer, "fold, no rows: {what}");
    assert_eq!(file_to_text(file, &mut []), answer, "to text, no room: {what}");
    assert_eq!(file_to_sheet(file, &mut room), answer, "to sheet: {what}");
    let fast = fast_text::file_to_text(file, &mut Vec::new());
    assert_eq!(fast.map_err(Answer::from), Err(answer), "fast text: {what}");
    let listed = list_tracks(file, &mut times, &mut counts, &mut padding);
    assert_eq!(listed, answer, "list: {what}");
    let listed = list_tracks(file, &mut [], &mut [], &mut []);
    assert_eq!(listed, answer, "list, no room: {what}");
    assert_eq!((times, counts, padding), ([7; 5], [8; 5], [9; 5]), "listed: {what}");
    assert_eq!(room, [0xAA; 300], "written: {what}");
}

/// A text as a string, to be read when a test fails.
pub fn shown(text: Result<Vec<u8>, Answer>) -> String {
    match text {
        Ok(text) => String::from_utf8_lossy(&text).into_owned(),
        Err(answer) => format!("{answer:?}"),
    }
}

/// The lines of a format 0 text between Start_track and End_of_file.
pub fn event_lines(file: &[u8]) -> Vec<String> {
    let text = shown(to_text(file));
    let lines: Vec<String> = text.lines().map(str::to_owned).collect();
    assert!(lines.len() >= 4, "no text: {text}");
    lines[2..lines.len() - 1].to_vec()
}
