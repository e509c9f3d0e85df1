//! A run of check over headers and chunks: that it is good when the programs agree and all
//! sorts were met, and that the generator shows each fault that is planted in one of them.

mod common;

use std::sync::Mutex;

use common::file_of;
use second::compare::Operation;
use second::generate::{file_case, limit_cases};
use second::operations::check;
use second::refusal::Answer;
use second::run::Run;

const SEEDS: u64 = 20_000;

/// The fault of the one program, none if empty. A program is a function and cannot carry
/// it along; there is one test here, so nobody else changes it.
static FAULT: Mutex<&str> = Mutex::new("");

const OPERATION: Operation =
    Operation::new("check", |file, _, _| check(file), |file, _, _| planted(file).packed());

fn planted(file: &[u8]) -> Answer {
    let fault = *FAULT.lock().expect("nobody panics with it");
    walked(file, fault).map_or_else(|answer| answer, |()| Answer::success(0))
}

fn refuse(number: u8, place: usize) -> Result<(), Answer> {
    Err(Answer { number, place, length: 0 })
}

fn number_at(file: &[u8], at: usize, count: usize) -> usize {
    file[at..at + count].iter().fold(0, |value, byte| 256 * value + usize::from(*byte))
}

/// Checks a file by its chunks, with a fault or without; each track as a file of its own.
fn walked(file: &[u8], fault: &str) -> Result<(), Answer> {
    if file.len() > 1_048_576 {
        return refuse(1, 0);
    }
    let count = walked_header(file, fault)?;
    let extra = if fault == "extra bytes read as a chunk" { 6 } else { number_at(file, 4, 4) };
    let mut walk = Walk { file, fault, at: 8 + extra, due: count, track: 14 };
    while walk.due > 0 || walk.at < file.len() {
        if walk.due == 0 && fault == "all behind the last track passed over" {
            break;
        }
        walk.chunk()?;
    }
    Ok(())
}

/// The number of tracks.
fn walked_header(file: &[u8], fault: &str) -> Result<usize, Answer> {
    let is = |name: &str| name == fault;
    if file.len() < 14 {
        refuse(2, 0)?;
    }
    let length = number_at(file, 4, 4);
    let short = length < if is("a header of 5 taken for one of 6") { 5 } else { 6 };
    let past = length > file.len() - 8;
    let (format, count) = (number_at(file, 8, 2), number_at(file, 10, 2));
    let no_count = count == 0 || format == 0 && count != 1;
    let film = [0xE2, 0xE3, 0xE7, 0xE8].contains(&file[12]) && file[13] > 0;
    let pulses = (1..=32_767).contains(&number_at(file, 12, 2));
    let past_answer = match fault {
        "3 for a header past the end" => (3, 4),
        "a header past the end at 4" => (2, 4),
        _ => (2, 0),
    };
    for (bad, (number, place)) in [
        (file[..4] != *b"MThd", (3, 0)),
        (short || is("no long header") && length > 6, (3, 4)),
        (past && !is("format before the header's end"), past_answer),
        (format > 2, (3, 8)),
        (no_count, (3, 10)),
        (!film && !pulses, (3, 12)),
        (past, (2, 0)),
    ] {
        if bad {
            refuse(number, place)?;
        }
    }
    Ok(count)
}

struct Walk<'a> {
    file: &'a [u8],
    fault: &'a str,
    at: usize,
    /// Tracks that must still come.
    due: usize,
    /// Where the last track began.
    track: usize,
}

impl Walk<'_> {
    fn is(&self, name: &str) -> bool {
        self.fault == name
    }

    fn chunk(&mut self) -> Result<(), Answer> {
        let left = self.file.len() - self.at;
        if left < 8 {
            return self.few_left(left);
        }
        let (is_track, length) = self.start();
        let fits = match self.fault {
            "a byte too long fits" => length + 8 <= left + 1,
            "a length to the end does not fit" => length + 8 < left,
            _ => length + 8 <= left,
        };
        if self.due == 0 {
            self.behind(is_track, fits)?;
        } else if self.is("4 for a tag") && !is_track {
            refuse(4, self.at)?;
        }
        let pardoned = self.due == 0 && self.is("a chunk behind may be too long");
        if !fits && !pardoned {
            refuse(2, if self.is("2 at the last track") { self.track } else { self.at })?;
        }
        let end = (self.at + 8 + length).min(self.file.len());
        if is_track && self.due > 0 {
            self.events(end)?;
            (self.due, self.track) = (self.due - 1, self.at);
        }
        self.at = match self.fault {
            "an empty chunk ends the file" if self.due == 0 && length == 0 => self.file.len(),
            "a chunk's data is looked at" if !is_track => self.inner(end),
            _ => end,
        };
        Ok(())
    }

    /// Less than a chunk's start; then the file ends.
    fn few_left(&mut self, left: usize) -> Result<(), Answer> {
        let (rest, at) = (&self.file[self.at..], self.at);
        self.at = self.file.len();
        match (self.fault, self.due) {
            ("few bytes behind are 13", 0) => refuse(13, at),
            ("few bytes behind accepted", 0) => Ok(()),
            ("MTrk cut short is 13", 0) if rest.starts_with(b"MTrk") => refuse(13, at),
            ("none left is at the last track", 1..) if left == 0 => refuse(2, self.track),
            _ => refuse(2, at),
        }
    }

    /// Whether it is a track, and the length declared.
    fn start(&self) -> (bool, usize) {
        let tag = &self.file[self.at..self.at + 4];
        let is_track = match self.fault {
            "tag without case" => tag.eq_ignore_ascii_case(b"MTrk"),
            "three bytes of the tag" => tag[..3] == *b"MTr",
            "the tag's last three bytes" => tag[1..] == *b"Trk",
            _ => tag == b"MTrk",
        };
        let bytes = match self.fault {
            "16 bits of a length" => 2,
            "24 bits of a length" => 3,
            _ => 4,
        };
        (is_track, number_at(self.file, self.at + 8 - bytes, bytes))
    }

    fn behind(&self, is_track: bool, fits: bool) -> Result<(), Answer> {
        let second = self.file[self.at..].starts_with(b"MThd");
        match self.fault {
            "further tracks passed over" if fits => Ok(()),
            "13 only if it fits" if is_track && !fits => refuse(2, self.at),
            "no chunk behind" => refuse(13, self.at),
            "no second MThd" if second => refuse(13, self.at),
            _ if is_track => refuse(13, self.at),
            _ => Ok(()),
        }
    }

    /// Where the data of a chunk begin if a track does there, else its end.
    fn inner(&self, end: usize) -> usize {
        let data = self.at + 8;
        if self.file[data..end].starts_with(b"MTrk") {
            data
        } else {
            end
        }
    }

    fn events(&self, end: usize) -> Result<(), Answer> {
        match check(&file_of(0, &[self.file[self.at + 8..end].to_vec()])) {
            Answer { number: 0, .. } => Ok(()),
            // A file of its own has the body at byte 22.
            Answer { number, place, .. } => refuse(number, self.at + 8 + place - 22),
        }
    }
}

const FAULTS: [&str; 27] = [
    "extra bytes read as a chunk", "all behind the last track passed over",
    "a header of 5 taken for one of 6", "no long header", "format before the header's end",
    "3 for a header past the end", "a header past the end at 4", "a byte too long fits",
    "a length to the end does not fit", "4 for a tag", "a chunk behind may be too long",
    "2 at the last track", "an empty chunk ends the file", "a chunk's data is looked at",
    "few bytes behind are 13", "few bytes behind accepted", "MTrk cut short is 13",
    "none left is at the last track", "tag without case", "three bytes of the tag",
    "the tag's last three bytes", "16 bits of a length", "24 bits of a length",
    "further tracks passed over", "13 only if it fits", "no chunk behind", "no second MThd",
];

/// Over the first of the files.
fn run_of(files: &[Vec<u8>]) -> Run<'static> {
    let mut run = Run::of(&OPERATION).silent().of_chunks();
    run.source("generated", 0..files.len() as u64, |seed| files[seed as usize].clone());
    run
}

#[test]
fn a_good_run_is_good_and_planted_faults_are_seen() {
    let due: Vec<u8> = (0..=3).chain(5..=13).collect();
    let files: Vec<Vec<u8>> = (0..SEEDS).map(file_case).collect();
    let mut run = run_of(&files);
    let limits: Vec<Vec<u8>> = limit_cases().into_iter().map(|case| case.file).collect();
    run.source("limits", 0..limits.len() as u64, |index| limits[index as usize].clone());
    assert_eq!(run.differences(), 0);
    assert!(run.report(&due));
    assert!(!run.report(&due[..due.len() - 1]), "what is not due is not passed over");
    assert!(!run.report(&[&due[..], &[4]].concat()), "4 is not met");
    let few = || run_of(&files[..1_000]);
    let without = [&due[..1], &due[2..]].concat();
    assert!(!few().report(&without), "some sorts of chunks were not met");
    assert!(few().of_few(true).report(&without), "few cases need not meet all");

    // Those near 1 MiB take long and show nothing more.
    let files: Vec<Vec<u8>> = files.into_iter().filter(|file| file.len() < 100_000).collect();
    for fault in FAULTS {
        *FAULT.lock().expect("nobody panics with it") = fault;
        let differences = run_of(&files).differences();
        println!("{fault}: {differences} differences");
        assert!(differences > 0, "{fault} is not seen");
    }
}
