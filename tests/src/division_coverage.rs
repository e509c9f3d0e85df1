//! What divisions the files or texts of a run had, good and refused. A run that compares
//! them must have met all of it. Divisions are told apart here by themselves.

use crate::tally::Tally;
use crate::text_field::{is_passed_over, lines};
use crate::text_record::{read_record, Body, Record};

/// Of refused texts alone: a header has but 16 bits.
const REFUSED_TEXTS: [&str; 3] = ["over 32767", "under -32768", "no number"];

#[derive(Clone, Copy)]
pub enum Given {
    Files,
    Texts,
}

pub struct DivisionCoverage {
    given: Given,
    pub tally: Tally,
}

impl DivisionCoverage {
    /// What an accepted file or text may have.
    pub const GOOD: [&'static str; 8] = [
        "pulses 1", "pulses 32767", "24 frames", "25 frames", "29 frames", "30 frames", "1 tick",
        "255 ticks",
    ];
    /// What makes a file 3 at 12, and a text 25.
    pub const REFUSED: [&'static str; 6] = [
        "division 0", "another rate", "24 frames of 0 ticks", "25 frames of 0 ticks",
        "29 frames of 0 ticks", "30 frames of 0 ticks",
    ];

    pub fn of(given: Given) -> DivisionCoverage {
        let more = match given {
            Given::Files => &[][..],
            Given::Texts => &REFUSED_TEXTS,
        };
        let names = DivisionCoverage::GOOD.iter().chain(&DivisionCoverage::REFUSED).chain(more);
        DivisionCoverage { given, tally: Tally::of(names.map(|name| name.to_string())) }
    }

    /// A file or text and what both programs answered to it.
    pub fn add(&mut self, input: &[u8], number: u8, place: usize) {
        match (self.given, number, place) {
            (Given::Files, 0, _) => self.add_good(bits_of(input)),
            (Given::Files, 3, 12) => self.add_refused(bits_of(input)),
            (Given::Texts, 0, _) => {
                let header = lines(input).find(|line| !is_passed_over(line));
                let division = header.map(|line| split_last(line).1);
                self.add_good(division.and_then(number_in).expect("a good text has a Header"));
            }
            (Given::Texts, 25, _) => {
                let line = lines(input).nth(place - 1).expect("the line at fault");
                match division_at_fault(line).map(number_in) {
                    Some(Some(number)) => self.add_refused(number),
                    Some(None) => self.tally.met("no number"),
                    None => {}
                }
            }
            _ => {}
        }
    }

    fn add_good(&mut self, division: i64) {
        let tally = &mut self.tally;
        tally.met_if("pulses 1", division == 1);
        tally.met_if("pulses 32767", division == 32_767);
        if let Some((rate, ticks)) = frames(division) {
            tally.met(&format!("{rate} frames"));
            tally.met_if("1 tick", ticks == 1);
            tally.met_if("255 ticks", ticks == 255);
        }
    }

    fn add_refused(&mut self, division: i64) {
        self.tally.met(match (division, frames(division)) {
            (0, _) => "division 0",
            (32_768.., _) => "over 32767",
            (..=-32_769, _) => "under -32768",
            (_, Some((24, 0))) => "24 frames of 0 ticks",
            (_, Some((25, 0))) => "25 frames of 0 ticks",
            (_, Some((29, 0))) => "29 frames of 0 ticks",
            (_, Some((30, 0))) => "30 frames of 0 ticks",
            _ => "another rate",
        });
    }
}

/// Those of a header, read as signed.
fn bits_of(file: &[u8]) -> i64 {
    256 * i64::from(file[12] as i8) + i64::from(file[13])
}

/// Rate and ticks of a number below 0.
fn frames(division: i64) -> Option<(i64, i64)> {
    (division < 0).then(|| (-division.div_euclid(256), division.rem_euclid(256)))
}

/// A line up to its last comma, and what is behind that.
fn split_last(line: &[u8]) -> (&[u8], &[u8]) {
    line.split_at(line.iter().rposition(|byte| *byte == b',').map_or(0, |comma| comma + 1))
}

fn number_in(field: &[u8]) -> Option<i64> {
    std::str::from_utf8(field).ok()?.trim_matches([' ', '\t']).parse().ok()
}

/// The last field of a line that would be a good Header with another one in its place.
fn division_at_fault(line: &[u8]) -> Option<&[u8]> {
    let (before, last) = split_last(line);
    let mended = read_record(&[before, b"96"].concat());
    matches!(mended, Ok(Record { body: Body::Header { .. }, .. })).then_some(last)
}
