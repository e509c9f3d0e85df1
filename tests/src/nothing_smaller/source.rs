//! Where the files come from that a program is asked about, and what is told of them.

use std::collections::BTreeMap;
use std::ops::Range;

use super::{faults, tidied_in, Fault, Program};
use crate::compare::Fenced;
use crate::generate::{file_case, piece, spelling, Rng};
use crate::outside::{expected_back, outside_files};
use crate::piece::Piece;
use crate::read_file::read_file;
use crate::refusal::Answer;
use crate::spelling::{Manner, Spelling};
use crate::tally::Tally;
use crate::write_file::{layout, write_file};

/// Of a source with many faults.
const SHOWN: usize = 10;

/// The files of a source, and what was found of them.
pub struct Source<'a> {
    program: &'a Program,
    name: &'static str,
    /// Which files, in words.
    of: String,
    files: u64,
    /// Of these, those longer than the manner 1 file and those as long.
    longer: u64,
    as_long: u64,
    /// Files that must be refused, where there are any.
    refused: u64,
    /// How often each fault was found, and the first of them in words.
    found: BTreeMap<Fault, u64>,
    shown: Vec<String>,
    /// Sorts of files, each of which must be met.
    pub(super) sorts: Option<Tally>,
}

impl<'a> Source<'a> {
    pub(super) fn of(program: &'a Program, name: &'static str, of: String) -> Source<'a> {
        Source {
            program,
            name,
            of,
            files: 0,
            longer: 0,
            as_long: 0,
            refused: 0,
            found: BTreeMap::new(),
            shown: Vec::new(),
            sorts: None,
        }
    }

    /// Asks about a good file that has this manner 1 file; `rng` fills the rooms.
    pub(super) fn take(&mut self, rng: &mut Rng, what: &str, file: &[u8], due: &[u8]) {
        self.files += 1;
        self.longer += u64::from(file.len() > due.len());
        self.as_long += u64::from(file.len() == due.len());
        let found = faults(self.program, rng, file, due);
        self.add(what, found);
    }

    /// The same about any file: the second program knows whether it is good. If not, it must
    /// not be taken for one.
    pub(super) fn take_any(&mut self, rng: &mut Rng, what: &str, file: &[u8]) {
        if let Ok(piece) = read_file(file) {
            self.take(rng, what, file, &short_file(&piece));
            return;
        }
        self.refused += 1;
        let mut given = Fenced::new(rng, file);
        let checked = Answer::unpacked((self.program.check)(given.inner())).number;
        let (tidied, _) = tidied_in(self.program, rng, file, 0);
        if checked == 0 || [0, 14].contains(&tidied.number) {
            self.add(what, [Fault::Accepted]);
        }
    }

    /// Counts what was found of a file.
    pub(super) fn add(&mut self, what: &str, found: impl IntoIterator<Item = Fault>) {
        let mut words = Vec::new();
        for fault in found {
            *self.found.entry(fault).or_insert(0) += 1;
            words.push(fault.to_string());
        }
        if !words.is_empty() && self.shown.len() < SHOWN {
            let words = words.join("; ");
            self.shown.push(format!("FAULT: nothing smaller, {}, {what}: {words}", self.name));
        }
    }

    /// How many good files there were, how many of them were longer and how many as long.
    pub fn counts(&self) -> [u64; 3] {
        [self.files, self.longer, self.as_long]
    }

    /// The faults that were found.
    pub fn found(&self) -> Vec<Fault> {
        self.found.keys().copied().collect()
    }

    /// Prints what was met; true if that is all that is due, and nothing was wrong.
    pub fn report(&self) -> bool {
        let Source { name, of, files, longer, as_long, refused, .. } = self;
        self.shown.iter().for_each(|line| println!("{line}"));
        let faults: u64 = self.found.values().sum();
        let refused = match refused {
            0 => String::new(),
            _ => format!("{refused} refused, "),
        };
        println!(
            "tidy: nothing smaller, {name}: {of}, {files} good files, {longer} of them longer \
             and {as_long} as long, {refused}{faults} faults"
        );
        let mut met = *longer > 0 && *as_long > 0;
        if let Some(sorts) = &self.sorts {
            let (least, count) = sorts.least();
            println!("  {name}: {}", sorts.summary());
            println!("  {name}: each sort at least {count} times ({least})");
            met &= sorts.missing().is_empty();
        }
        if !met {
            println!("FAULT: nothing smaller, {name}: not all was met that is due");
        }
        faults == 0 && met
    }
}

pub(super) fn short_file(piece: &Piece) -> Vec<u8> {
    write_file(piece, Manner::Short).expect("a good piece has a layout")
}

pub(super) fn laid_out(piece: &Piece, spelling: &Spelling) -> Vec<u8> {
    layout(piece, spelling).expect("a permitted spelling has a layout")
}

/// Random pieces, each in both manners and in so many random spellings.
pub fn generated(program: &Program, seeds: Range<u64>) -> Source<'_> {
    const SPELLINGS: usize = 4;
    let of = format!("seeds {seeds:?} in {} spellings", 2 + SPELLINGS);
    let mut source = Source::of(program, "generated", of);
    for seed in seeds {
        let rng = &mut Rng::new(seed);
        let piece = piece(rng);
        let short = short_file(&piece);
        let full = write_file(&piece, Manner::Full).expect("a good piece has a layout");
        let mut files = vec![short.clone(), full];
        files.extend((0..SPELLINGS).map(|_| laid_out(&piece, &spelling(rng, &piece))));
        for (number, file) in files.iter().enumerate() {
            source.take(rng, &format!("seed {seed}, spelling {number}"), file, &short);
        }
    }
    source
}

/// Files of all sorts, of which those that are good count.
pub fn cases(program: &Program, seeds: Range<u64>) -> Source<'_> {
    let mut source = Source::of(program, "cases", format!("seeds {seeds:?}"));
    for seed in seeds {
        // The rooms are of another stream than the file.
        source.take_any(&mut Rng::new(!seed), &format!("seed {seed}"), &file_case(seed));
    }
    source
}

/// Outside files as found and in both manners as csvmidi wrote them, whose manner 1 file is
/// csvmidi's.
pub fn outside(program: &Program) -> Source<'_> {
    let outside = outside_files();
    let of = format!("{} outside files in 3 spellings", outside.len());
    let mut source = Source::of(program, "outside", of);
    for (number, (name, file)) in outside.iter().enumerate() {
        let short = expected_back(name, "short.mid");
        let full = expected_back(name, "full.mid");
        let spelled = [("as found", file), ("in manner 0", &full), ("in manner 1", &short)];
        for (how, file) in spelled {
            let rng = &mut Rng::new(number as u64);
            source.take(rng, &format!("{name} {how}"), file, &short);
        }
    }
    source
}
