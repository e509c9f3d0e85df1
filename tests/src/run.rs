//! A run of one operation of both programs over many inputs: what was met of all
//! that is due, and the differences.

mod lists;
mod report;

use std::collections::BTreeMap;
use std::env;
use std::fs;
use std::ops::Range;
use std::time::{Duration, Instant};

use crate::chunk_coverage::ChunkCoverage;
use crate::compare::{Compared, Difference, Met, Operation, Room};
use crate::coverage::Coverage;
use crate::division_coverage::{DivisionCoverage, Given};
use crate::generate::{room, Aim, LimitCase, LimitTable, LimitText, Rng};
use crate::known::Known;
use crate::padding_coverage::PaddingCoverage;
use crate::piece::Piece;
use crate::refusal::{Answer, Refusal};

/// Of a run with many differences, or with many aims never met.
const SHOWN: u64 = 10;
/// What a byte of lent room that must stay holds.
const SPARE: u8 = 0xA5;
/// Texts over this size take long.
const LONG: usize = 1 << 24;
/// How often a run says how far it is.
const PROGRESS: Duration = Duration::from_secs(60);
/// The source whose accepted inputs are to hold all that `Coverage` has, and whose inputs
/// are to meet all that `DivisionCoverage` knows: others have every division by hand.
pub const GENERATED: &str = "generated";

pub type Reader = fn(&[u8]) -> Result<Piece, Refusal>;

/// What one operation answered, source by source.
pub struct Run<'a, C = Operation> {
    operation: &'a C,
    /// Reads what the accepted inputs of `GENERATED` hold, if that is to be seen.
    read: Option<Reader>,
    /// What headers and chunks of all inputs were met, if that is to be seen.
    chunks: Option<ChunkCoverage>,
    /// What divisions of the inputs of `GENERATED` were met, if that is to be seen.
    divisions: Option<DivisionCoverage>,
    /// What padding the files had, and what lists were lent, if that is to be seen.
    padding: Option<PaddingCoverage>,
    sources: Vec<Source>,
    /// Name of each aim, and how often it was met.
    aims: Vec<(String, u64)>,
    differences: u64,
    /// Of many differences only so many are shown and kept.
    shown: u64,
    /// Too few cases to ask that all that is due was met.
    few: bool,
    started: Instant,
    said: Instant,
}

struct Source {
    name: &'static str,
    seeds: Range<u64>,
    cases: u64,
    /// How often both programs answered each number, in each kind of room and manner.
    met: BTreeMap<Key, u64>,
    /// What the accepted inputs held.
    held: Coverage,
}

#[derive(Clone, Copy, PartialEq, Eq, PartialOrd, Ord)]
struct Key {
    number: u8,
    room: Room,
    manner: u32,
}

impl Source {
    fn of(name: &'static str, seeds: Range<u64>) -> Source {
        Source { name, seeds, cases: 0, met: BTreeMap::new(), held: Coverage::default() }
    }

    fn count(&self, wanted: impl Fn(&Key) -> bool) -> u64 {
        let met = self.met.iter().filter(|(key, _)| wanted(key));
        met.map(|(_, count)| count).sum()
    }
}

impl<C: Compared> Run<'_, C> {
    pub fn of(operation: &C) -> Run<'_, C> {
        Run {
            operation,
            read: None,
            chunks: None,
            divisions: None,
            padding: None,
            sources: Vec::new(),
            aims: Vec::new(),
            differences: 0,
            shown: SHOWN,
            few: false,
            started: Instant::now(),
            said: Instant::now(),
        }
    }

    /// The same; if `few`, what was never met is said but is no fault of the run.
    pub fn of_few(self, few: bool) -> Self {
        Run { few, ..self }
    }

    /// The same, of files that must meet all that `ChunkCoverage` knows.
    pub fn of_chunks(self) -> Self {
        Run { chunks: Some(ChunkCoverage::default()), ..self }
    }

    /// The same, of files or texts that must meet all that `DivisionCoverage` knows.
    pub fn of_divisions(self, given: Given) -> Self {
        Run { divisions: Some(DivisionCoverage::of(given)), ..self }
    }

    /// The same, of files and lists that must meet all that `PaddingCoverage` knows.
    pub fn of_padding(self) -> Self {
        Run { padding: Some(PaddingCoverage::default()), ..self }
    }

    /// The same, of which differences are only counted.
    pub fn silent(self) -> Self {
        Run { shown: 0, ..self }
    }

    pub fn differences(&self) -> u64 {
        self.differences
    }

    /// Compares on an input for each seed, which chooses what is lent too.
    pub fn source(&mut self, name: &'static str, seeds: Range<u64>, make: impl Fn(u64) -> Vec<u8>) {
        let mut source = Source::of(name, seeds.clone());
        for seed in seeds {
            let input = make(seed);
            let compared = self.operation.compare(seed, &input);
            let Some(met) = self.take(&mut source, &seed.to_string(), &input, compared) else {
                continue;
            };
            if let (0, GENERATED, Some(read)) = (met.number, name, self.read) {
                source.held.add(&read(&input).expect("both programs read it"));
            }
        }
        self.sources.push(source);
    }

    /// Counts what was met, which must be this number at this place.
    fn take_due(
        &mut self,
        source: &mut Source,
        what: &str,
        input: &[u8],
        compared: Result<Met, Difference>,
        due: (u8, usize),
    ) {
        if let Some(Met { number, place, .. }) = self.take(source, what, input, compared) {
            let answer = Answer { number, place, length: 0 };
            self.expect((number, place) == due, what, answer);
        }
    }

    /// Counts what was met, or shows and keeps the difference.
    fn take(
        &mut self,
        source: &mut Source,
        what: &str,
        input: &[u8],
        compared: Result<Met, Difference>,
    ) -> Option<Met> {
        source.cases += 1;
        self.progress(source);
        match compared {
            Ok(met) => {
                let Met { number, place, room, manner, .. } = met;
                *source.met.entry(Key { number, room, manner }).or_insert(0) += 1;
                if let Some(chunks) = &mut self.chunks {
                    chunks.add(input, number, place);
                }
                if let (GENERATED, Some(divisions)) = (source.name, &mut self.divisions) {
                    divisions.add(input, number, place);
                }
                if let Some(padding) = &mut self.padding {
                    padding.add(input, &met);
                }
                Some(met)
            }
            Err(difference) => {
                self.differences += 1;
                if self.differences <= self.shown {
                    let file = format!("{}-{}", source.name, source.cases - 1);
                    let kept = keep(self.operation.name(), &file, input);
                    println!("DIFFERENCE in {}, {what}: {difference}\n    {kept}", source.name);
                }
                None
            }
        }
    }

    /// Says now and then how far a long run is.
    fn progress(&mut self, source: &Source) {
        if self.said.elapsed() >= PROGRESS {
            let Source { name, cases, seeds, .. } = source;
            let (of, due) = (self.operation.name(), seeds.end - seeds.start);
            eprintln!("{of}: {name}, {cases} of {due}, {} differences", self.differences);
            self.said = Instant::now();
        }
    }

    /// An answer that both give but that is not due counts as a difference.
    fn expect(&mut self, good: bool, what: &str, answer: Answer) {
        if !good {
            self.differences += 1;
            if self.differences <= self.shown {
                println!("NOT DUE: {what}: both answer {} at {}", answer.number, answer.place);
            }
        }
    }
}

impl Run<'_> {
    /// The same, of which the generated inputs that are accepted must hold all that
    /// `Coverage` has.
    pub fn holding(operation: &Operation, read: Reader) -> Run<'_> {
        Run { read: Some(read), ..Run::of(operation) }
    }

    /// The same on texts of the aims in turn; both must give the answer due.
    pub fn aimed(&mut self, name: &'static str, seeds: Range<u64>, aims: &[Aim]) {
        let mut source = Source::of(name, seeds.clone());
        let mut counts = vec![0; aims.len()];
        for seed in seeds {
            let index = (seed % aims.len() as u64) as usize;
            let aimed = aims[index].text(&mut Rng::new(!seed));
            let compared = self.operation.compare(seed, &aimed.text);
            let what = format!("{seed} ({})", aims[index].name);
            let Some(met) = self.take(&mut source, &what, &aimed.text, compared) else {
                continue;
            };
            let answer = Answer { number: met.number, place: met.place, length: 0 };
            if met.manner > 1 {
                self.expect(answer == MANNER_REFUSED, &what, answer);
            } else {
                counts[index] += u64::from(aimed.is_met_by(answer));
                self.expect(aimed.is_met_by(answer), &what, answer);
            }
        }
        self.aims.extend(aims.iter().map(|aim| aim.name.clone()).zip(counts));
        self.sources.push(source);
    }

    /// The same on texts at limits, in all manners and rooms that matter (the longest
    /// mostly in one of the manners); both must give the answers due.
    pub fn limits(&mut self, name: &'static str, cases: &[LimitText]) {
        let mut source = Source::of(name, 0..cases.len() as u64);
        let rng = &mut Rng::new(0);
        for (index, case) in cases.iter().enumerate() {
            let text = case.text();
            let manners: &[usize] = match index {
                // 30 comes before 21.
                0..=3 => &[0, 1, 2],
                _ if text.len() <= LONG => &[0, 1, 2],
                _ => &[[0], [1]][index / 2 % 2],
            };
            for manner in manners.iter().copied() {
                let due = *case.due.get(manner).unwrap_or(&MANNER_REFUSED);
                let rooms = match due.length {
                    0 => vec![4_096 * (1 - manner % 2)],
                    needed if text.len() > LONG => vec![needed - manner],
                    needed => vec![0, needed - 1, needed, needed + 64],
                };
                for room in rooms {
                    let fits = due.number == 14 && room >= due.length;
                    let due_here = if fits { 0 } else { due.number };
                    let what = format!("{}, manner {manner}, room {room}", case.what);
                    let operation = self.operation;
                    let compared =
                        operation.compare_in(rng, &text, manner as u32, room, due.length);
                    let due_here = (due_here, due.place);
                    self.take_due(&mut source, &what, &text, compared, due_here);
                }
            }
        }
        self.sources.push(source);
    }

    /// The same on files at limits, in every room due, or in some if they are refused;
    /// both must give the answer due.
    pub fn file_limits(&mut self, name: &'static str, cases: &[LimitCase]) {
        let mut source = Source::of(name, 0..cases.len() as u64);
        let rng = &mut Rng::new(0);
        for LimitCase { what, file, number, place } in cases {
            let needed = (self.operation.second)(file, 1, &mut []).length;
            let rooms = match needed {
                0 => vec![0, 4_096],
                _ => vec![0, needed - 1, needed, needed + 64],
            };
            for room in rooms {
                let due = (if room < needed { 14 } else { *number }, *place);
                let what = format!("{what}, room {room}");
                let compared = self.operation.compare_in(rng, file, 1, room, needed);
                self.take_due(&mut source, &what, file, compared, due);
            }
        }
        self.sources.push(source);
    }

    /// The same on tables at limits; both must give the answer due.
    pub fn table_limits(&mut self, name: &'static str, cases: &[LimitTable]) {
        let mut source = Source::of(name, 0..cases.len() as u64);
        let rng = &mut Rng::new(0);
        for case in cases {
            let table = case.table();
            let needed = case.due.length;
            for room in case.rooms.iter().copied() {
                let fits = case.due.number == 14 && room >= needed;
                let due = (if fits { 0 } else { case.due.number }, case.due.place);
                let what = format!("{}, room {room}", case.what);
                let compared = self.operation.compare_in(rng, &table, 0, room, needed);
                self.take_due(&mut source, &what, &table, compared, due);
            }
        }
        self.sources.push(source);
    }

    /// The same on inputs whose whole answer is known, in just enough room, in some other
    /// and in one that is always enough; both must give it.
    pub fn known(&mut self, name: &'static str, cases: impl Iterator<Item = Known>) {
        let mut source = Source::of(name, 0..0);
        let rng = &mut Rng::new(0);
        let manners = if self.operation.manners { 0..2 } else { 0..1 };
        for Known { what, input, due } in cases {
            source.seeds.end += 1;
            for manner in manners.clone() {
                let made = due.as_ref().map_or(&[][..], |made| &made[manner]);
                let needed = made.len();
                let mut rooms = vec![needed, room(rng, if needed == 0 { 64 } else { needed })];
                rooms.extend(Some((self.operation.enough)(input.len())).filter(|room| *room > 0));
                for room in rooms {
                    let fits = (if room < needed { 14 } else { 0 }, 0);
                    let due = due.as_ref().err().copied().unwrap_or(fits);
                    let (operation, manner) = (self.operation, manner as u32);
                    let compared = operation.compare_in(rng, &input, manner, room, needed);
                    self.take_due(&mut source, &what, &input, compared, due);
                }
                // What the second program does is what both did.
                let mut lent = vec![SPARE; needed + 1];
                let answer = (self.operation.second)(&input, manner as u32, &mut lent);
                self.expect(lent == [made, &[SPARE]].concat(), &what, answer);
            }
        }
        self.sources.push(source);
    }
}

const MANNER_REFUSED: Answer = Answer { number: 30, place: 0, length: 0 };

/// Writes an input that the programs differ on; says where it stands.
fn keep(operation: &str, case: &str, input: &[u8]) -> String {
    let path = env::temp_dir().join(format!("noferkash-{operation}-{case}.input"));
    match fs::write(&path, input) {
        Ok(()) => format!("input: {} ({} bytes)", path.display(), input.len()),
        Err(error) => format!("input not kept: {}: {error}", path.display()),
    }
}
