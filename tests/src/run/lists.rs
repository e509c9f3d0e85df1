//! A run of the listing over files whose lists are known.

use std::ops::Range;

use crate::compare::Compared;
use crate::compare_lists::Listing;
use crate::every_division;
use crate::generate::{KnownLists, Rng};
use crate::known::Known;

use super::{Run, Source, SPARE};

impl Run<'_, Listing> {
    /// Compares on a file for each seed, which chooses the lists too; both programs must
    /// give what is due.
    pub fn known_lists(
        &mut self,
        name: &'static str,
        seeds: Range<u64>,
        make: impl Fn(u64) -> KnownLists,
    ) {
        let mut source = Source::of(name, seeds.clone());
        for seed in seeds {
            self.lists_by_seed(&mut source, seed, &make(seed));
        }
        self.sources.push(source);
    }

    /// The same on the file of every division, in exact lists and in some others.
    pub fn listed_divisions(&mut self, name: &'static str) {
        let mut source = Source::of(name, 0..0);
        for Known { what, input, due } in every_division::files(|_| Vec::new()) {
            let lists = || [vec![96, 0], vec![3, 1], vec![0, 0]];
            let known = KnownLists { what, file: input, due: due.map(|_| lists()) };
            self.in_lengths(&mut source, &known, [[2; 3]]);
            let seed = source.seeds.end;
            self.lists_by_seed(&mut source, seed, &known);
            source.seeds.end += 1;
        }
        self.sources.push(source);
    }

    /// The same on files by hand: exact lists, longer ones, none, and each one short.
    pub fn list_limits(&mut self, name: &'static str, cases: &[KnownLists]) {
        let mut source = Source::of(name, 0..cases.len() as u64);
        for known in cases {
            let count = known.due.as_ref().map_or(9, |due| due[0].len());
            let (less, more) = (count - 1, count + 1);
            let singly = [[less, count, count], [count, less, count], [count, count, less]];
            self.in_lengths(&mut source, known, singly);
            self.in_lengths(&mut source, known, [[count; 3], [more; 3], [less; 3], [0; 3]]);
        }
        self.sources.push(source);
    }

    fn lists_by_seed(&mut self, source: &mut Source, seed: u64, known: &KnownLists) {
        let KnownLists { what, file, due } = known;
        let compared = self.operation.compare(seed, file);
        if let Some(met) = self.take(source, what, file, compared) {
            let refused = due.as_ref().err().copied();
            let good = match refused {
                Some(refused) => refused == (met.number, met.place),
                None => [0, 14].contains(&met.number),
            };
            self.expect(good && self.lists_are_due(known), what, met.answer());
        }
    }

    fn in_lengths<const N: usize>(
        &mut self,
        source: &mut Source,
        known: &KnownLists,
        all: [[usize; 3]; N],
    ) {
        let rng = &mut Rng::new(source.cases);
        let KnownLists { what, file, due } = known;
        let tracks = due.as_ref().map_or(0, |due| due[0].len());
        for lengths in all {
            let short = lengths.iter().any(|length| *length < tracks);
            let fits = (if short { 14 } else { 0 }, 0);
            let compared = self.operation.compare_in(rng, file, lengths, tracks);
            let what = format!("{what}, lists of {lengths:?}");
            self.take_due(
                source,
                &what,
                file,
                compared,
                due.as_ref().err().copied().unwrap_or(fits),
            );
        }
        let answer = (self.operation.second)(file, [&mut [], &mut [], &mut []]);
        self.expect(self.lists_are_due(known), what, answer);
    }

    /// Whether the second program, which does what both do, gives the lists due and leaves
    /// what is past them.
    fn lists_are_due(&self, known: &KnownLists) -> bool {
        let Ok(due) = &known.due else { return true };
        let spare = u32::from_ne_bytes([SPARE; 4]);
        let mut lists = due.each_ref().map(|list| vec![spare; list.len() + 1]);
        (self.operation.second)(&known.file, lists.each_mut().map(Vec::as_mut_slice));
        lists.iter().zip(due).all(|(list, due)| *list == [&due[..], &[spare]].concat())
    }
}
