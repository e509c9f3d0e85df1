//! What a run tells at its end, and whether it was good.

use crate::compare::{Compared, Room};

use super::{Key, Run, Source, GENERATED, SHOWN};

/// Those to be met of an operation that takes a manner; in the first two every
/// number but 30 and every room due.
const MANNERS: [u32; 5] = [0, 1, 2, 255, u32::MAX];

/// Not to be met in a room that is always enough: 14 does not come there, and for a table
/// that is too long (38) such a room would take half a GiB.
const NEVER_ENOUGH: [u8; 2] = [14, 38];

impl<C: Compared> Run<'_, C> {
    fn total(&self, wanted: impl Fn(&Key) -> bool) -> u64 {
        self.sources.iter().map(|source| source.count(&wanted)).sum()
    }

    /// Prints the table and the verdict; true if it is good. `due` are the numbers to
    /// be met, and no others. With 14 among them every room due must be met too, and
    /// where some room is always enough, every other number in that room.
    pub fn report(&self, due: &[u8]) -> bool {
        let name = self.operation.name();
        println!("{name}: archive against second program, {:.0} seconds", self.seconds());
        self.row("source", |source| source.name.to_owned());
        self.row("seeds", |source| format!("{}..{}", source.seeds.start, source.seeds.end));
        let total = |number: u8| self.total(|key| key.number == number);
        for number in (0..=255).filter(|number| due.contains(number) || total(*number) > 0) {
            self.row(&number.to_string(), |source| {
                source.count(|key| key.number == number).to_string()
            });
        }
        self.row("cases", |source| source.cases.to_string());

        let missing: Vec<&u8> = due.iter().filter(|number| total(**number) == 0).collect();
        let undue: Vec<u8> =
            (0..=255).filter(|number| !due.contains(number) && total(*number) > 0).collect();
        let mut unmet = if due.contains(&14) { self.rooms(due) } else { Vec::new() };
        if self.operation.manners() {
            unmet.extend(self.manners(due));
        }
        unmet.extend(self.aims_unmet());
        unmet.extend(self.not_held());
        unmet.extend(self.sorts_unmet());
        let cases: u64 = self.sources.iter().map(|source| source.cases).sum();
        println!("{name}: {cases} cases, {} differences", self.differences);
        println!("{name}: never met: {missing:?} {unmet:?}, met but not due: {undue:?}");
        let all_met = missing.is_empty() && unmet.is_empty();
        if self.few && !all_met {
            println!("{name}: that is no fault here: the cases are too few to meet all");
        }
        self.differences == 0 && undue.is_empty() && (all_met || self.few)
    }

    /// Prints how often each kind of room was met; what was due of them but never
    /// met.
    fn rooms(&self, due: &[u8]) -> Vec<String> {
        let mut kinds = Room::DUE.to_vec();
        let enough_known = self.operation.enough(1) > 0;
        if enough_known {
            kinds.extend([Room::Enough, Room::UnderEnough]);
        }
        for kind in kinds.iter().copied().chain([Room::Smaller, Room::Unused]) {
            let count = |source: &Source| source.count(|key| key.room == kind);
            self.row(&format!("{kind:?}"), |source| count(source).to_string());
        }
        let mut unmet = Vec::new();
        for kind in kinds {
            if self.total(|key| key.room == kind) == 0 {
                unmet.push(format!("{kind:?}"));
            }
        }
        if enough_known {
            let enough =
                |number: u8| self.total(|key| key.number == number && key.room == Room::Enough);
            let due: Vec<u8> =
                due.iter().copied().filter(|number| !NEVER_ENOUGH.contains(number)).collect();
            let counts: Vec<String> =
                due.iter().map(|number| format!("{number}: {}", enough(*number))).collect();
            println!("  numbers in room Enough: {}", counts.join(", "));
            let never = due.iter().filter(|number| enough(**number) == 0);
            unmet.extend(never.map(|number| format!("{number} in room Enough")));
        }
        unmet
    }

    /// Prints how often each manner was met; what was due of them but never met.
    fn manners(&self, due: &[u8]) -> Vec<String> {
        let mut unmet = Vec::new();
        for manner in MANNERS {
            let count = |source: &Source| source.count(|key| key.manner == manner);
            self.row(&format!("m. {manner}"), |source| count(source).to_string());
            let total = |wanted: &dyn Fn(&Key) -> bool| {
                self.total(|key| key.manner == manner && wanted(key))
            };
            let numbers: Vec<u8> = match manner {
                0 | 1 => due.iter().copied().filter(|number| *number != 30).collect(),
                _ => vec![30],
            };
            let never = numbers.iter().filter(|number| total(&|key| key.number == **number) == 0);
            unmet.extend(never.map(|number| format!("{number} in manner {manner}")));
            if manner < 2 {
                let never = Room::DUE.iter().filter(|room| total(&|key| key.room == **room) == 0);
                unmet.extend(never.map(|room| format!("{room:?} in manner {manner}")));
            }
        }
        let others = |source: &Source| source.count(|key| !MANNERS.contains(&key.manner));
        self.row("m. others", |source| others(source).to_string());
        unmet
    }

    /// Prints how often aims were met; those never met.
    fn aims_unmet(&self) -> Vec<String> {
        if let Some((name, least)) = self.aims.iter().min_by_key(|(_, count)| *count) {
            println!("  {} aims, each met at least {least} times ({name})", self.aims.len());
        }
        let never: Vec<String> = self
            .aims
            .iter()
            .filter(|(_, count)| *count == 0)
            .map(|(name, _)| format!("aim {name}"))
            .collect();
        let further = never.len().saturating_sub(SHOWN as usize);
        let mut unmet: Vec<String> = never.into_iter().take(SHOWN as usize).collect();
        if further > 0 {
            unmet.push(format!("{further} further aims"));
        }
        unmet
    }

    /// What the inputs of this run were to hold and did not.
    fn not_held(&self) -> Vec<String> {
        if self.read.is_none() {
            return Vec::new();
        }
        let mut missing = Vec::new();
        for source in self.sources.iter().filter(|source| source.name == GENERATED) {
            println!("  {} inputs accepted held {}", source.name, source.held.summary());
            missing.extend(source.held.missing());
        }
        missing
    }

    /// Prints how often each sort of headers and chunks, of divisions and of padding was
    /// met; those never met.
    fn sorts_unmet(&self) -> Vec<String> {
        let chunks = self.chunks.iter().map(|chunks| ("headers and chunks", &chunks.tally));
        let divisions = self.divisions.iter().map(|divisions| ("divisions", &divisions.tally));
        let mut missing = Vec::new();
        let padding = self.padding.iter().map(|padding| ("padding and lists", &padding.tally));
        for (what, tally) in chunks.chain(divisions).chain(padding) {
            let (name, count) = tally.least();
            println!("  {what}: {}", tally.summary());
            println!("  {what}: each sort at least {count} times ({name})");
            missing.extend(tally.missing());
        }
        missing
    }

    fn row(&self, title: &str, cell: impl Fn(&Source) -> String) {
        let cells: String =
            self.sources.iter().map(|source| format!(" {:>18}", cell(source))).collect();
        println!("  {title:<12}{cells}");
    }

    fn seconds(&self) -> f64 {
        self.started.elapsed().as_secs_f64()
    }
}
