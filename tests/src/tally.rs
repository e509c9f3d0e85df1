//! How often each of the sorts was met that a run must meet; else it says less than it
//! seems to.

pub struct Tally {
    counts: Vec<(String, u64)>,
}

impl Tally {
    /// Of these sorts, none of which was met so far.
    pub fn of(names: impl IntoIterator<Item = String>) -> Tally {
        Tally { counts: names.into_iter().map(|name| (name, 0)).collect() }
    }

    pub fn met(&mut self, name: &str) {
        let found = self.counts.iter_mut().find(|(known, _)| known == name);
        found.expect("a name of the list").1 += 1;
    }

    /// The same of the sort with this number, for those that are met too often to be
    /// looked for by name.
    pub fn met_number(&mut self, number: usize) {
        self.counts[number].1 += 1;
    }

    pub fn met_if(&mut self, name: &str, met: bool) {
        if met {
            self.met(name);
        }
    }

    /// What was due but never met.
    pub fn missing(&self) -> Vec<String> {
        let never = self.counts.iter().filter(|(_, count)| *count == 0);
        never.map(|(name, _)| name.clone()).collect()
    }

    pub fn count_of(&self, name: &str) -> u64 {
        self.counts.iter().find(|(known, _)| known == name).expect("a name of the list").1
    }

    /// The one met least often.
    pub fn least(&self) -> (&str, u64) {
        let least = self.counts.iter().min_by_key(|(_, count)| *count);
        least.map(|(name, count)| (name.as_str(), *count)).expect("a list that is not empty")
    }

    /// How often each was met, in words.
    pub fn summary(&self) -> String {
        let counts = self.counts.iter().map(|(name, count)| format!("{name} {count}"));
        counts.collect::<Vec<_>>().join("; ")
    }
}
