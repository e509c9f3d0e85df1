//! One row for each kind of input: what was counted, and what was at fault.

use super::programs::{Compared, Given, Outcome};

pub struct Row {
    name: &'static str,
    given: Given,
    number: u64,
    good: u64,
    same: u64,
    silent: u64,
    silent_back: u64,
    endless: u64,
    crashed: u64,
    warned: u64,
    refused: u64,
    refused_but_written: u64,
    faults: u64,
}

impl Row {
    pub fn new(given: Given, name: &'static str) -> Row {
        Row {
            name,
            given,
            number: 0,
            good: 0,
            same: 0,
            silent: 0,
            silent_back: 0,
            endless: 0,
            crashed: 0,
            warned: 0,
            refused: 0,
            refused_but_written: 0,
            faults: 0,
        }
    }

    /// `good` is the second program's opinion of what was given.
    pub fn add(&mut self, compared: &Compared, good: bool) {
        self.number += 1;
        let theirs = &compared.theirs;
        let due = if good { Outcome::Silent } else { Outcome::Refused };
        if compared.ours.outcome != due || good != compared.ours.written.is_some() {
            self.faults += 1;
            println!("FAULT: {}: case {}: {:?}", self.name, self.number, compared.ours.outcome);
        }
        if good {
            self.good += 1;
            let silent = theirs.outcome == Outcome::Silent;
            self.same += u64::from(silent && theirs.written == compared.ours.written);
            return;
        }
        let written = theirs.written.as_ref().is_some_and(|bytes| !bytes.is_empty());
        match theirs.outcome {
            Outcome::Silent => {
                self.silent += 1;
                self.silent_back += u64::from(compared.back == Some(Outcome::Silent));
            }
            Outcome::Warned => self.warned += 1,
            Outcome::Refused => {
                self.refused += 1;
                self.refused_but_written += u64::from(written);
            }
            Outcome::Crashed => self.crashed += 1,
            Outcome::Endless => self.endless += 1,
        }
    }

    pub fn faults(&self) -> u64 {
        self.faults
    }

    pub fn warned(&self) -> u64 {
        self.warned
    }

    /// Name of a column and its count.
    fn cells(&self) -> Vec<(&'static str, u64)> {
        let mut cells = vec![("tried", self.number), ("good", self.good)];
        cells.push(match self.given {
            Given::File => ("same text", self.same),
            Given::Text => ("same file", self.same),
        });
        cells.push(("refused here", self.number - self.good));
        cells.push(("taken silently", self.silent));
        if self.given == Given::File {
            cells.push(("by csvmidi too", self.silent_back));
        }
        cells.push(("never ended", self.endless));
        cells.push(("crashed", self.crashed));
        cells.push(("refused", self.refused));
        cells.push(("OUT written", self.refused_but_written));
        cells
    }
}

/// The rows as a page has them, and their sum.
pub fn lines(first: &str, rows: &[Row]) -> Vec<String> {
    let names: Vec<&str> = rows[0].cells().iter().map(|cell| cell.0).collect();
    let mut lines = vec![
        format!("| {first} | {} |", names.join(" | ")),
        format!("|---|{}", "--:|".repeat(names.len())),
    ];
    let mut sums = vec![0; names.len()];
    for row in rows {
        let counts: Vec<u64> = row.cells().iter().map(|cell| cell.1).collect();
        sums = sums.iter().zip(&counts).map(|(sum, count)| sum + count).collect();
        lines.push(line(row.name, &counts));
    }
    lines.push(line("all", &sums));
    lines
}

fn line(name: &str, counts: &[u64]) -> String {
    let counts: Vec<String> = counts.iter().map(|&count| with_commas(count)).collect();
    format!("| {name} | {} |", counts.join(" | "))
}

fn with_commas(count: u64) -> String {
    if count < 1000 {
        return count.to_string();
    }
    format!("{},{:03}", with_commas(count / 1000), count % 1000)
}

/// The page has these lines, one after the other as here. But midicsv's counts, which depend on
/// memory that it has not filled, may differ by 5 and a hundredth: those after the fourth.
pub fn agree(lines: &[String], page: &str) -> bool {
    let mut of_page = page.lines();
    let mut all = true;
    for line in lines {
        let name = line.split(" | ").next().expect("a split has a part");
        let there = of_page.find(|there| *there == line || there.starts_with(&format!("{name} |")));
        if !there.is_some_and(|there| close(line, there)) {
            println!("not so in docs/FROM-MIDICSV.md: {line}");
            all = false;
        }
    }
    all
}

fn close(line: &str, there: &str) -> bool {
    let counts = |line: &str| -> Vec<u64> {
        let cells = line.split(" | ").skip(1);
        cells.filter_map(|cell| cell.trim_end_matches(" |").replace(',', "").parse().ok()).collect()
    };
    let (counted, told) = (counts(line), counts(there));
    if told.is_empty() {
        return line == there;
    }
    let is_close = |(at, (&one, &other)): (usize, (&u64, &u64))| {
        one == other || at > 3 && one.abs_diff(other) <= 5 + other / 100
    };
    counted.len() == told.len() && counted.iter().zip(&told).enumerate().all(is_close)
}

#[cfg(test)]
mod tests {
    use super::agree;

    const LINES: [&str; 4] = [
        "| Files | tried | good | same text | refused here | taken silently |",
        "|---|--:|--:|--:|--:|--:|",
        "| cut short | 1,000 | 0 | 0 | 1,000 | 446 |",
        "Exit 0 with a message, of all these: 0.",
    ];

    fn agrees_with(page: &[&str]) -> bool {
        let lines: Vec<String> = LINES.iter().map(|line| line.to_string()).collect();
        agree(&lines, &page.join("\n"))
    }

    #[test]
    fn a_page_may_differ_in_little_else() {
        let [head, dashes, row, last] = LINES;
        assert!(agrees_with(&["before", head, dashes, row, "", "between", last, "after"]));
        let row_with = |refused: &str, silent: &str| {
            row.replace("| 1,000 | 446 |", &format!("| {refused} | {silent} |"))
        };
        assert!(agrees_with(&[head, dashes, &row_with("1,000", "437"), last]));
        assert!(!agrees_with(&[head, dashes, &row_with("1,000", "430"), last]));
        assert!(!agrees_with(&[head, dashes, &row_with("1,001", "446"), last]));
        assert!(!agrees_with(&[head, dashes, &row.replace("cut", "too"), last]));
        assert!(!agrees_with(&[head, dashes, &format!("{row} 0 |"), last]));
        assert!(!agrees_with(&[&head.replace("good", "bad"), dashes, row, last]));
        assert!(!agrees_with(&[head, dashes, last]));
        assert!(!agrees_with(&[head, dashes, row]));
        assert!(!agrees_with(&[row, head, dashes, last]));
    }
}
