//! pages: what three pages say is true of the proved archive. Each example of
//! docs/REFUSALS.md and docs/FORMAT.md gets its number and place, and each record of
//! man/noferkash-text.5 and docs/FORMAT.md has the fields, the ranges and the bytes told
//! there. Exit 1 at a fault, or if a page no longer holds what is looked for.

mod bytes;
mod format;
mod records;
mod refusals;

use std::fs;
use std::path::Path;
use std::process::ExitCode;

use second::archive;
use second::refusal::Answer;

/// Cases counted and faults told.
#[derive(Default)]
struct Tally {
    cases: u32,
    faults: u32,
}

impl Tally {
    fn expect(&mut self, what: &str, got: Answer, due: Answer) {
        self.equal(what, &got, &due);
    }

    fn equal<T: PartialEq + std::fmt::Debug + ?Sized>(&mut self, what: &str, got: &T, due: &T) {
        self.cases += 1;
        if got != due {
            self.fault(&format!("{what}: {got:?} and not {due:?}"));
        }
    }

    fn fault(&mut self, what: &str) {
        self.faults += 1;
        println!("FAULT: {what}");
    }
}

fn main() -> ExitCode {
    let mut tally = Tally::default();
    let format = page("docs/FORMAT.md");
    refusals::examples(&page("docs/REFUSALS.md"), &mut tally);
    records::of_manual(&page("man/noferkash-text.5"), &mut tally);
    records::of_format(&format, &mut tally);
    format::examples(&format, &mut tally);
    println!("pages: {} cases, {} faults", tally.cases, tally.faults);
    if tally.faults > 0 {
        return ExitCode::FAILURE;
    }
    ExitCode::SUCCESS
}

fn page(name: &str) -> String {
    let path = Path::new(env!("CARGO_MANIFEST_DIR")).join("..").join(name);
    fs::read_to_string(&path).unwrap_or_else(|error| panic!("{}: {error}", path.display()))
}

/// The cells of a table's row, if there are so many.
fn cells(line: &str, count: usize) -> Option<Vec<&str>> {
    let cells: Vec<&str> = line.strip_prefix("| ")?.strip_suffix(" |")?.split(" | ").collect();
    Some(cells).filter(|cells| cells.len() == count)
}

/// What stands between backquotes, if that is the whole.
fn quoted(cell: &str) -> Option<&str> {
    cell.strip_prefix('`')?.strip_suffix('`').filter(|inside| !inside.contains('`'))
}

/// A good text but for the line given, its third.
fn text_with(line: &str) -> String {
    let end = if line.is_empty() { "" } else { "\n" };
    format!(
        "0, 0, Header, 0, 1, 96\n1, 0, Start_track\n{line}{end}1, 0, End_track\n0, 0, End_of_file\n"
    )
}

/// What the archive makes of a text: its answer, the length left out, and the file.
fn file_of_text(text: &[u8], manner: u32) -> (Answer, Vec<u8>) {
    let mut room = vec![0; 1 << 20];
    let answer = Answer::unpacked(archive::text_to_file(&mut text.to_vec(), manner, &mut room));
    room.truncate(answer.length);
    (Answer { length: 0, ..answer }, room)
}

/// The answer alone.
fn answer_to_text(text: &[u8], manner: u32) -> Answer {
    file_of_text(text, manner).0
}

/// What the archive makes of a file: its answer, the length left out, and the text.
fn text_of_file(file: &[u8]) -> (Answer, Vec<u8>) {
    let mut room = vec![0; 25 * file.len()];
    let answer = Answer::unpacked(archive::file_to_text(&mut file.to_vec(), &mut room));
    room.truncate(answer.length);
    (Answer { length: 0, ..answer }, room)
}

fn refused(number: u8, place: usize) -> Answer {
    Answer { number, place, length: 0 }
}
