//! Runs over divisions: that they are good when the programs agree and all sorts were met,
//! that they show each fault planted in one program or in both, and each sort never met.

use std::cell::Cell;
use std::collections::BTreeSet;

use second::compare::{Archive, Operation, Second};
use second::division_coverage::{DivisionCoverage, Given};
use second::every_division;
use second::fold::fold;
use second::generate::{file_case, text_case};
use second::known::Known;
use second::operations::{check, file_to_text, text_to_file, tidy};
use second::refusal::Answer;
use second::run::{Run, GENERATED};
use second::sheet::{file_to_sheet, room_enough};

thread_local! {
    /// The program with a fault. A program is a function and cannot carry it along.
    static PLANTED: Cell<Second> = const { Cell::new(text_to_file) };
}

fn planted(input: &[u8], manner: u32, room: &mut [u8]) -> Answer {
    PLANTED.get()(input, manner, room)
}

const PLANTED_ARCHIVE: Archive = |input, manner, room| planted(input, manner, room).packed();

/// An operation of which both programs are this one.
fn twice(second: Second, enough: fn(usize) -> usize) -> Operation {
    PLANTED.set(second);
    Operation { enough, ..Operation::new("operation", second, PLANTED_ARCHIVE) }
}

const CHECK: Second = |file, _, _| check(file);
const TIDY: Second = |file, _, room| tidy(file, room);
const FOLD: Second = |file, _, room| fold(file, room);
const TEXT: Second = |file, _, room| file_to_text(file, room);
const SHEET: Second = |file, _, room| file_to_sheet(file, room);

/// An operation that takes a file, room that is always enough, and what it makes of a
/// good division.
type OnFiles = (Second, fn(usize) -> usize, fn(u16) -> Vec<u8>);

const ON_CHECK: OnFiles = (CHECK, |_| 0, |_| Vec::new());
const ON_TIDY: OnFiles = (TIDY, |_| 0, every_division::short_file);
const ON_FOLD: OnFiles = (FOLD, |_| 0, every_division::folded_file);
const ON_TEXT: OnFiles = (TEXT, |length| 25 * length, every_division::text);
const ON_SHEET: OnFiles = (SHEET, room_enough, every_division::sheet);

fn differences(operation: &Operation, cases: impl Iterator<Item = Known>) -> u64 {
    let mut run = Run::of(operation).silent();
    run.known("divisions", cases);
    run.differences()
}

#[test]
fn every_division_has_its_answer() {
    for (second, enough, made) in [ON_CHECK, ON_TIDY, ON_FOLD, ON_TEXT, ON_SHEET] {
        assert_eq!(differences(&twice(second, enough), every_division::files(made)), 0);
    }
    let operation = Operation { manners: true, ..twice(text_to_file, |_| 0) };
    assert_eq!(differences(&operation, every_division::texts()), 0);
}

/// A fault is seen when the archive has it, and when both programs do.
fn seen(what: &str, good: &Operation, fault: Second, cases: impl Fn() -> Vec<Known>) {
    PLANTED.set(fault);
    for second in [good.second, planted] {
        let count = differences(&Operation { second, ..*good }, cases().into_iter());
        println!("{what}: {count} differences");
        assert!(count > 0, "{what} is not seen");
    }
}

fn bits(file: &[u8]) -> u16 {
    u16::from_be_bytes([file[12], file[13]])
}

/// The file with another division.
fn with_bits(file: &[u8], change: fn(u16) -> u16) -> Vec<u8> {
    [&file[..12], &change(bits(file)).to_be_bytes(), &file[14..]].concat()
}

/// A program that takes one division for another.
macro_rules! takes {
    ($operation:ident, $from:expr, $to:expr) => {
        |file, manner, room| {
            let other = with_bits(file, |bits| if bits == $from { $to } else { bits });
            $operation(&other, manner, room)
        }
    };
}

/// One that answers with another number or place.
macro_rules! answers {
    ($bits:expr, $number:expr, $place:expr) => {
        |file, manner, room| match bits(file) {
            $bits => Answer { number: $number, place: $place, length: 0 },
            _ => TIDY(file, manner, room),
        }
    };
}

const FILE_FAULTS: [(&str, OnFiles, Second); 22] = [
    ("0 taken", ON_TIDY, takes!(TIDY, 0, 1)),
    ("1 refused", ON_TIDY, takes!(TIDY, 1, 0)),
    ("32767 refused", ON_TIDY, takes!(TIDY, 0x7FFF, 0)),
    ("32768 taken", ON_TIDY, takes!(TIDY, 0x8000, 0x7FFF)),
    ("1 tick refused", ON_TIDY, takes!(TIDY, 0xE801, 0)),
    ("255 ticks refused", ON_TIDY, takes!(TIDY, 0xE3FF, 0)),
    ("0 ticks taken", ON_TIDY, takes!(TIDY, 0xE200, 0xE201)),
    ("0 ticks taken as 256", ON_TIDY, takes!(TIDY, 0xE700, 0xE7FF)),
    ("23 frames taken", ON_TIDY, takes!(TIDY, 0xE928, 0xE828)),
    ("28 frames taken", ON_TIDY, takes!(TIDY, 0xE401, 0xE301)),
    ("31 frames taken", ON_TIDY, takes!(TIDY, 0xE1FF, 0xE2FF)),
    ("1 frame taken", ON_TIDY, takes!(TIDY, 0xFFFF, 1)),
    ("29 frames written as 30", ON_TIDY, takes!(TIDY, 0xE328, 0xE228)),
    ("frames written as pulses", ON_TIDY, takes!(TIDY, 0xE728, 0x1928)),
    ("3 at 13", ON_TIDY, answers!(0xE900, 3, 13)),
    ("11 for 0 ticks", ON_TIDY, answers!(0xE800, 11, 12)),
    ("a refusal that writes", ON_TIDY, |file, manner, room| {
        room.iter_mut().take(usize::from(bits(file) == 0xE600)).for_each(|byte| *byte ^= 1);
        TIDY(file, manner, room)
    }),
    ("check takes 26 frames", ON_CHECK, takes!(CHECK, 0xE601, 0xE701)),
    ("fold loses the frames", ON_FOLD, takes!(FOLD, 0xE728, 96)),
    ("text with one tick more", ON_TEXT, takes!(TEXT, 0xE701, 0xE702)),
    ("text unsigned", ON_TEXT, |file, manner, room| {
        let answer = TEXT(file, manner, room);
        room.iter_mut().filter(|byte| **byte == b'-').for_each(|byte| *byte = b'0');
        answer
    }),
    ("sheet with another sign", ON_SHEET, takes!(SHEET, 0xE728, 6_360)),
];

#[test]
fn planted_faults_of_files_are_seen() {
    for (what, (second, enough, made), fault) in FILE_FAULTS {
        // Those at the ends of each rate, and one between.
        let near = |known: &Known| [0, 1, 0x28, 0xFF].contains(&known.input[13]);
        let good = twice(second, enough);
        seen(what, &good, fault, || every_division::files(made).filter(near).collect());
    }
}

/// The division of a text whose first line has it behind the last blank.
fn number(text: &[u8]) -> i64 {
    let line = text.split(|byte| *byte == b'\n').next().unwrap_or(text);
    let word = line.rsplit(|byte| *byte == b' ').next().unwrap_or(line);
    String::from_utf8_lossy(word).parse().expect("a number")
}

/// A reader that takes numbers for others.
macro_rules! reads {
    ($change:expr) => {
        |text, manner, room| {
            let change: fn(i64) -> i64 = $change;
            let (from, to) = (number(text), change(number(text)));
            let text = String::from_utf8_lossy(text);
            let other = text.replacen(&format!(" {from}\n"), &format!(" {to}\n"), 1);
            text_to_file(other.as_bytes(), manner, room)
        }
    };
}

const TEXT_FAULTS: [(&str, Second); 16] = [
    ("59176 taken", reads!(|number| if number > 32_767 { number - 65_536 } else { number })),
    ("-65440 taken", reads!(|number| if number < -32_768 { number + 65_536 } else { number })),
    ("only the lowest 16 bits", reads!(|number| i64::from(number as i16))),
    ("only the lowest 32 bits", reads!(|number| i64::from(number as i32))),
    ("the sign lost", reads!(|number| number.abs())),
    ("below 0 refused", reads!(|number| number.max(0))),
    ("0 taken", reads!(|number| if number == 0 { 1 } else { number })),
    ("1 refused", reads!(|number| if number == 1 { 0 } else { number })),
    ("32768 taken", reads!(|number| if number == 32_768 { 32_767 } else { number })),
    ("-6400 taken", reads!(|number| if number == -6_400 { -6_399 } else { number })),
    ("-7680 taken", reads!(|number| if number == -7_680 { -7_679 } else { number })),
    ("-5889 refused", reads!(|number| if number == -5_889 { 0 } else { number })),
    ("ticks lost", reads!(|number| if number == -6_399 { -6_400 + 40 } else { number })),
    ("25 answered as 22", |text, manner, room| {
        let answer = text_to_file(text, manner, room);
        Answer { number: if answer.number == 25 { 22 } else { answer.number }, ..answer }
    }),
    ("manner 1 for manner 0", |text, _, room| text_to_file(text, 1, room)),
    ("manner 0 for manner 1", |text, _, room| text_to_file(text, 0, room)),
];

#[test]
fn planted_faults_of_texts_are_seen() {
    let near = |known: &Known| {
        let number = number(&known.input);
        number.abs() > 65_600 || [0, 1, 63].contains(&number.rem_euclid(64))
    };
    let good = Operation { manners: true, ..twice(text_to_file, |_| 0) };
    for (what, fault) in TEXT_FAULTS {
        seen(what, &good, fault, || every_division::texts().filter(near).collect());
    }
}

/// Generated files or texts, and what a run over them takes.
struct Generated {
    given: Given,
    operation: Operation,
    /// The numbers due of it.
    due: Vec<u8>,
    /// Each with the sorts of division that it meets.
    inputs: Vec<(Vec<u8>, BTreeSet<String>)>,
}

fn generated(given: Given) -> Generated {
    let (second, due, make): (Second, Vec<u8>, fn(u64) -> Vec<u8>) = match given {
        Given::Files => (CHECK, [0, 2, 3].into_iter().chain(5..=13).collect(), file_case),
        Given::Texts => (
            |text, _, room| text_to_file(text, 1, room),
            [0, 14].into_iter().chain(22..=28).collect(),
            text_case,
        ),
    };
    let with_sorts = |input: Vec<u8>| {
        let answer = second(&input, 1, &mut []);
        let mut coverage = DivisionCoverage::of(given);
        let all = BTreeSet::from_iter(coverage.tally.missing());
        // With room enough 14 would be 0.
        coverage.add(&input, if answer.number == 14 { 0 } else { answer.number }, answer.place);
        let met = &all - &BTreeSet::from_iter(coverage.tally.missing());
        (input, met)
    };
    // Those near a limit take long, and no sort needs them.
    let inputs = (0..10_000).map(make).filter(|input| input.len() < 100_000);
    let inputs = inputs.map(with_sorts).collect();
    Generated { given, operation: twice(second, |_| 0), due, inputs }
}

impl Generated {
    /// Over all inputs, as a source of this name, but those that meet a sort.
    fn run_without(&self, sort: &str, name: &'static str) -> Run<'_> {
        let inputs = self.inputs.iter().filter(|(_, met)| !met.contains(sort));
        let inputs: Vec<&Vec<u8>> = inputs.map(|(input, _)| input).collect();
        let mut run = Run::of(&self.operation).silent().of_divisions(self.given);
        run.source(name, 0..inputs.len() as u64, |seed| inputs[seed as usize].clone());
        assert_eq!(run.differences(), 0);
        run
    }
}

#[test]
fn a_run_misses_what_it_never_met() {
    for given in [Given::Files, Given::Texts] {
        let generated = generated(given);
        let due = &generated.due;
        assert!(generated.run_without("", GENERATED).report(due));
        assert!(!generated.run_without("", "others").report(due), "others do not count");
        for sort in DivisionCoverage::of(given).tally.missing() {
            let run = generated.run_without(&sort, GENERATED);
            assert!(!run.report(due), "{sort} was not met");
            assert!(run.of_few(true).report(due), "few need not meet {sort}");
        }
    }
}
