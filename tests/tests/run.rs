//! A whole run: that it is good when the programs agree and all was met, and that it
//! is not when a fault is planted in one of them, or in both, or something was not met.

use second::compare::{Archive, Operation};
use second::generate::{aims, text_case, text_limit_cases, LimitText};
use second::operations::text_to_file;
use second::refusal::Answer;
use second::run::{Run, GENERATED};

const GOOD: Operation = Operation {
    manners: true,
    ..Operation::new("text_to_file", text_to_file, |text, manner, room| {
        text_to_file(text, manner, room).packed()
    })
};

/// Every number due of text_to_file.
fn due() -> Vec<u8> {
    [0, 14].into_iter().chain(21..=30).collect()
}

/// The limits that do not take long: one of texts, which comes first so as to be tried
/// in all manners, and those of files.
fn quick_limits() -> Vec<LimitText> {
    let mut cases = text_limit_cases();
    let too_long = cases.iter().position(|case| case.due[0].number == 21).expect("a text for 21");
    let first = cases.swap_remove(too_long);
    cases.retain(|case| case.what.contains("a file"));
    cases.insert(0, first);
    cases
}

fn whole_run(rounds: u64) -> bool {
    let aims = aims();
    let mut run = Run::of(&GOOD).silent();
    run.source(GENERATED, 0..2_000, text_case);
    run.aimed("aimed", 0..rounds * aims.len() as u64, &aims);
    run.limits("limits", &quick_limits());
    assert_eq!(run.differences(), 0);
    run.report(&due())
}

#[test]
fn a_good_run_is_good() {
    assert!(whole_run(8));
}

#[test]
fn aims_that_were_never_met_are_missed() {
    assert!(!whole_run(0), "no aim was tried");
    let aims = aims();
    let mut run = Run::of(&GOOD).silent();
    run.aimed("aimed", 0..aims.len() as u64 - 1, &aims);
    assert_eq!(run.differences(), 0);
    assert!(!run.report(&due()), "the last aim was not tried");
}

/// A run asked for few cases is not to blame for what they did not meet, but for every
/// difference.
#[test]
fn few_cases_need_not_meet_all() {
    let report = |operation: &Operation, few: bool| {
        let mut run = Run::of(operation).silent().of_few(few);
        run.source(GENERATED, 0..500, text_case);
        run.report(&due())
    };
    assert!(report(&GOOD, true));
    assert!(!report(&GOOD, false), "no aim and not every number was met");
    for (what, archive) in PLANTED.iter().take(2).copied() {
        assert!(!report(&Operation { archive, ..GOOD }, true), "{what} is not seen");
    }
}

/// The differences over twice as many texts as there are aims.
fn differences(operation: &Operation) -> u64 {
    let aims = aims();
    let mut run = Run::of(operation).silent();
    run.aimed("aimed", 0..2 * aims.len() as u64, &aims);
    run.differences()
}

/// A reader that takes one spelling for another.
fn taking(text: &[u8], from: &[u8], to: &[u8]) -> Vec<u8> {
    let (mut taken, mut at) = (Vec::new(), 0);
    while at < text.len() {
        if text[at..].starts_with(from) {
            taken.extend(to);
            at += from.len();
        } else {
            taken.push(text[at]);
            at += 1;
        }
    }
    taken
}

macro_rules! taken_for {
    ($from:expr, $to:expr) => {
        |text, manner, room| text_to_file(&taking(text, $from, $to), manner, room).packed()
    };
}

/// Faults of a program, each in a wrapped answer or a wrapped input.
const PLANTED: [(&str, Archive); 20] = [
    ("27 answered as 26", |text, manner, room| {
        let mut answer = text_to_file(text, manner, room);
        answer.number -= u8::from(answer.number == 27);
        answer.packed()
    }),
    ("28 one line early", |text, manner, room| {
        let mut answer = text_to_file(text, manner, room);
        answer.place -= usize::from(answer.number == 28);
        answer.packed()
    }),
    ("only the lowest bit of the manner", |text, manner, room| {
        text_to_file(text, manner & 1, room).packed()
    }),
    ("only the lowest byte of the manner", |text, manner, room| {
        text_to_file(text, manner & 255, room).packed()
    }),
    ("manner 0 for manner 1", |text, manner, room| {
        text_to_file(text, if manner == 1 { 0 } else { manner }, room).packed()
    }),
    ("a refusal that writes", |text, manner, room| {
        let answer = text_to_file(text, manner, room);
        if answer.number == 25 {
            room.iter_mut().take(1).for_each(|byte| *byte = b'M');
        }
        answer.packed()
    }),
    ("a text changed", |text, manner, room| {
        let answer = text_to_file(text, manner, room);
        text.iter_mut().filter(|byte| **byte == b'\r').for_each(|byte| *byte = b'\n');
        answer.packed()
    }),
    ("\\400 taken for \\000", taken_for!(b"\\400", b"\\000")),
    ("+1 taken for 1", taken_for!(b"+1", b"1")),
    ("65536 taken for 65535", taken_for!(b"65536", b"65535")),
    ("4294967296 taken for 0", taken_for!(b"4294967296", b"0")),
    ("268435456 taken for 268435455", taken_for!(b"268435456", b"268435455")),
    ("CR CR taken for CR", taken_for!(b"\r\r", b"\r")),
    ("Major taken for major", taken_for!(b"\"Major\"", b"\"major\"")),
    ("type 47 taken", taken_for!(b"Unknown_meta_event, 47,", b"Unknown_meta_event, 48,")),
    ("key 8 taken", taken_for!(b"Key_signature, 8,", b"Key_signature, 7,")),
    ("-0 refused", taken_for!(b"-0,", b"--0,")),
    ("a tab is no blank", taken_for!(b"\t", b"x")),
    ("; begins no comment", taken_for!(b";", b"x")),
    ("all up to End_of_file counts", |text, manner, room| {
        let last = b"0, 0, End_of_file\n";
        let end = text.windows(last.len()).position(|part| part == last);
        let text = end.map_or(&*text, |end| &text[..end + last.len()]);
        text_to_file(text, manner, room).packed()
    }),
];

#[test]
fn planted_faults_are_seen() {
    for (what, archive) in PLANTED {
        let count = differences(&Operation { archive, ..GOOD });
        println!("{what}: {count} differences");
        assert!(count > 0, "{what} is not seen");
    }
}

/// What the aims say is due is said by neither program: a fault of both is seen.
#[test]
fn a_fault_of_both_is_seen() {
    fn second(text: &[u8], manner: u32, room: &mut [u8]) -> Answer {
        let mut answer = text_to_file(text, manner, room);
        answer.number -= u8::from(answer.number == 27);
        answer
    }
    let archive: Archive = |text, manner, room| second(text, manner, room).packed();
    assert!(differences(&Operation { second, archive, ..GOOD }) > 0);
}
