//! Runs over every byte behind a delta: that the second program gives the answers due, and
//! that each fault planted in one program or in both is seen.

use std::cell::{Cell, RefCell};

use second::compare::{Archive, Operation, Second};
use second::every_first_byte::{files, files_of, nothing, short_file, text, Track};
use second::known::Known;
use second::operations::{check, file_to_text, text_to_file, tidy};
use second::refusal::Answer;
use second::run::Run;

thread_local! {
    /// The program with a fault. A program is a function and cannot carry it along.
    static PLANTED: Cell<Second> = const { Cell::new(CHECK) };
    static READER: RefCell<Reader> = const { RefCell::new(READS) };
}

fn planted(input: &[u8], manner: u32, room: &mut [u8]) -> Answer {
    PLANTED.get()(input, manner, room)
}

const PLANTED_ARCHIVE: Archive = |input, manner, room| planted(input, manner, room).packed();

const CHECK: Second = |file, _, _| check(file);
const TIDY: Second = |file, _, room| tidy(file, room);
const TEXT: Second = |file, _, room| file_to_text(file, room);
const READ: Second = |file, _, _| READER.with_borrow(|reader| reader.check(file));

/// An operation, room that is always enough, and what it makes of a good file.
type On = (Second, fn(usize) -> usize, fn(&Track) -> Vec<u8>);

const ON_CHECK: On = (CHECK, |_| 0, nothing);
const ON_TIDY: On = (TIDY, |_| 0, short_file);
const ON_TEXT: On = (TEXT, |length| 25 * length, text);

/// Of a program beside the planted one.
fn differences(
    second: Second,
    enough: fn(usize) -> usize,
    cases: impl Iterator<Item = Known>,
) -> u64 {
    let operation = Operation { enough, ..Operation::new("operation", second, PLANTED_ARCHIVE) };
    let mut run = Run::of(&operation).silent();
    run.known("first bytes", cases);
    run.differences()
}

#[test]
fn every_first_byte_has_its_answer() {
    for (second, enough, made) in [ON_CHECK, ON_TIDY, ON_TEXT] {
        PLANTED.set(second);
        assert_eq!(differences(second, enough, files(made)), 0);
    }
}

/// What a byte behind a delta is to a reader. Whether it begins an F0 or an F7 event makes
/// no difference to check.
#[derive(Clone, Copy, Debug, PartialEq)]
enum Kind {
    Data,
    /// With so many data bytes.
    Channel(usize),
    Exclusive,
    Meta,
    Refused,
}

/// A checker by one table, as the proved program is to be, in which faults are planted. It
/// knows only what these files have.
struct Reader {
    kinds: [Kind; 256],
    /// The byte whose event wrongly leaves the status in force.
    kept_over: Option<u8>,
    /// Of an event without a status the byte is wrongly taken for it, to count its data.
    counts_by_byte: bool,
    /// And so it is left in force.
    leaves_byte: bool,
}

const READS: Reader =
    Reader { kinds: KINDS, kept_over: None, counts_by_byte: false, leaves_byte: false };

const KINDS: [Kind; 256] = {
    let mut kinds = [Kind::Data; 256];
    let mut byte = 0x80;
    while byte < 256 {
        kinds[byte] = match byte {
            0xC0..=0xDF => Kind::Channel(1),
            0x80..=0xEF => Kind::Channel(2),
            0xF0 | 0xF7 => Kind::Exclusive,
            0xFF => Kind::Meta,
            _ => Kind::Refused,
        };
        byte += 1;
    }
    kinds
};

/// What is left to read of a track.
type Rest<'a> = &'a [u8];

fn take(rest: &mut Rest) -> Result<u8, u8> {
    let (first, others) = rest.split_first().ok_or(6)?;
    *rest = others;
    Ok(*first)
}

fn number(rest: &mut Rest) -> Result<usize, u8> {
    let mut number = 0;
    for _ in 0..4 {
        let byte = take(rest)?;
        number = number << 7 | usize::from(byte & 0x7F);
        if byte < 0x80 {
            return Ok(number);
        }
    }
    Err(5)
}

impl Reader {
    fn check(&self, file: &[u8]) -> Answer {
        let refused =
            |number, left: Rest| Answer { number, place: file.len() - left.len(), length: 0 };
        let (mut rest, mut in_force) = (&file[22..], None);
        loop {
            let event = rest;
            match self.event(&mut rest, &mut in_force) {
                Err(number) => return refused(number, event),
                Ok(true) if rest.is_empty() => return Answer::success(0),
                Ok(true) => return refused(12, rest),
                Ok(false) => {}
            }
        }
    }

    /// Whether it is End_track, or the number of its refusal.
    fn event(&self, rest: &mut Rest, in_force: &mut Option<u8>) -> Result<bool, u8> {
        number(rest)?;
        let byte = take(rest)?;
        let (ends, body) = match self.kinds[usize::from(byte)] {
            Kind::Refused => return Err(8),
            Kind::Data => return self.without_status(byte, rest, in_force),
            Kind::Channel(count) => {
                *in_force = Some(byte);
                return data(count, rest);
            }
            Kind::Exclusive => (false, number(rest)?),
            Kind::Meta => match take(rest)? {
                0x80.. => return Err(8),
                kind => (kind == 0x2F, number(rest)?),
            },
        };
        for _ in 0..body {
            take(rest)?;
        }
        *in_force = in_force.filter(|_| self.kept_over == Some(byte));
        Ok(ends)
    }

    fn without_status(
        &self,
        byte: u8,
        rest: &mut Rest,
        in_force: &mut Option<u8>,
    ) -> Result<bool, u8> {
        let status = in_force.ok_or(8)?;
        let counted = if self.counts_by_byte { byte } else { status };
        if self.leaves_byte {
            *in_force = Some(byte);
        }
        data(1, &mut &[byte][..])?;
        match self.kinds[usize::from(counted)] {
            Kind::Channel(2) => data(1, rest),
            _ => Ok(false),
        }
    }
}

/// So many data bytes of a channel; no End_track.
fn data(count: usize, rest: &mut Rest) -> Result<bool, u8> {
    for _ in 0..count {
        if take(rest)? > 0x7F {
            return Err(9);
        }
    }
    Ok(false)
}

/// Without a fault the checker by a table has all answers, so that what is seen of one with
/// a fault is the fault.
#[test]
fn the_checker_by_a_table_has_every_answer() {
    PLANTED.set(READ);
    assert_eq!(differences(CHECK, |_| 0, files(nothing)), 0);
}

#[test]
fn any_wrong_entry_of_the_table_is_seen() {
    const OTHERS: [Kind; 8] = [
        Kind::Data,
        Kind::Channel(0),
        Kind::Channel(1),
        Kind::Channel(2),
        Kind::Channel(3),
        Kind::Exclusive,
        Kind::Meta,
        Kind::Refused,
    ];
    PLANTED.set(READ);
    let mut planted = 0;
    for byte in 0..=255 {
        let right = KINDS[usize::from(byte)];
        for wrong in OTHERS.into_iter().filter(|kind| *kind != right) {
            READER.with_borrow_mut(|reader| reader.kinds[usize::from(byte)] = wrong);
            let count = differences(CHECK, |_| 0, files_of(byte, nothing).into_iter());
            assert!(count > 0, "{byte:02X} as {wrong:?} is not seen");
            planted += 1;
        }
        READER.with_borrow_mut(|reader| reader.kinds[usize::from(byte)] = right);
    }
    assert_eq!(planted, 256 * 7);
}

/// A fault is seen when the archive has it, and when both programs do.
fn seen(what: &str, (second, enough, made): On, byte: u8) {
    for second in [second, planted] {
        let count = differences(second, enough, files_of(byte, made).into_iter());
        println!("{what}: {count} differences");
        assert!(count > 0, "{what} is not seen");
    }
}

type Fault = fn(&mut Reader);

/// Each with the byte in whose files it must be seen.
const TABLE_FAULTS: [(&str, u8, Fault); 17] = [
    ("C0 with two data bytes", 0xC0, |reader| reader.kinds[0xC0] = Kind::Channel(2)),
    ("DF with two data bytes", 0xDF, |reader| reader.kinds[0xDF] = Kind::Channel(2)),
    ("E0 with one data byte", 0xE0, |reader| reader.kinds[0xE0] = Kind::Channel(1)),
    ("EF refused", 0xEF, |reader| reader.kinds[0xEF] = Kind::Refused),
    ("F4 good with no data", 0xF4, |reader| reader.kinds[0xF4] = Kind::Channel(0)),
    ("F4 good with data", 0xF4, |reader| reader.kinds[0xF4] = Kind::Exclusive),
    ("F8 good with no data", 0xF8, |reader| reader.kinds[0xF8] = Kind::Channel(0)),
    ("F8 good with data", 0xF8, |reader| reader.kinds[0xF8] = Kind::Exclusive),
    ("FE as a meta", 0xFE, |reader| reader.kinds[0xFE] = Kind::Meta),
    ("7F as a status", 0x7F, |reader| reader.kinds[0x7F] = Kind::Channel(2)),
    ("80 as a data byte", 0x80, |reader| reader.kinds[0x80] = Kind::Data),
    ("status kept over a meta", 0x00, |reader| reader.kept_over = Some(0xFF)),
    ("status kept over F0", 0x7F, |reader| reader.kept_over = Some(0xF0)),
    ("status kept over F7", 0x40, |reader| reader.kept_over = Some(0xF7)),
    ("status kept over F7 at hand", 0xF7, |reader| reader.kept_over = Some(0xF7)),
    ("data counted by the byte", 0x3C, |reader| reader.counts_by_byte = true),
    ("the byte left in force", 0x3C, |reader| reader.leaves_byte = true),
];

#[test]
fn planted_faults_of_the_table_are_seen() {
    PLANTED.set(READ);
    for (what, byte, fault) in TABLE_FAULTS {
        READER.set(READS);
        READER.with_borrow_mut(fault);
        seen(what, ON_CHECK, byte);
    }
}

/// These bytes, with some for others wherever they stand.
fn changed(bytes: &[u8], from: &[u8], to: &[u8]) -> Vec<u8> {
    let mut bytes = bytes.to_vec();
    for place in 0..bytes.len() {
        if bytes[place..].starts_with(from) {
            bytes[place..][..to.len()].copy_from_slice(to);
        }
    }
    bytes
}

/// A program that takes some bytes for others.
macro_rules! takes {
    ($operation:ident, $from:expr, $to:expr) => {
        |file, manner, room| $operation(&changed(file, &$from, &$to), manner, room)
    };
}

/// Such as check cannot show: the data of the event at hand is 21, or 45 and F7.
const WRITTEN_FAULTS: [(&str, u8, On, Second); 8] = [
    ("F7 taken for F0", 0xF7, ON_TEXT, takes!(TEXT, [0xF7, 0x02], [0xF0, 0x02])),
    ("F7 tidied to F0", 0xF7, ON_TIDY, takes!(TIDY, [0xF7, 0x02], [0xF0, 0x02])),
    ("F0 taken for F7", 0xF0, ON_TEXT, takes!(TEXT, [0xF0, 0x02], [0xF7, 0x02])),
    ("90 taken for 80", 0x90, ON_TEXT, takes!(TEXT, [0x90, 0x21], [0x80, 0x21])),
    ("CF taken for DF", 0xCF, ON_TEXT, takes!(TEXT, [0xCF, 0x21], [0xDF, 0x21])),
    ("EF taken for EE", 0xEF, ON_TIDY, takes!(TIDY, [0xEF, 0x21], [0xEE, 0x21])),
    ("the channel taken from the byte", 0x05, ON_TEXT, |file, manner, room| {
        let answer = TEXT(file, manner, room);
        let other = changed(room, b"Control_c, 3, 5, 67", b"Control_c, 5, 5, 67");
        room.copy_from_slice(&other);
        answer
    }),
    ("every status written", 0x05, ON_TIDY, |file, _, room| {
        let mut lines = vec![0; 25 * file.len()];
        match file_to_text(file, &mut lines) {
            Answer { number: 0, length, .. } => text_to_file(&lines[..length], 0, room),
            refused => refused,
        }
    }),
];

#[test]
fn planted_faults_of_what_is_written_are_seen() {
    for (what, byte, on, fault) in WRITTEN_FAULTS {
        PLANTED.set(fault);
        seen(what, on, byte);
    }
}
