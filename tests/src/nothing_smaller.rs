//! Wish 10, asked of a program: for any accepted file the manner 1 file of its piece is never
//! longer, an accepted file of that piece that is as long has its very bytes, and tidying
//! twice is tidying once. `faults` looks at one file; the sources are in the files beside.

mod all;
mod beside;
mod near;
mod small;
mod source;

use std::collections::BTreeSet;
use std::fmt;

use crate::compare::Fenced;
use crate::generate::Rng;
use crate::refusal::Answer;

pub use all::all;
pub use beside::beside;
pub use near::near;
pub use source::{cases, generated, outside, Source};

/// What is asked: the proved archive, the second program or, in the tests, a wrong one. Both
/// answer packed.
pub struct Program {
    pub check: fn(file: &mut [u8]) -> u64,
    pub tidy: fn(file: &mut [u8], room: &mut [u8]) -> u64,
}

/// What can be wrong with a file's tidying.
#[derive(Clone, Copy, Debug, PartialEq, Eq, PartialOrd, Ord)]
pub enum Fault {
    Refused,
    Accepted,
    OtherAnswer,
    Longer,
    RoomRefused,
    OtherBytes,
    NotMannerOne,
    TwiceIsNotOnce,
    InputChanged,
    RoomChanged,
    NotByTheChange,
    NotTheOnlyLeast,
}

impl fmt::Display for Fault {
    fn fmt(&self, out: &mut fmt::Formatter) -> fmt::Result {
        out.write_str(match self {
            Fault::Refused => "a good file is refused",
            Fault::Accepted => "a bad file is not refused",
            Fault::OtherAnswer => "another answer than the one due",
            Fault::Longer => "longer than the file",
            Fault::RoomRefused => "a room as long as the file is refused",
            Fault::OtherBytes => "as long as the file, but of other bytes",
            Fault::NotMannerOne => "not the manner 1 file",
            Fault::TwiceIsNotOnce => "tidied twice is not tidied once",
            Fault::InputChanged => "the input changed",
            Fault::RoomChanged => "the room changed past what was written",
            Fault::NotByTheChange => "not shorter by the bytes of the change",
            Fault::NotTheOnlyLeast => "not the only one of the least length",
        })
    }
}

/// The larger room is longer than the file by up to so many bytes.
const LARGER: usize = 64;

/// All that is wrong with how a program tidies `file`, which must be accepted and have the
/// manner 1 file `due`; `rng` fills the rooms and what lies round them.
pub fn faults(program: &Program, rng: &mut Rng, file: &[u8], due: &[u8]) -> BTreeSet<Fault> {
    let mut asked = Asked { program, file, due, found: BTreeSet::new() };
    let mut original = Fenced::new(rng, file);
    asked.check(&mut original);
    let larger = file.len() + 1 + rng.index(LARGER);
    let sizes = [file.len(), 0, due.len().saturating_sub(1), due.len(), larger];
    let mut rooms: Vec<Fenced<u8>> = sizes.map(|size| room(rng, size)).to_vec();
    let mut once: Vec<Tidied> = Vec::new();
    for room in &rooms {
        once.push(asked.tidy_once(&mut original, room));
    }
    // A room that already holds what is to be written.
    let held = once[0].room.clone();
    once.push(asked.tidy_once(&mut original, &held));
    rooms.push(held);
    // What was refused cannot be tidied again.
    if let Some(tidied) = once[0].file() {
        let mut tidied = Fenced::new(rng, tidied);
        for (room, once) in rooms.iter().zip(&once) {
            let twice = asked.tidy(&mut tidied, room);
            asked.found_if(Fault::TwiceIsNotOnce, twice != *once);
        }
    }
    asked.found
}

fn room(rng: &mut Rng, size: usize) -> Fenced<u8> {
    let noise = rng.noise(size);
    Fenced::new(rng, &noise)
}

/// What a program answers to any file in a room of this size, and what the room then holds.
fn tidied_in(program: &Program, rng: &mut Rng, file: &[u8], size: usize) -> (Answer, Vec<u8>) {
    let (mut given, mut room) = (Fenced::new(rng, file), room(rng, size));
    let answer = (program.tidy)(given.inner(), room.inner());
    (Answer::unpacked(answer), room.view().to_vec())
}

/// What tidying left: its answer, and the room with what lies round it.
#[derive(PartialEq)]
struct Tidied {
    answer: u64,
    room: Fenced<u8>,
}

impl Tidied {
    /// How much was written, if the room has so much.
    fn written(&self) -> usize {
        match Answer::unpacked(self.answer) {
            Answer { number: 0, length, .. } => length.min(self.room.view().len()),
            _ => 0,
        }
    }

    fn file(&self) -> Option<&[u8]> {
        let written = Answer::unpacked(self.answer).number == 0;
        written.then(|| &self.room.view()[..self.written()])
    }
}

/// A program, what it is asked about, and what was found so far.
struct Asked<'a> {
    program: &'a Program,
    file: &'a [u8],
    due: &'a [u8],
    found: BTreeSet<Fault>,
}

impl Asked<'_> {
    fn found_if(&mut self, fault: Fault, wrong: bool) {
        if wrong {
            self.found.insert(fault);
        }
    }

    fn check(&mut self, given: &mut Fenced<u8>) {
        let before = given.clone();
        let answer = (self.program.check)(given.inner());
        self.found_if(Fault::Refused, answer != Answer::success(0).packed());
        self.found_if(Fault::InputChanged, *given != before);
        *given = before;
    }

    /// Tidies what is given in a copy of the room.
    fn tidy(&mut self, given: &mut Fenced<u8>, room: &Fenced<u8>) -> Tidied {
        let before = given.clone();
        let mut room = room.clone();
        let answer = (self.program.tidy)(given.inner(), room.inner());
        self.found_if(Fault::InputChanged, *given != before);
        // So that one change is not met again in every later call.
        *given = before;
        Tidied { answer, room }
    }

    /// Tidies the file itself: here all is known that is due.
    fn tidy_once(&mut self, given: &mut Fenced<u8>, before: &Fenced<u8>) -> Tidied {
        let tidied = self.tidy(given, before);
        let size = before.view().len();
        let answer = Answer::unpacked(tidied.answer);
        let due = match size < self.due.len() {
            true => Answer::room_needed(self.due.len()),
            false => Answer::success(self.due.len()),
        };
        self.found_if(Fault::OtherAnswer, answer != due);
        self.found_if(Fault::Refused, ![0, 14].contains(&answer.number));
        self.found_if(Fault::Longer, answer.length > self.file.len());
        self.found_if(Fault::RoomRefused, answer.number == 14 && size >= self.file.len());
        if let Some(made) = tidied.file() {
            let as_long = made.len() == self.file.len();
            self.found_if(Fault::OtherBytes, as_long && made != self.file);
            self.found_if(Fault::NotMannerOne, made != self.due);
        }
        let rest = tidied.written()..;
        let past = tidied.room.view()[rest.clone()] != before.view()[rest];
        let round = tidied.room.fences() != before.fences();
        self.found_if(Fault::RoomChanged, past || round);
        tidied
    }
}
