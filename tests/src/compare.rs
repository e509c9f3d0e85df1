//! An operation of the proved archive beside the second program's: on the same
//! input, manner and room both must give the same answer and leave the same
//! bytes. Listing the tracks, which lends lists, is in `compare_lists`.

use std::fmt;
use std::ops::Range;

use crate::generate::{manner, room, Rng};
use crate::refusal::Answer;

pub type Second = fn(input: &[u8], manner: u32, room: &mut [u8]) -> Answer;
pub type Archive = fn(input: &mut [u8], manner: u32, room: &mut [u8]) -> u64;

/// An operation as the two programs have it; those that take no manner or no
/// room pass them over.
pub struct Operation {
    pub name: &'static str,
    pub second: Second,
    /// Answers packed, so that a place or length out of bounds shows too.
    pub archive: Archive,
    /// For input of a length, a room that is always enough, in which a program may go
    /// another way; 0 if none is known.
    pub enough: fn(usize) -> usize,
    /// Whether the manner counts.
    pub manners: bool,
}

/// What a run compares.
pub trait Compared {
    fn name(&self) -> &'static str;

    /// Runs both on the same input; `seed` chooses what is lent.
    fn compare(&self, seed: u64, input: &[u8]) -> Result<Met, Difference>;

    /// As `Operation::enough` and `Operation::manners`.
    fn enough(&self, _length: usize) -> usize {
        0
    }

    fn manners(&self) -> bool {
        false
    }
}

/// What the two did alike.
#[derive(Clone, Copy, Debug, PartialEq, Eq)]
pub struct Met {
    pub number: u8,
    pub place: usize,
    pub room: Room,
    pub manner: u32,
    /// Of a listing: the room that each of its lists is; `room` is the shortest one's.
    pub lists: Option<[Room; 3]>,
}

impl Met {
    /// Without its length.
    pub fn answer(&self) -> Answer {
        Answer { number: self.number, place: self.place, length: 0 }
    }
}

/// The lent room beside the length needed.
#[derive(Clone, Copy, Debug, PartialEq, Eq, PartialOrd, Ord)]
pub enum Room {
    Exact,
    OneShort,
    Larger,
    Zero,
    /// Too small in another way than one byte short or zero.
    Smaller,
    /// Nothing was to be written, whatever the room.
    Unused,
    /// As much as is always enough, whether or not something was to be written.
    Enough,
    /// One byte less than that.
    UnderEnough,
}

impl Room {
    /// Those that an operation which writes must be tried in.
    pub const DUE: [Room; 4] = [Room::Exact, Room::OneShort, Room::Larger, Room::Zero];

    /// `enough` is 0 if no size is known that is always enough.
    pub(crate) fn of(room: usize, needed: usize, enough: usize) -> Room {
        match room {
            _ if enough > 0 && room == enough => Room::Enough,
            _ if enough > 0 && room + 1 == enough => Room::UnderEnough,
            _ if needed == 0 => Room::Unused,
            0 => Room::Zero,
            _ if room == needed => Room::Exact,
            _ if room > needed => Room::Larger,
            _ if room + 1 == needed => Room::OneShort,
            _ => Room::Smaller,
        }
    }
}

/// How the two differ. Answers are packed, the second program's first.
#[derive(Debug, PartialEq, Eq)]
pub struct Difference {
    pub what: &'static str,
    pub second: u64,
    pub archive: u64,
    /// Manner and room, or the lists.
    pub lent: String,
}

impl Operation {
    /// One whose manner does not count, and no room is known to be always enough.
    pub const fn new(name: &'static str, second: Second, archive: Archive) -> Operation {
        Operation { name, second, archive, enough: |_| 0, manners: false }
    }

    /// Runs both on the same input; `seed` chooses manner and room.
    pub fn compare(&self, seed: u64, input: &[u8]) -> Result<Met, Difference> {
        // Another stream than the input of the same seed.
        let rng = &mut Rng::new(seed ^ 1 << 63);
        let manner = manner(rng);
        let asked = (self.second)(input, manner, &mut []);
        let enough = (self.enough)(input.len());
        let room = match asked.number {
            _ if enough > 0 && rng.one_in(3) => enough - rng.index(2),
            0 | 14 => room(rng, asked.length),
            // Refused input gets room too, in which a writer in haste would show.
            _ => room(rng, input.len().min(REFUSED_ROOM)),
        };
        self.compare_in(rng, input, manner, room, asked.length)
    }

    /// Runs both in this manner and room, beside the room needed (0 if nothing is to
    /// be written); `rng` chooses only where the bytes lie, and what the room and the
    /// bytes round it hold before the call.
    pub fn compare_in(
        &self,
        rng: &mut Rng,
        input: &[u8],
        manner: u32,
        room: usize,
        needed: usize,
    ) -> Result<Met, Difference> {
        let mut given = Fenced::new(rng, input);
        let fences = given.fences();
        let lent = rng.noise(room);
        let mut due = Fenced::new(rng, &lent);
        let mut made = due.clone();
        let second = (self.second)(input, manner, due.inner()).packed();
        let archive = (self.archive)(given.inner(), manner, made.inner());

        let what = if archive != second {
            "answers"
        } else if given.inner() != input || given.fences() != fences {
            "input written"
        } else if made.all != due.all {
            "room or the bytes round it"
        } else {
            let Answer { number, place, .. } = Answer::unpacked(second);
            let room = Room::of(room, needed, (self.enough)(input.len()));
            return Ok(Met { number, place, room, manner, lists: None });
        };
        let lent = format!("manner {manner}, room {room}");
        Err(Difference { what, second, archive, lent })
    }
}

impl Compared for Operation {
    fn name(&self) -> &'static str {
        self.name
    }

    fn compare(&self, seed: u64, input: &[u8]) -> Result<Met, Difference> {
        Operation::compare(self, seed, input)
    }

    fn enough(&self, length: usize) -> usize {
        (self.enough)(length)
    }

    fn manners(&self) -> bool {
        self.manners
    }
}

impl fmt::Display for Difference {
    fn fmt(&self, out: &mut fmt::Formatter) -> fmt::Result {
        let shown = |packed: u64| {
            let Answer { number, place, length } = Answer::unpacked(packed);
            format!("{number} at {place}, length {length} ({packed:#018x})")
        };
        writeln!(out, "{} ({})", self.what, self.lent)?;
        writeln!(out, "    second:  {}", shown(self.second))?;
        write!(out, "    archive: {}", shown(self.archive))
    }
}

/// About as much room as refused input is given, to keep the run short.
const REFUSED_ROOM: usize = 4096;

const FENCE: usize = 16;
/// The fence before the bytes is up to so many longer, for any alignment.
const SHIFTS: usize = 8;

/// Bytes, or numbers, with a fence of random ones on either side, at any alignment.
#[derive(Clone, PartialEq)]
pub(crate) struct Fenced<T> {
    pub(crate) all: Vec<T>,
    inner: Range<usize>,
}

impl Fenced<u8> {
    pub(crate) fn new(rng: &mut Rng, inner: &[u8]) -> Fenced<u8> {
        let start = FENCE + rng.index(SHIFTS);
        let all = [&rng.noise(start), inner, &rng.noise(FENCE)].concat();
        Fenced { all, inner: start..start + inner.len() }
    }
}

impl Fenced<u32> {
    /// So many random numbers to be lent.
    pub(crate) fn list(rng: &mut Rng, length: usize) -> Fenced<u32> {
        let start = FENCE + rng.index(SHIFTS);
        let noise = rng.noise(4 * (start + length + FENCE));
        let number = |bytes: &[u8]| u32::from_le_bytes([bytes[0], bytes[1], bytes[2], bytes[3]]);
        Fenced { all: noise.chunks(4).map(number).collect(), inner: start..start + length }
    }
}

impl<T: Clone> Fenced<T> {
    pub(crate) fn inner(&mut self) -> &mut [T] {
        &mut self.all[self.inner.clone()]
    }

    /// The same, to look at.
    pub(crate) fn view(&self) -> &[T] {
        &self.all[self.inner.clone()]
    }

    pub(crate) fn fences(&self) -> [Vec<T>; 2] {
        [self.all[..self.inner.start].to_vec(), self.all[self.inner.end..].to_vec()]
    }
}

#[test]
fn rooms_have_their_kind() {
    use Room::{Enough, Exact, Larger, OneShort, Smaller, UnderEnough, Unused, Zero};
    let kinds = [0, 1, 24, 25, 26, 27, 90].map(|room| Room::of(room, 26, 0));
    assert_eq!(kinds, [Zero, Smaller, Smaller, OneShort, Exact, Larger, Larger]);
    assert_eq!([0, 9].map(|room| Room::of(room, 0, 0)), [Unused; 2]);
    let kinds = [26, 98, 99, 100, 101].map(|room| Room::of(room, 26, 100));
    assert_eq!(kinds, [Exact, Larger, UnderEnough, Enough, Larger]);
    assert_eq!([98, 99, 100].map(|room| Room::of(room, 0, 100)), [Unused, UnderEnough, Enough]);
}

#[test]
fn a_fence_stands_on_either_side() {
    let rng = &mut Rng::new(0);
    let (mut shifts, mut fences) = (Vec::new(), Vec::new());
    for _ in 0..100 {
        let mut fenced = Fenced::new(rng, b"inner");
        assert_eq!(fenced.inner(), b"inner");
        assert_eq!(fenced.all.len() - fenced.inner.end, FENCE);
        shifts.push(fenced.inner.start - FENCE);
        fences.extend(fenced.fences());
    }
    shifts.sort();
    shifts.dedup();
    assert!(shifts.into_iter().eq(0..SHIFTS));
    fences.sort();
    fences.dedup();
    assert_eq!(fences.len(), 200, "a fence was met twice");
}
