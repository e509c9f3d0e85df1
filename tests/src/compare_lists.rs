//! Listing the tracks, of the proved archive beside the second program's: on the same file
//! and lists both must give the same answer and leave the same numbers.

use crate::compare::{Compared, Difference, Fenced, Met, Room};
use crate::generate::{room, Rng};
use crate::refusal::Answer;

/// End_track Times, event counts and padding.
pub const LISTS: [&str; 3] = ["end_times", "event_counts", "padding"];

pub type SecondListing = fn(file: &[u8], lists: [&mut [u32]; 3]) -> Answer;
pub type ArchiveListing = fn(file: &mut [u8], lists: [&mut [u32]; 3]) -> u64;

/// The listing as the two programs have it.
pub struct Listing {
    pub second: SecondListing,
    /// Answers packed, so that a place or length out of bounds shows too.
    pub archive: ArchiveListing,
}

impl Compared for Listing {
    fn name(&self) -> &'static str {
        "list_tracks"
    }

    fn compare(&self, seed: u64, file: &[u8]) -> Result<Met, Difference> {
        // Another stream than the file of the same seed.
        let rng = &mut Rng::new(seed ^ 1 << 63);
        let asked = (self.second)(file, [&mut [], &mut [], &mut []]);
        let lengths = match asked.length {
            // Refused files get lists too, in which a writer in haste would show.
            0 => [0; 3].map(|_| room(rng, counted(file))),
            count => lengths(rng, count),
        };
        self.compare_in(rng, file, lengths, asked.length)
    }
}

impl Listing {
    /// Runs both with lists of these lengths, beside the number of tracks (0 if nothing is
    /// to be written); `rng` chooses only where file and lists lie, and what the lists and
    /// the numbers round them hold before the call.
    pub fn compare_in(
        &self,
        rng: &mut Rng,
        file: &[u8],
        lengths: [usize; 3],
        tracks: usize,
    ) -> Result<Met, Difference> {
        let mut given = Fenced::new(rng, file);
        let fences = given.fences();
        let mut due = lengths.map(|length| Fenced::list(rng, length));
        let mut made = due.clone();
        let second = (self.second)(file, due.each_mut().map(Fenced::inner)).packed();
        let archive = (self.archive)(given.inner(), made.each_mut().map(Fenced::inner));

        let differing = (0..3).find(|list| made[*list].all != due[*list].all);
        let what = if archive != second {
            "answers"
        } else if given.inner() != file || given.fences() != fences {
            "input written"
        } else if let Some(list) = differing {
            LISTS[list]
        } else {
            let Answer { number, place, .. } = Answer::unpacked(second);
            let lists = lengths.map(|length| Room::of(length, tracks, 0));
            let shortest = lengths.into_iter().min().unwrap_or(0);
            let room = Room::of(shortest, tracks, 0);
            return Ok(Met { number, place, room, manner: 0, lists: Some(lists) });
        };
        let lent = match differing {
            Some(list) => format!("lists of {lengths:?}; {}", first_of(due, made, list)),
            None => format!("lists of {lengths:?}"),
        };
        Err(Difference { what, second, archive, lent })
    }
}

/// The first entry of a list, or of what lies round it, in which the two differ.
fn first_of(mut due: [Fenced<u32>; 3], mut made: [Fenced<u32>; 3], list: usize) -> String {
    let (due, made) = (due[list].inner(), made[list].inner());
    let name = LISTS[list];
    match due.iter().zip(&*made).position(|(due, made)| due != made) {
        Some(at) => format!("{name}[{at}]: second {}, archive {}", due[at], made[at]),
        None => format!("outside {name}"),
    }
}

/// The tracks that a refused file counts, if that is not too many; else some.
fn counted(file: &[u8]) -> usize {
    const MOST: usize = 256;
    let count =
        file.get(10..12).map_or(0, |bytes| usize::from(bytes[0]) << 8 | usize::from(bytes[1]));
    if (1..MOST).contains(&count) {
        count
    } else {
        4
    }
}

/// Lengths for so many tracks: exact, larger, and too short in each list singly, in two, in
/// all.
fn lengths(rng: &mut Rng, tracks: usize) -> [usize; 3] {
    let short = |rng: &mut Rng| match rng.below(3) {
        0 => 0,
        1 => tracks - 1,
        _ => rng.index(tracks),
    };
    let larger = |rng: &mut Rng| tracks + rng.between(1, 64) as usize;
    let enough = |rng: &mut Rng| if rng.one_in(2) { tracks } else { larger(rng) };
    let mut lengths = match rng.below(12) {
        0 => [tracks; 3],
        1..=3 => [0; 3].map(|_| larger(rng)),
        4 => [0; 3].map(|_| enough(rng)),
        5..=7 => [short(rng), enough(rng), enough(rng)],
        8 => [enough(rng), short(rng), short(rng)],
        9 => rng.pick(&[[0; 3], [tracks - 1; 3]]),
        10 => [0; 3].map(|_| short(rng)),
        _ => [0; 3].map(|_| room(rng, tracks)),
    };
    // The one that is unlike the others stands at any place.
    lengths.rotate_right(rng.index(3));
    lengths
}
