//! Lent room: exact, one short, larger, none; what is not written stays.

mod common;

use second::fold::fold;
use second::generate::{
    damaged_table_case, file_case, manner, many_tracks_case, random_table_case, room, saved_case,
    text_case, Rng,
};
use second::operations::{file_to_text, list_tracks, text_to_file, tidy};
use second::refusal::Answer;
use second::sheet::{self, file_to_sheet};
use second::table::{self, sheet_to_text};

const SEEDS: u64 = 3_000;
const GUARD: u8 = 0xA5;
/// What no list of these files has.
const UNTOUCHED: u32 = 0xA5A5_A5A5;

/// Tries an operation in rooms of every sort, and gives its answer with none.
fn try_rooms(seed: u64, operation: impl Fn(&mut [u8]) -> Answer) -> Answer {
    let asked = operation(&mut []);
    assert_ne!(asked.number, 0, "seed {seed}: every success writes something");
    let needed = asked.length;
    assert_eq!(needed > 0, asked.number == 14, "seed {seed}: {asked:?}");
    let mut whole = vec![GUARD; needed];
    if asked.number == 14 {
        assert_eq!(operation(&mut whole), Answer::success(needed), "seed {seed}: exact");
    }
    let rng = &mut Rng::new(seed);
    for size in [needed.saturating_sub(1), needed + 1, needed + 40, room(rng, needed)] {
        let mut lent = vec![GUARD; size];
        let answer = operation(&mut lent);
        if asked.number == 14 && size >= needed {
            assert_eq!(answer, Answer::success(needed), "seed {seed}: {size}");
            assert!(lent[..needed] == whole, "seed {seed}: {size}");
            assert!(lent[needed..].iter().all(|byte| *byte == GUARD), "seed {seed}: {size}");
        } else {
            assert_eq!(answer, asked, "seed {seed}: {size}");
            assert!(lent.iter().all(|byte| *byte == GUARD), "seed {seed}: {size}");
        }
    }
    asked
}

#[test]
fn rooms_for_texts_and_tidied_files() {
    let mut fits = 0;
    for seed in 0..SEEDS {
        let file = file_case(seed);
        let asked = try_rooms(seed, |room| file_to_text(&file, room));
        assert_eq!(asked.number == 14, try_rooms(seed, |room| tidy(&file, room)).number == 14);
        fits += u64::from(asked.number == 14);
    }
    println!("{fits} of {SEEDS} files written, seeds 0..{SEEDS}");
    assert!(fits > SEEDS / 4);
}

#[test]
fn rooms_for_folded_files() {
    let mut fits = 0;
    for seed in 0..SEEDS {
        let file = many_tracks_case(seed);
        let asked = try_rooms(seed, |room| fold(&file, room));
        fits += u64::from(asked.number == 14);
    }
    println!("{fits} of {SEEDS} files folded, seeds 0..{SEEDS}");
    assert!(fits > SEEDS / 2);
}

#[test]
fn rooms_for_files() {
    let mut fits = 0;
    for seed in 0..SEEDS {
        let text = text_case(seed);
        let manner = manner(&mut Rng::new(seed));
        let asked = try_rooms(seed, |room| text_to_file(&text, manner, room));
        fits += u64::from(asked.number == 14);
    }
    println!("{fits} of {SEEDS} texts written, seeds 0..{SEEDS}");
    assert!(fits > SEEDS / 4);
}

/// The room that is always enough is too.
#[test]
fn rooms_for_sheets_and_their_texts() {
    let (mut sheets, mut texts) = (0, 0);
    for seed in 0..SEEDS {
        let file = file_case(seed);
        let asked = try_rooms(seed, |room| file_to_sheet(&file, room));
        let enough = file_to_sheet(&file, &mut vec![GUARD; sheet::room_enough(file.len())]);
        assert_eq!(enough.number == 0, asked.number == 14, "seed {seed}: {enough:?}");
        sheets += u64::from(asked.number == 14);
        for table in [saved_case(seed), damaged_table_case(seed), random_table_case(seed)] {
            let room = &mut vec![GUARD; table::room_enough(table.len())];
            assert_eq!(sheet_to_text(&table, room).number, 0, "seed {seed}");
            if sheet_to_text(&table, &mut []) == Answer::success(0) {
                // Nothing was saved, and nothing is written.
                continue;
            }
            let asked = try_rooms(seed, |room| sheet_to_text(&table, room));
            assert_eq!(asked.number, 14, "seed {seed}");
            texts += 1;
        }
    }
    println!("{sheets} sheets and {texts} texts written, seeds 0..{SEEDS}");
    assert!(sheets > SEEDS / 4 && texts > 2 * SEEDS);
}

#[test]
fn rooms_for_lists() {
    for seed in 0..SEEDS {
        let file = file_case(seed);
        let asked = list_tracks(&file, &mut [], &mut [], &mut []);
        let sizes = [0, asked.length.saturating_sub(1), asked.length, asked.length + 3];
        for first in sizes {
            for second in sizes {
                for third in sizes {
                    try_lists(seed, &file, asked, [first, second, third]);
                }
            }
        }
    }
}

/// Lists of these lengths change as far as the tracks go, or not at all.
fn try_lists(seed: u64, file: &[u8], asked: Answer, lengths: [usize; 3]) {
    let mut lists = lengths.map(|length| vec![UNTOUCHED; length]);
    let [times, counts, padding] = &mut lists;
    let answer = list_tracks(file, times, counts, padding);
    let count = asked.length;
    let fits = asked.number == 14 && lengths.iter().all(|length| *length >= count);
    assert_eq!(answer, if fits { Answer::success(count) } else { asked }, "seed {seed}");
    for list in &lists {
        let written = if fits { count } else { 0 };
        assert!(list[..written].iter().all(|number| *number != UNTOUCHED), "seed {seed}");
        assert!(list[written..].iter().all(|number| *number == UNTOUCHED), "seed {seed}");
    }
}
