//! The converter made for speed against the second program: the same texts, the
//! same refusals. What is timed beside the proved archive does the same work.

mod common;

use common::to_text;
use second::fast_text::file_to_text;
use second::generate::{benchmark_file, file_case, limit_cases, mutated_copy, Rng};
use second::outside::outside_files;
use second::refusal::Answer;

/// Compares both on one file; `text` keeps what the file before left there.
fn same(what: &str, file: &[u8], text: &mut Vec<u8>) -> u8 {
    let made = file_to_text(file, text);
    match to_text(file) {
        Ok(due) => assert!(made.is_ok() && *text == due, "{what}: {made:?}"),
        Err(due) => assert!(made.map_err(Answer::from) == Err(due) && text.is_empty(), "{what}"),
    }
    made.map_or_else(|refusal| refusal.number as u8, |()| 0)
}

#[test]
fn generated_files() {
    let (mut text, mut met) = (Vec::new(), [0; 14]);
    for seed in 0..20_000 {
        let number = same(&format!("seed {seed}"), &file_case(seed), &mut text);
        met[usize::from(number)] += 1;
    }
    println!("seeds 0..20000, numbers 0..13: {met:?}");
    // 4 is not given.
    let never: Vec<usize> = (0..met.len()).filter(|number| met[*number] == 0).collect();
    assert_eq!(never, [4]);
}

#[test]
fn outside_and_limit_files() {
    let mut text = Vec::new();
    for (name, file) in outside_files() {
        same(&name, &file, &mut text);
        for seed in 0..100 {
            same(&name, &mutated_copy(&mut Rng::new(seed), &file), &mut text);
        }
    }
    for case in limit_cases() {
        same(case.what, &case.file, &mut text);
    }
}

#[test]
fn the_benchmark_file() {
    let (file, mut text) = (benchmark_file(), Vec::new());
    assert_eq!(same("benchmark file", &file, &mut text), 0);
    for seed in 0..20 {
        same("benchmark file", &mutated_copy(&mut Rng::new(seed), &file), &mut text);
    }
}
