//! The aims: what is due to each of their texts by construction is what the second
//! program answers.

use std::collections::{BTreeMap, BTreeSet};

use second::generate::{aims, Rng};
use second::operations::text_to_file;

const ROUNDS: u64 = 8;

#[test]
fn each_aim_is_met() {
    let mut faults = Vec::new();
    for (index, aim) in aims().iter().enumerate() {
        for round in 0..ROUNDS {
            let aimed = aim.text(&mut Rng::new(ROUNDS * index as u64 + round));
            for manner in [0, 1] {
                let answer = text_to_file(&aimed.text, manner, &mut []);
                if !aimed.is_met_by(answer) {
                    faults.push(format!(
                        "{}: {answer:?}, due {} at {}: {:?}",
                        aim.name,
                        aimed.number,
                        aimed.place,
                        String::from_utf8_lossy(&aimed.text[..aimed.text.len().min(400)]),
                    ));
                }
            }
        }
    }
    let first: Vec<String> = faults.iter().take(10).cloned().collect();
    assert!(faults.is_empty(), "{} faults, such as {}", faults.len(), first.join("\n"));
}

#[test]
fn aims_have_names_of_their_own_and_every_number() {
    let aims = aims();
    let mut names = BTreeSet::new();
    for aim in &aims {
        assert!(names.insert(aim.name.as_str()), "two aims {}", aim.name);
    }
    let mut counts = BTreeMap::new();
    aims.iter().for_each(|aim| *counts.entry(aim.number).or_insert(0) += 1);
    println!("{} aims: {counts:?}", aims.len());
    // 21 and 29 need size, 14 and 30 room and manner.
    assert!(counts.keys().eq([0, 22, 23, 24, 25, 26, 27, 28].iter()), "{counts:?}");
}
