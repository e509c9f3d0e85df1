//! What is stored for the program fold_main, which `rt ci` runs: the rows that it lends
//! to a fold, and its room, as the second program leaves them.

mod common;

use common::stored;
use second::fold::{fold_rows, Row};
use second::piece::Time;

/// In the order in which fold_main takes them: the file, the bytes of room, the number due.
const CASES: [(&str, usize, u8); 11] = [
    ("two_tracks.mid", 42, 0),
    ("two_tracks.mid", 41, 14),
    ("four_tracks.mid", 48, 0),
    ("one_track.mid", 48, 0),
    ("other_chunks.mid", 48, 0),
    ("film_division.mid", 48, 0),
    ("after_end_track.mid", 48, 12),
    ("format2.mid", 48, 32),
    ("sixty_five_tracks.mid", 48, 31),
    ("five_tracks.mid", 48, 37),
    ("prefix_in_both.mid", 48, 33),
];

/// What fold_main's rows, and all bytes of its rooms, hold before a fold.
const SEVENS: Row = Row { place: 7, time: Time(7), status: 7 };

fn line(numbers: impl Iterator<Item = usize>) -> String {
    numbers.map(|number| format!("{number} ")).collect::<String>() + "\n"
}

/// The five lines that fold_main writes of a file.
fn written(name: &str, size: usize, number: u8) -> String {
    let file = stored(&format!("fold_main/data/{name}"));
    let mut room = vec![7; size];
    let mut rows = [SEVENS; 4];
    let answer = fold_rows(&file, &mut room, &mut rows);
    assert_eq!(answer.number, number, "{name}");
    let lines = [
        line([answer.number.into(), answer.place, answer.length].into_iter()),
        line(rows.iter().map(|row| row.place)),
        line(rows.iter().map(|row| row.time.0 as usize)),
        line(rows.iter().map(|row| row.status.into())),
        line(room.into_iter().map(usize::from)),
    ];
    format!("{name}: {}", lines.concat())
}

#[test]
fn lent_rows() {
    let due: String = CASES.map(|(name, size, number)| written(name, size, number)).concat();
    assert_eq!(String::from_utf8(stored("fold_main/stdout")).unwrap(), due);
}
