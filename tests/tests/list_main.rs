//! What is stored for the program list_main, which `rt ci` runs: the three lists that it lends
//! to a listing, as the second program leaves them.

mod common;

use common::stored;
use second::operations::list_tracks;

/// In the order in which list_main takes them: the file, the length of the third list, the number due.
const CASES: [(&str, usize, u8); 12] = [
    ("example.mid", 4, 0),
    ("three_tracks.mid", 4, 0),
    ("other_chunks.mid", 4, 0),
    ("film_division.mid", 4, 0),
    ("further_track.mid", 4, 13),
    ("format2.mid", 4, 0),
    ("five_tracks.mid", 4, 14),
    ("after_end_track.mid", 4, 12),
    ("empty.mid", 4, 2),
    ("padded.mid", 4, 0),
    ("padded.mid", 1, 14),
    ("example.mid", 1, 0),
];

/// What list_main's lists hold before a listing.
const SEVEN: u32 = 7;

fn line(numbers: &[u32]) -> String {
    numbers.iter().map(|number| format!("{number} ")).collect::<String>() + "\n"
}

/// The four lines that list_main writes of a file.
fn written(name: &str, third: usize, number: u8) -> String {
    let file = stored(&format!("list_main/data/{name}"));
    let (mut times, mut counts, mut padding) = ([SEVEN; 4], [SEVEN; 4], vec![SEVEN; third]);
    let answer = list_tracks(&file, &mut times, &mut counts, &mut padding);
    assert_eq!(answer.number, number, "{name}");
    let head = line(&[answer.number.into(), answer.place as u32, answer.length as u32]);
    format!("{name}: {head}{}{}{}", line(&times), line(&counts), line(&padding))
}

#[test]
fn lent_lists() {
    let due: String = CASES.map(|(name, third, number)| written(name, third, number)).concat();
    assert_eq!(String::from_utf8(stored("list_main/stdout")).unwrap(), due);
}
