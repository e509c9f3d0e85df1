//! Texts aimed at one boundary each, with the answer due by construction: what is
//! held against both programs is said by neither of them.
//!
//! An aim is a boundary of document 01 (a number at the end of its range, a record
//! at a place in the order, ..). Its texts are good but for that, of a random piece,
//! spelled plainly or loosely; after the fault that decides anything may follow.

mod divisions;
mod ends;
mod order;
mod records;
mod shapes;
mod times;

use crate::refusal::Answer;

use super::field_damage::SHAPELESS;
use super::text_lines::{lines_of, plain, varied_at, Field, Line};
use super::{piece, Rng};

/// One boundary, and the number due to all its texts (0: they are accepted).
pub struct Aim {
    pub name: String,
    pub number: u8,
    make: Box<dyn Fn(&mut Rng) -> Made>,
}

/// A text, and the number and place due to it in either manner.
pub struct Aimed {
    pub text: Vec<u8>,
    pub number: u8,
    pub place: usize,
}

impl Aimed {
    /// Whether this answer is the one due: 14 as well as 0 says that it is good.
    pub fn is_met_by(&self, answer: Answer) -> bool {
        let number = if answer.number == 14 { 0 } else { answer.number };
        (number, answer.place) == (self.number, self.place)
    }
}

impl Aim {
    /// A text of this aim.
    pub fn text(&self, rng: &mut Rng) -> Aimed {
        let (text, place) = match (self.make)(rng) {
            Made::Text(text, place) => (text, place),
            Made::Lines(lines, fault) => spelled(rng, lines, fault),
            Made::Cut(lines) => {
                let text = either(rng, &lines).0;
                let place = line_count(&text) + 1;
                (text, place)
            }
        };
        Aimed { text, number: self.number, place }
    }

    fn new(name: impl Into<String>, number: u8, make: impl Fn(&mut Rng) -> Made + 'static) -> Aim {
        Aim { name: name.into(), number, make: Box::new(make) }
    }

    /// An event's line put into a track of a good text.
    fn probe(number: u8, line: &'static str) -> Aim {
        Aim::new(line, number, move |rng| probed(rng, number, |_, spot| line_at(line, spot)))
    }
}

/// What the maker of an aim makes.
enum Made {
    /// Spelled already, and the place due.
    Text(Vec<u8>, usize),
    /// Lines to be spelled, and the one at fault, if any.
    Lines(Vec<Line>, Option<usize>),
    /// Lines to be spelled, which end before End_of_file.
    Cut(Vec<Line>),
}

/// All aims, always in the same order.
pub fn aims() -> Vec<Aim> {
    let subjects =
        [shapes::aims, records::aims, order::aims, divisions::aims, times::aims, ends::aims];
    subjects.into_iter().flat_map(|aims| aims()).collect()
}

/// Lines that end at End_of_file, or at a fault and what follows it.
fn spelled(rng: &mut Rng, mut lines: Vec<Line>, fault: Option<usize>) -> (Vec<u8>, usize) {
    if let Some(fault) = fault {
        follow(rng, &mut lines, fault);
    }
    let (text, numbers) = either(rng, &lines);
    (text, fault.map_or(0, |fault| numbers[fault]))
}

/// After the fault that decides nothing matters: at times something else follows.
fn follow(rng: &mut Rng, lines: &mut Vec<Line>, fault: usize) {
    match rng.below(6) {
        0 => lines.truncate(fault + 1),
        1 => lines.push(vec![Field::Raw(rng.pick(&SHAPELESS).to_vec())]),
        2 => lines.insert(fault + 1, lines[fault].clone()),
        _ => {}
    }
}

/// Plainly or loosely spelled.
fn either(rng: &mut Rng, lines: &[Line]) -> (Vec<u8>, Vec<usize>) {
    if rng.one_in(2) {
        (plain(lines), (1..=lines.len()).collect())
    } else {
        varied_at(rng, lines)
    }
}

/// Bytes after the last LF are a line.
fn line_count(text: &[u8]) -> usize {
    let ends = text.iter().filter(|byte| **byte == b'\n').count();
    ends + usize::from(text.last().is_some_and(|byte| *byte != b'\n'))
}

/// The lines of a random piece.
fn good_lines(rng: &mut Rng) -> Vec<Line> {
    lines_of(&piece(rng))
}

/// A place for a further event in the lines of a good text.
#[derive(Clone, Copy)]
struct Spot {
    /// Of the line that comes after it.
    index: usize,
    track: i64,
    /// Of the event before it, or 0.
    time: i64,
}

/// All places for a further event.
fn spots(lines: &[Line]) -> Vec<Spot> {
    let mut spots = Vec::new();
    for (index, pair) in lines.windows(2).enumerate() {
        let (track, time) = (number_in(&pair[0], 0), number_in(&pair[0], 1));
        if !is_named(&pair[0], &["Header", "End_track"]) {
            spots.push(Spot { index: index + 1, track, time });
        }
    }
    spots
}

/// A good text with a further line in some track; `number` 0 says that it is good.
fn probed(rng: &mut Rng, number: u8, line: impl Fn(&mut Rng, Spot) -> Line) -> Made {
    let mut lines = good_lines(rng);
    let spot = some_of(rng, &spots(&lines));
    lines.insert(spot.index, line(rng, spot));
    Made::Lines(lines, (number > 0).then_some(spot.index))
}

fn some_of<T: Copy>(rng: &mut Rng, from: &[T]) -> T {
    rng.pick(from)
}

fn is_named(line: &Line, names: &[&str]) -> bool {
    matches!(&line[2], Field::Name(name) if names.contains(name))
}

fn number_in(line: &Line, index: usize) -> i64 {
    match line[index] {
        Field::Number(number) => number,
        _ => unreachable!("Track and Time of a good line are numbers"),
    }
}

/// Track and Time of a spot, then the fields written in `rest`; after `@` the whole
/// line is written there, with `$n` and `$t` for this Track and Time.
fn line_at(rest: &'static str, spot: Spot) -> Line {
    let (whole, lead) = match rest.strip_prefix('@') {
        Some(whole) => (whole, Vec::new()),
        None => (rest, vec![Field::Number(spot.track), Field::Number(spot.time)]),
    };
    let fields = whole.split(", ").map(|word| match word {
        "$n" => Field::Number(spot.track),
        "$t" => Field::Number(spot.time),
        _ => field(word),
    });
    lead.into_iter().chain(fields).collect()
}

/// A word as a field that may be spelled loosely, if it is plain.
fn field(word: &'static str) -> Field {
    match word.parse::<i64>() {
        Ok(number) if number.to_string() == word => Field::Number(number),
        _ if !word.is_empty() && word.bytes().all(|b| b.is_ascii_alphabetic() || b == b'_') => {
            Field::Name(word)
        }
        _ => Field::Raw(word.as_bytes().to_vec()),
    }
}
