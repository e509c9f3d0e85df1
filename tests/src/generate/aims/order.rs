//! The order of records: each of them at every place, Tracks, Times and counts.

use super::super::text_lines::{Field, Line};
use super::super::Rng;
use super::records::{Record, EVENTS, OTHERS};
use super::{good_lines, is_named, number_in, some_of, Aim, Made};

/// The places at which the order asks for something.
#[derive(Clone, Copy, Debug, PartialEq, Eq)]
enum Place {
    BeforeHeader,
    AfterHeader,
    AfterStartTrack,
    AfterAnEvent,
    /// And another track is due.
    AfterEndTrack,
    AfterLastEndTrack,
    AfterEndOfFile,
}
use Place::*;

const PLACES: [Place; 7] = [
    BeforeHeader, AfterHeader, AfterStartTrack, AfterAnEvent, AfterEndTrack, AfterLastEndTrack,
    AfterEndOfFile,
];

impl Place {
    fn permits(self, name: &str) -> bool {
        match name {
            "Header" => self == BeforeHeader,
            "Start_track" => matches!(self, AfterHeader | AfterEndTrack),
            "End_of_file" => self == AfterLastEndTrack,
            _ => matches!(self, AfterStartTrack | AfterAnEvent),
        }
    }

    /// Where it is in these lines: the index of the line after it.
    fn index(self, rng: &mut Rng, lines: &[Line]) -> Option<usize> {
        let last = lines.len() - 1;
        let found: Vec<usize> = (0..=lines.len())
            .filter(|index| {
                let before = index.checked_sub(1).map(|before| &lines[before]);
                let is = |name: &str| before.is_some_and(|line| is_named(line, &[name]));
                match self {
                    BeforeHeader => *index == 0,
                    AfterHeader => *index == 1,
                    AfterStartTrack => is("Start_track"),
                    AfterEndTrack => is("End_track") && *index < last,
                    AfterLastEndTrack => *index == last,
                    AfterEndOfFile => *index == lines.len(),
                    AfterAnEvent => {
                        let others = ["Header", "Start_track", "End_track", "End_of_file"];
                        before.is_some_and(|line| !is_named(line, &others))
                    }
                }
            })
            .collect();
        (!found.is_empty()).then(|| some_of(rng, &found))
    }
}

/// Good lines and a place in them.
fn with_place(rng: &mut Rng, place: Place) -> (Vec<Line>, usize) {
    loop {
        let lines = good_lines(rng);
        if let Some(index) = place.index(rng, &lines) {
            return (lines, index);
        }
    }
}

pub fn aims() -> Vec<Aim> {
    let mut aims = Vec::new();
    for place in PLACES {
        aims.extend(EVENTS.into_iter().chain(OTHERS).map(|record| record_at(place, record)));
        aims.extend(faults_at(place));
        aims.extend(passed_over_at(place));
        if place != AfterEndOfFile {
            aims.push(Aim::new(format!("{place:?}: cut"), 28, move |rng| {
                let (mut lines, index) = with_place(rng, place);
                lines.truncate(index);
                Made::Cut(lines)
            }));
        }
    }
    aims.extend(tracks_and_times());
    aims.extend(headers());
    aims
}

/// A good record, if not permitted there 26; else all good, up to where it is cut.
fn record_at(place: Place, record: Record) -> Aim {
    let name = record.name;
    let number = match (place.permits(name), name) {
        (false, _) => 26,
        (true, "End_of_file") => 0,
        (true, _) => 28,
    };
    Aim::new(format!("{place:?}: {name}"), number, move |rng| {
        let (mut lines, index) = with_place(rng, place);
        let (track, time) = track_and_time(place, name, &lines, index);
        let lead = vec![Field::Number(track), Field::Number(time)];
        let line = [lead, record.fields(rng)].concat();
        if number == 26 {
            lines.insert(index, line);
            return Made::Lines(lines, Some(index));
        }
        lines.truncate(index);
        lines.push(line);
        match number {
            0 => Made::Lines(lines, None),
            _ => Made::Cut(lines),
        }
    })
}

/// The Track and Time that such a record has there, or would have nearby.
fn track_and_time(place: Place, name: &str, lines: &[Line], index: usize) -> (i64, i64) {
    let before = index
        .checked_sub(1)
        .map_or((0, 0), |before| (number_in(&lines[before], 0), number_in(&lines[before], 1)));
    match (name, place) {
        ("Header" | "End_of_file", _) => (0, 0),
        ("Start_track", _) => (before.0 + 1, 0),
        (_, BeforeHeader | AfterHeader) => (1, 0),
        _ => before,
    }
}

/// A line's own faults come before the order, after End_of_file too.
fn faults_at(place: Place) -> Vec<Aim> {
    let faults: [(&'static [&'static str], u8); 6] = [
        (&["0", "0", "Tempo", "+"], 22),
        (&["0", "0"], 24),
        (&["0", "0", "Nothing"], 23),
        (&["0", "0", "Tempo"], 24),
        (&["0", "0", "Tempo", "0"], 25),
        (&["65536", "0", "End_of_file"], 25),
    ];
    let aim = |(words, number): (&'static [&'static str], u8)| {
        Aim::new(format!("{place:?}: {}", words.join(", ")), number, move |rng| {
            let (mut lines, index) = with_place(rng, place);
            let fields = words.iter().map(|word| super::field(word)).collect();
            lines.insert(index, fields);
            Made::Lines(lines, Some(index))
        })
    };
    faults.into_iter().map(aim).collect()
}

fn passed_over_at(place: Place) -> Vec<Aim> {
    let lines: [&'static [u8]; 6] = [b"", b" \t", b"#", b"; +", b"\t# \"", b"#\r"];
    let aim = |line: &'static [u8]| {
        Aim::new(format!("{place:?}: {:?}", String::from_utf8_lossy(line)), 0, move |rng| {
            let (mut lines, index) = with_place(rng, place);
            lines.insert(index, vec![Field::Raw(line.to_vec())]);
            Made::Lines(lines, None)
        })
    };
    lines.into_iter().map(aim).collect()
}

/// One number in one line of a name set; 26 for a good one that is not due.
fn set(
    name: &'static str,
    column: usize,
    number: u8,
    what: impl Into<String>,
    make: impl Fn(i64) -> i64 + 'static,
) -> Aim {
    Aim::new(format!("{name} in its place: {}", what.into()), number, move |rng| {
        let mut lines = good_lines(rng);
        let of_name: Vec<usize> =
            (0..lines.len()).filter(|index| is_named(&lines[*index], &[name])).collect();
        let at = some_of(rng, &of_name);
        lines[at][column] = Field::Number(make(number_in(&lines[at], column)));
        Made::Lines(lines, Some(at))
    })
}

fn tracks_and_times() -> Vec<Aim> {
    let mut aims = Vec::new();
    for name in ["Header", "Start_track", "End_track", "End_of_file"] {
        aims.push(set(name, 0, 26, "Track one more", |track| track + 1));
        // No piece has so many tracks.
        aims.push(set(name, 0, 26, "Track 65535", |_| 65_535));
        aims.push(set(name, 0, 25, "Track 65536", |_| 65_536));
        aims.push(set(name, 0, 25, "Track -1", |_| -1));
        aims.push(set(name, 1, 25, "Time -1", |_| -1));
        if name == "Start_track" || name == "End_track" {
            aims.push(set(name, 0, 26, "Track one less", |track| track - 1));
        }
        if name != "End_track" {
            aims.push(set(name, 1, 26, "Time 1", |_| 1));
            aims.push(set(name, 1, 26, "Time 4294967295", |_| 4_294_967_295));
        }
    }
    for (what, other) in [
        ("Track one more", 1),
        ("Track one less", -1),
        ("Track 65535", 65_535),
        ("Track 0", -65_535),
    ] {
        aims.push(Aim::new(format!("event: {what}"), 26, move |rng| {
            let (mut lines, index) = with_place(rng, AfterAnEvent);
            let track = number_in(&lines[index - 1], 0);
            lines[index - 1][0] = Field::Number((track + other).clamp(0, 65_535));
            Made::Lines(lines, Some(index - 1))
        }));
    }
    aims
}

fn headers() -> Vec<Aim> {
    let mut aims = vec![
        header("format 0 with 2 tracks", 25, |_| [0, 2]),
        header("format 0 with 65535 tracks", 25, |_| [0, 65_535]),
        header("format 0 with 0 tracks", 25, |_| [0, 0]),
        header("format -1", 25, |count| [-1, count]),
        header("format 3", 25, |count| [3, count]),
        header("format 1, no track", 25, |_| [1, 0]),
        header("format 2, no track", 25, |_| [2, 0]),
        header("count -1", 25, |_| [1, -1]),
        header("count 65536", 25, |_| [1, 65_536]),
        header("count 65537", 25, |_| [2, 65_537]),
        header("count 4294967295", 25, |_| [2, 4_294_967_295]),
        header("format 1", 0, |count| [1, count]),
        header("format 2", 0, |count| [2, count]),
        miscounted("one track fewer than counted", |count| count + 1),
        miscounted("far fewer tracks than 65535", |_| 65_535),
        miscounted("one track more than counted", |count| count - 1),
        miscounted("only one counted", |_| 1),
    ];
    aims.push(Aim::new("format 0 with its track", 0, |rng| loop {
        let mut lines = good_lines(rng);
        if number_in(&lines[0], 4) == 1 {
            lines[0][3] = Field::Number(0);
            return Made::Lines(lines, None);
        }
    }));
    aims.push(Aim::new("one track fewer than counted, then cut", 28, |rng| loop {
        let mut lines = good_lines(rng);
        let count = number_in(&lines[0], 4);
        if number_in(&lines[0], 3) > 0 {
            lines[0][4] = Field::Number(count + 1);
            lines.pop();
            return Made::Cut(lines);
        }
    }));
    aims.extend(no_numbers());
    aims
}

fn no_numbers() -> Vec<Aim> {
    let mut aims = Vec::new();
    for (index, what) in ["format", "count"].into_iter().enumerate() {
        for field in [Field::Name("a"), Field::Quoted(b"1".to_vec())] {
            aims.push(Aim::new(format!("Header: {what} is {field:?}"), 25, move |rng| {
                let mut lines = good_lines(rng);
                lines[0][3 + index] = field.clone();
                Made::Lines(lines, Some(0))
            }));
        }
    }
    aims
}

/// Format and count set; the maker gets the count there is. `divisions` has the third field.
fn header(what: &'static str, number: u8, make: fn(i64) -> [i64; 2]) -> Aim {
    Aim::new(format!("Header: {what}"), number, move |rng| {
        let mut lines = good_lines(rng);
        let count = number_in(&lines[0], 4);
        for (index, value) in make(count).into_iter().enumerate() {
            lines[0][3 + index] = Field::Number(value);
        }
        Made::Lines(lines, (number > 0).then_some(0))
    })
}

/// Another count than there are tracks: 26 where the order breaks.
fn miscounted(what: &'static str, make: fn(i64) -> i64) -> Aim {
    Aim::new(what, 26, move |rng| loop {
        let mut lines = good_lines(rng);
        let count = number_in(&lines[0], 4);
        let said = make(count);
        if number_in(&lines[0], 3) == 0 || said == count || said == 0 {
            continue;
        }
        lines[0][4] = Field::Number(said);
        let after = |line: &Line| is_named(line, &["Start_track"]) && number_in(line, 0) > said;
        let more = lines.iter().position(after);
        let fault = more.unwrap_or(lines.len() - 1);
        return Made::Lines(lines, Some(fault));
    })
}
