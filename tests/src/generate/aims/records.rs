//! Records one by one: names, numbers of fields, Lengths, shapes and ranges.

use crate::piece::has_own_name;

use super::super::text_lines::{Field, Line};
use super::super::Rng;
use super::{good_lines, is_named, line_at, probed, some_of, Aim, Made, Spot};

/// What stands in a field after the name.
#[derive(Clone, Copy)]
pub enum Column {
    Number(i64, i64),
    Text,
    Mode,
}
use Column::{Mode, Number, Text};

/// How many data bytes follow a Length is free.
#[derive(Clone, Copy)]
pub struct Record {
    pub name: &'static str,
    pub columns: &'static [Column],
    pub has_length: bool,
}

const fn record(name: &'static str, columns: &'static [Column]) -> Record {
    Record { name, columns, has_length: false }
}

const fn with_length(name: &'static str, columns: &'static [Column]) -> Record {
    Record { name, columns, has_length: true }
}

const SEVEN: Column = Number(0, 127);
const EIGHT: Column = Number(0, 255);
const CHANNEL: Column = Number(0, 15);

/// The events, with the columns of document 01's table.
pub const EVENTS: [Record; 26] = [
    record("Note_off_c", &[CHANNEL, SEVEN, SEVEN]),
    record("Note_on_c", &[CHANNEL, SEVEN, SEVEN]),
    record("Poly_aftertouch_c", &[CHANNEL, SEVEN, SEVEN]),
    record("Control_c", &[CHANNEL, SEVEN, SEVEN]),
    record("Program_c", &[CHANNEL, SEVEN]),
    record("Channel_aftertouch_c", &[CHANNEL, SEVEN]),
    record("Pitch_bend_c", &[CHANNEL, Number(0, 16_383)]),
    with_length("System_exclusive", &[]),
    with_length("System_exclusive_packet", &[]),
    record("Sequence_number", &[Number(0, 65_535)]),
    record("Text_t", &[Text]),
    record("Copyright_t", &[Text]),
    record("Title_t", &[Text]),
    record("Instrument_name_t", &[Text]),
    record("Lyric_t", &[Text]),
    record("Marker_t", &[Text]),
    record("Cue_point_t", &[Text]),
    record("Channel_prefix", &[EIGHT]),
    record("MIDI_port", &[EIGHT]),
    record("End_track", &[]),
    record("Tempo", &[Number(1, 16_777_215)]),
    record("SMPTE_offset", &[EIGHT, EIGHT, EIGHT, EIGHT, Number(0, 99)]),
    record("Time_signature", &[EIGHT, EIGHT, EIGHT, EIGHT]),
    record("Key_signature", &[Number(-7, 7), Mode]),
    with_length("Sequencer_specific", &[]),
    // Of a type in this range none has a name of its own.
    with_length("Unknown_meta_event", &[Number(8, 31)]),
];
/// The records that are no events.
pub const OTHERS: [Record; 3] =
    [record("Header", &[Number(1, 2), Number(1, 9), Number(1, 32_767)]), START, END_OF_FILE];
const START: Record = record("Start_track", &[]);
const END_OF_FILE: Record = record("End_of_file", &[]);

impl Record {
    /// Good fields after Track and Time, the name among them.
    pub fn fields(&self, rng: &mut Rng) -> Line {
        let mut fields = vec![Field::Name(self.name)];
        fields.extend(self.columns.iter().map(|column| column.good(rng)));
        if self.has_length {
            let length = rng.index(6);
            fields.push(Field::Number(length as i64));
            fields.extend((0..length).map(|_| EIGHT.good(rng)));
        }
        fields
    }

    /// A good line for a spot.
    fn line(&self, rng: &mut Rng, spot: Spot) -> Line {
        let lead = vec![Field::Number(spot.track), Field::Number(spot.time)];
        [lead, self.fields(rng)].concat()
    }
}

impl Column {
    fn good(&self, rng: &mut Rng) -> Field {
        match *self {
            Number(least, greatest) => {
                let any = rng.between(0, (greatest - least) as u64) as i64 + least;
                Field::Number(rng.pick(&[least, greatest, any]))
            }
            Text => {
                let length = rng.index(5);
                Field::Quoted(rng.bytes(length))
            }
            Mode => Field::Quoted(rng.pick(&[&b"major"[..], b"minor"]).to_vec()),
        }
    }

    /// What may stand there and what not, each at a boundary, with the number due.
    fn tries(&self) -> Vec<(String, Field, u8)> {
        let word = |word: &'static str| (format!("the name {word}"), Field::Name(word), 25);
        let text = |text: &'static str, number: u8| {
            (format!("the text {text:?}"), Field::Raw(format!("\"{text}\"").into_bytes()), number)
        };
        let value = |value: i64, number: u8| (value.to_string(), Field::Number(value), number);
        match *self {
            Number(least, greatest) => vec![
                value(least, 0),
                value(greatest, 0),
                value(least - 1, 25),
                value(greatest + 1, 25),
                value(4_294_967_295, 25),
                value(-4_294_967_295, 25),
                word("a"),
                text("1", 25),
            ],
            Text => vec![text("", 0), value(1, 25), word("a")],
            Mode => vec![
                text("major", 0),
                text("minor", 0),
                text("\\155ajor", 0),
                text("\\155\\151\\156\\157\\162", 0),
                text("Major", 25),
                text("MINOR", 25),
                text("\\115ajor", 25),
                text("majo", 25),
                text("majorr", 25),
                text("major ", 25),
                text(" minor", 25),
                text("\\040minor", 25),
                text("", 25),
                text("0", 25),
                value(0, 25),
                value(1, 25),
                word("major"),
                word("minor"),
            ],
        }
    }
}

pub fn aims() -> Vec<Aim> {
    let mut aims = Vec::new();
    for record in EVENTS {
        aims.extend(names(record));
        aims.extend(counts(record));
        aims.extend(ranges(record));
        if record.has_length {
            aims.extend(lengths(record));
        }
    }
    for record in OTHERS {
        aims.extend(names(record));
        aims.extend(counts(record));
    }
    aims.extend(types());
    aims.extend(keys());
    aims.extend(faults_together());
    aims
}

/// A line of this record, changed, in a track; End_track ends its track early, so
/// only its faults can be tried there.
fn changed(
    what: String,
    number: u8,
    record: Record,
    change: impl Fn(&mut Rng, &mut Line) + 'static,
) -> Aim {
    Aim::new(format!("{}: {what}", record.name), number, move |rng| {
        probed(rng, number, |rng, spot| {
            let mut line = record.line(rng, spot);
            change(rng, &mut line);
            line
        })
    })
}

fn names(record: Record) -> Vec<Aim> {
    let name = record.name;
    let raw = |word: String| Field::Raw(word.into_bytes());
    let half = name.len() / 2;
    let wrong = [
        ("a letter too many", raw(format!("{name}s"))),
        ("a letter too many in front", raw(format!("a{name}"))),
        ("a letter too many within", raw(format!("{}_{}", &name[..half], &name[half..]))),
        ("the last letter missing", raw(name[..name.len() - 1].to_owned())),
        ("the first letter missing", raw(name[1..].to_owned())),
        ("no underscore", raw(name.replace('_', "x"))),
        ("quoted", Field::Quoted(name.as_bytes().to_vec())),
        ("a number for the name", Field::Number(1)),
    ];
    let mut aims = Vec::new();
    for (what, field) in wrong {
        if what == "no underscore" && !name.contains('_') {
            continue;
        }
        aims.push(changed(what.to_owned(), 23, record, move |_, line| line[2] = field.clone()));
    }
    for spelled in [name.to_ascii_uppercase(), name.to_ascii_lowercase()] {
        aims.push(Aim::new(format!("the name {spelled}"), 0, move |rng| {
            respelled(rng, record, &spelled)
        }));
    }
    aims
}

/// A good text with this spelling of the name: of a further event, or in its place.
fn respelled(rng: &mut Rng, record: Record, spelled: &str) -> Made {
    let field = Field::Raw(spelled.as_bytes().to_vec());
    let there = ["Header", "Start_track", "End_track", "End_of_file"];
    if !there.contains(&record.name) {
        return probed(rng, 0, |rng, spot| {
            let mut line = record.line(rng, spot);
            line[2] = field.clone();
            line
        });
    }
    let mut lines = good_lines(rng);
    let of_name: Vec<usize> =
        (0..lines.len()).filter(|index| is_named(&lines[*index], &[record.name])).collect();
    lines[some_of(rng, &of_name)][2] = field;
    Made::Lines(lines, None)
}

fn counts(record: Record) -> Vec<Aim> {
    let mut aims = vec![changed("a field too many".into(), 24, record, |rng, line| {
        let more = [Field::Number(0), Field::Name("a"), Field::Quoted(Vec::new())];
        line.push(more[rng.index(3)].clone());
    })];
    aims.push(changed("no name".into(), 24, record, |rng, line| line.truncate(1 + rng.index(2))));
    if !record.columns.is_empty() {
        aims.push(changed("nothing but the name".into(), 24, record, |_, line| line.truncate(3)));
    }
    if !record.has_length && !record.columns.is_empty() {
        aims.push(changed("a field too few".into(), 24, record, |_, line| {
            line.pop();
        }));
    }
    aims
}

fn ranges(record: Record) -> Vec<Aim> {
    let mut aims = Vec::new();
    for (index, column) in record.columns.iter().enumerate() {
        // The types of Unknown_meta_event have their own aims.
        let tries = if record.has_length { Vec::new() } else { column.tries() };
        for (what, field, number) in tries {
            let what = format!("field {} is {what}", index + 4);
            aims.push(changed(what, number, record, move |_, line| {
                line[3 + index] = field.clone()
            }));
        }
    }
    for (what, field) in [
        ("Track -1", Field::Number(-1)),
        ("Track 65536", Field::Number(65_536)),
        ("Track 4294967295", Field::Number(4_294_967_295)),
        ("Track a name", Field::Name("Tempo")),
        ("Track quoted", Field::Quoted(b"1".to_vec())),
    ] {
        aims.push(changed(what.into(), 25, record, move |_, line| line[0] = field.clone()));
    }
    for (what, field) in [
        ("Time -1", Field::Number(-1)),
        ("Time a name", Field::Name("a")),
        ("Time quoted", Field::Quoted(b"0".to_vec())),
    ] {
        aims.push(changed(what.into(), 25, record, move |_, line| line[1] = field.clone()));
    }
    aims
}

/// In the order 24, 25, 24 before every other 25.
fn lengths(record: Record) -> Vec<Aim> {
    let at = 3 + record.columns.len();
    let length = move |line: &Line| line.len() as i64 - at as i64 - 1;
    let set = move |what: &str, number: u8, make: fn(i64) -> Field| {
        changed(what.to_owned(), number, record, move |_, line| line[at] = make(length(line)))
    };
    let data = move |what: &str, number: u8, field: Field| {
        changed(format!("data {what}"), number, record, move |rng, line| {
            line.push(field.clone());
            let count = length(line);
            line[at] = Field::Number(count);
            let last = line.len() - 1;
            let first = at + 1 + rng.index(last - at);
            line.swap(first, last);
        })
    };
    let mut aims = vec![
        set("Length one too great", 24, |length| Field::Number(length + 1)),
        set("Length 4294967295", 24, |_| Field::Number(4_294_967_295)),
        set("Length -1", 25, |_| Field::Number(-1)),
        set("Length -4294967295", 25, |_| Field::Number(-4_294_967_295)),
        set("Length a name", 25, |_| Field::Name("Length")),
        set("Length quoted", 25, |_| Field::Quoted(b"0".to_vec())),
        data("0", 0, Field::Number(0)),
        data("255", 0, Field::Number(255)),
        data("256", 25, Field::Number(256)),
        data("-1", 25, Field::Number(-1)),
        data("a name", 25, Field::Name("a")),
        data("quoted", 25, Field::Quoted(b"1".to_vec())),
        data("4294967295", 25, Field::Number(4_294_967_295)),
    ];
    aims.push(changed("Length missing".into(), 24, record, move |_, line| line.truncate(at)));
    aims.push(changed("Length one too small".into(), 24, record, move |_, line| {
        line.push(Field::Number(0));
        line[at] = Field::Number(length(line) - 1);
    }));
    aims.push(changed("Length missing, Track -1".into(), 24, record, move |_, line| {
        line.truncate(at);
        line[0] = Field::Number(-1);
    }));
    aims.push(changed("Length too great, data 256".into(), 24, record, move |_, line| {
        line.push(Field::Number(256));
        line[at] = Field::Number(length(line) + 1);
    }));
    aims.push(changed("Length -1, too many fields".into(), 25, record, move |_, line| {
        line[at] = Field::Number(-1);
        line.extend(vec![Field::Number(0); 9]);
    }));
    for count in [127, 128, 16_383, 16_384] {
        aims.push(changed(format!("Length {count}"), 0, record, move |rng, line| {
            line.truncate(at);
            line.push(Field::Number(count));
            line.extend((0..count).map(|_| Field::Number(rng.byte().into())));
        }));
    }
    aims
}

/// Types with a name of their own, 47 among them, and those over 127 are refused.
fn types() -> Vec<Aim> {
    let type_is = |kind: i64, number: u8| {
        Aim::new(format!("Unknown_meta_event {kind}"), number, move |rng| {
            probed(rng, number, |rng, spot| {
                let mut line = EVENTS[25].line(rng, spot);
                line[3] = Field::Number(kind);
                line
            })
        })
    };
    let mut aims: Vec<Aim> =
        (0..128).map(|kind| type_is(kind, if has_own_name(kind as u8) { 25 } else { 0 })).collect();
    aims.extend([128, 129, 255, 256, -1, -126, 4_294_967_295].map(|kind| type_is(kind, 25)));
    aims.push(Aim::probe(25, "Unknown_meta_event, a, 0"));
    aims.push(Aim::probe(25, "Unknown_meta_event, \"96\", 0"));
    aims
}

/// All keys in both modes.
fn keys() -> Vec<Aim> {
    let mut aims = Vec::new();
    for key in -8..=8_i64 {
        for mode in ["major", "minor"] {
            let number = if key.abs() == 8 { 25 } else { 0 };
            aims.push(Aim::new(format!("Key_signature {key} {mode}"), number, move |rng| {
                probed(rng, number, |_, spot| {
                    let fields = [Field::Number(key), Field::Quoted(mode.as_bytes().to_vec())];
                    [line_at("Key_signature", spot), fields.to_vec()].concat()
                })
            }));
        }
    }
    aims
}

/// Every subset of the faults of one line: the first in the order of tests decides.
fn faults_together() -> Vec<Aim> {
    let mut aims = Vec::new();
    for subset in 1..64_u32 {
        let has = move |number: u8| subset >> (number - 22) & 1 == 1;
        let due = (22..=27).find(|number| has(*number)).unwrap_or(0);
        let named: Vec<String> =
            (22..=27).filter(|number| has(*number)).map(|number| number.to_string()).collect();
        aims.push(Aim::new(format!("together {}", named.join(" ")), due, move |rng| loop {
            let made = probed(rng, due, |_, spot| {
                let mut line = line_at("Tempo, 1", spot);
                if has(27) {
                    line[1] = Field::Number(spot.time + 268_435_456);
                }
                if has(26) {
                    line[0] = Field::Number(spot.track + 1);
                }
                if has(25) {
                    line[3] = Field::Number(0);
                }
                if has(24) {
                    line.push(Field::Number(1));
                }
                if has(23) {
                    line[2] = Field::Name("Tempos");
                }
                if has(22) {
                    line.push(Field::Raw(b"+".to_vec()));
                }
                line
            });
            // Not after a Time so late that the step leaves its range.
            if let Made::Lines(lines, Some(at)) = &made {
                if matches!(lines[*at][1], Field::Number(0..=4_294_967_295)) {
                    break made;
                }
            }
        }));
    }
    aims
}
