//! The tables of records in man/noferkash-text.5 and docs/FORMAT.md.

use second::refusal::Answer;

use super::{answer_to_text, bytes, cells, file_of_text, quoted, refused, text_with, Tally};

/// Header, Start_track, End_track, End_of_file and 25 events.
const RECORDS: usize = 29;
const STRUCTURE: [&str; 4] = ["Header", "Start_track", "End_track", "End_of_file"];
/// A type that has no record of its own; the table has no range for it.
const OTHER_TYPE: i64 = 96;
/// A cell that holds nothing.
const NONE: &str = "–";
/// The one record of STRUCTURE that has bytes in a file.
const END: &str = "End_track";
/// The place of the first event in a file.
const EVENTS: usize = 22;

/// A field as a table has it.
#[derive(Clone, Debug)]
pub enum Field {
    Number {
        least: i64,
        most: i64,
    },
    Text,
    Mode,
    /// Length and Data.
    Data,
}

impl Field {
    /// Values in its range, its ends among them.
    fn good(&self) -> Vec<String> {
        match self {
            Field::Number { least, most } => vec![least.to_string(), most.to_string()],
            Field::Text => vec!["\"\"".to_owned(), "\"a\\240\"".to_owned()],
            Field::Mode => vec!["\"major\"".to_owned(), "\"minor\"".to_owned()],
            Field::Data => vec!["0".to_owned(), "2, 0, 255".to_owned()],
        }
    }

    /// The number in the file of its first or second good value, if it has one.
    pub fn number(&self, end: usize) -> Option<i64> {
        match self {
            Field::Number { least, most } => Some([*least, *most][end]),
            Field::Mode => Some(end as i64),
            Field::Text | Field::Data => None,
        }
    }

    /// The bytes of the same, of a Text or of Data.
    pub fn bulk(&self, end: usize) -> Option<Vec<u8>> {
        match self {
            Field::Text => Some([&b""[..], b"a\xA0"][end].to_owned()),
            Field::Data => Some([&b""[..], b"\0\xFF"][end].to_owned()),
            Field::Number { .. } | Field::Mode => None,
        }
    }

    /// Values just outside its range or of another shape.
    fn bad(&self) -> Vec<String> {
        match self {
            Field::Number { least, most } => {
                vec![(least - 1).to_string(), (most + 1).to_string(), "\"0\"".to_owned()]
            }
            Field::Text => vec!["0".to_owned(), "a".to_owned()],
            Field::Mode => vec!["major".to_owned(), "\"Major\"".to_owned(), "0".to_owned()],
            Field::Data => vec!["1, 256".to_owned(), "1, -1".to_owned(), "-1".to_owned()],
        }
    }
}

/// The rows of the manual page: name and fields.
pub fn of_manual(page: &str, tally: &mut Tally) {
    let rows = page.lines().filter_map(|line| line.strip_prefix(".It ")?.split_once(" Ta "));
    let rows: Vec<(&str, String)> = rows.map(|(name, columns)| (name, plain(columns))).collect();
    ranges("noferkash-text(5)", &rows, tally);
}

/// The rows of docs/FORMAT.md: name, bytes and fields.
pub fn of_format(page: &str, tally: &mut Tally) {
    let rows: Vec<(&str, &str, &str)> = page.lines().filter_map(row).collect();
    for (name, pattern, columns) in &rows {
        match (quoted(pattern), fields(columns)) {
            (Some(pattern), Some(fields)) => laid_out(name, pattern, &fields, tally),
            _ if *pattern == NONE && STRUCTURE.contains(name) => {}
            _ => tally.fault(&format!("FORMAT.md: {name}: {pattern}: {columns}")),
        }
    }
    let rows: Vec<(&str, String)> =
        rows.iter().map(|(name, _, columns)| (*name, columns.to_string())).collect();
    ranges("FORMAT.md", &rows, tally);
}

fn row(line: &str) -> Option<(&str, &str, &str)> {
    let cells = cells(line, 3)?;
    let name = quoted(cells[0])?;
    name.chars().all(|sign| sign.is_ascii_alphabetic() || sign == '_').then_some(())?;
    Some((name, cells[1], cells[2]))
}

/// A manual page's way of writing, undone.
fn plain(columns: &str) -> String {
    columns
        .replace(r"\-", "-")
        .replace(r"\(dq", "\"")
        .replace(r"\(en", NONE)
        .replace(r"\&", "")
        .replace("Ar ", "")
        .replace("No ", "")
}

fn ranges(page: &str, rows: &[(&str, String)], tally: &mut Tally) {
    let mut names: Vec<&str> = rows.iter().map(|(name, _)| *name).collect();
    names.sort_unstable();
    names.dedup();
    if rows.len() != RECORDS || names.len() != RECORDS {
        tally.fault(&format!("{page} has {} records, not {RECORDS}", rows.len()));
    }
    for (name, columns) in rows {
        match fields(columns) {
            None => tally.fault(&format!("{page}: {name}: {columns}")),
            Some(fields) if STRUCTURE.contains(name) => structure(name, &fields, tally),
            Some(fields) => event(name, &fields, tally),
        }
    }
}

/// An event alone in a file, in the full manner, has the bytes of its pattern, at both ends
/// of its fields' ranges.
fn laid_out(name: &str, pattern: &str, fields: &[Field], tally: &mut Tally) {
    for end in [0, 1] {
        let values = fields.iter().map(|field| field.good().swap_remove(end));
        let line: Vec<String> =
            ["1, 0".to_owned(), name.to_owned()].into_iter().chain(values).collect();
        let line = line.join(", ");
        let Some(mut due) = bytes::of(pattern, fields, end) else {
            return tally.fault(&format!("FORMAT.md: {name}: {pattern} is not understood"));
        };
        let mut text = text_with("");
        if name != END {
            text = text_with(&line);
            due.extend(b"\0\xFF\x2F\0");
        }
        let (_, file) = file_of_text(text.as_bytes(), 0);
        tally.equal(
            &format!("{line} as {pattern}"),
            file.get(EVENTS + 1..).unwrap_or_default(),
            &due,
        );
    }
}

/// The fields of a row; those before a range without one of their own have the next.
fn fields(columns: &str) -> Option<Vec<Field>> {
    if columns == NONE {
        return Some(Vec::new());
    }
    let mut fields = Vec::new();
    let mut waiting = 0;
    for column in columns.split(',') {
        match column.trim() {
            "channel" => fields.push(Field::Number { least: 0, most: 15 }),
            "type" => fields.push(Field::Number { least: OTHER_TYPE, most: OTHER_TYPE }),
            "Text" => fields.push(Field::Text),
            "\"major\" or \"minor\"" => fields.push(Field::Mode),
            "Length" => fields.push(Field::Data),
            "Data" | ".." => {}
            column => match column.rsplit(' ').next()?.split_once("..") {
                None => waiting += 1,
                Some((least, most)) => {
                    let field =
                        Field::Number { least: least.parse().ok()?, most: most.parse().ok()? };
                    fields.extend(vec![field; waiting + 1]);
                    waiting = 0;
                }
            },
        }
    }
    Some(fields).filter(|_| waiting == 0)
}

/// An event with good fields is read; with one bad field it is 25, with one field more
/// or fewer 24.
fn event(name: &str, fields: &[Field], tally: &mut Tally) {
    let mut expect = |values: &[String], due| {
        let line = ["1, 0", name].into_iter().chain(values.iter().map(String::as_str));
        let line = line.collect::<Vec<&str>>().join(", ");
        tally.expect(&line, answer_to_text(text_with(&line).as_bytes(), 1), due);
    };
    let least: Vec<String> = fields.iter().map(|field| field.good()[0].clone()).collect();
    let most: Vec<String> = fields.iter().map(|field| field.good()[1].clone()).collect();
    expect(&least, Answer::success(0));
    expect(&most, Answer::success(0));
    expect(&least[1..], refused(24, 3));
    expect(&[&least[..], &["0".to_owned()]].concat(), refused(24, 3));
    for (index, field) in fields.iter().enumerate() {
        for bad in field.bad() {
            let is_type = name == "Unknown_meta_event" && index == 0;
            // 97 and 95 are types too; those that have a record are tried in `refusals`.
            if !is_type || bad.starts_with('"') {
                let values = [&most[..index], &[bad], &most[index + 1..]].concat();
                expect(&values, refused(25, 3));
            }
        }
    }
}

/// The records that each text has once or once a track: Header's fields outside their
/// ranges are 25, and none of the others has fields.
fn structure(name: &str, fields: &[Field], tally: &mut Tally) {
    let text = text_with("");
    let Some((number, line)) = text.lines().enumerate().find(|(_, line)| line.contains(name))
    else {
        return tally.fault(&format!("no {name} in the text"));
    };
    let mut expect = |changed: &str, due| {
        let text = text.replace(line, changed);
        tally.expect(changed, answer_to_text(text.as_bytes(), 1), due);
    };
    expect(&format!("{line}, 0"), refused(24, number + 1));
    let values: Vec<&str> = line.split(", ").collect();
    if values.len() != 3 + fields.len() {
        return tally.fault(&format!("{name} has {} fields", values.len() - 3));
    }
    if !fields.is_empty() {
        let [least, most] = [0, 1].map(|end| {
            let good: Vec<String> = fields.iter().map(|field| field.good()[end].clone()).collect();
            format!("{}, {}", values[..3].join(", "), good.join(", "))
        });
        expect(&least, Answer::success(0));
        // Only the tracks that it counts are missing then.
        expect(&most, refused(26, text.lines().count()));
    }
    for (index, field) in fields.iter().enumerate() {
        for bad in field.bad() {
            let changed = [&values[..3 + index], &[&bad], &values[4 + index..]].concat();
            expect(&changed.join(", "), refused(25, number + 1));
        }
    }
}
