//! Runs of file_to_sheet and sheet_to_text: that they are good when the programs agree, and
//! that the files and tables show each fault that is planted in one of them.

use second::compare::{Archive, Operation};
use second::generate::{
    damaged_table_case, file_case, limit_cases, random_table_case, saved_case, sheet_text_files,
    short_table, sung_file, table_limit_cases, LimitTable, Rng,
};
use second::refusal::Answer;
use second::run::Run;
use second::sheet::{self, file_to_sheet, sheet_of};
use second::table::{self, sheet_to_text, table_text};

const SHEET: Operation = Operation {
    enough: sheet::room_enough,
    ..Operation::new(
        "file_to_sheet",
        |file, _, room| file_to_sheet(file, room),
        |file, _, room| file_to_sheet(file, room).packed(),
    )
};

const TABLE: Operation = Operation {
    enough: table::room_enough,
    ..Operation::new(
        "sheet_to_text",
        |saved, _, room| sheet_to_text(saved, room),
        |saved, _, room| sheet_to_text(saved, room).packed(),
    )
};

/// The seeds of tables, and how many of the short ones are taken.
const SEEDS: u64 = 600;
const SHORT: u64 = 7_381;

fn sheet_run<'a>(operation: &'a Operation, files: &[Vec<u8>], seeds: u64) -> Run<'a> {
    let mut run = Run::of(operation).silent();
    run.source("texts", 0..files.len() as u64, |index| files[index as usize].clone());
    run.source("sung", 0..seeds, |seed| sung_file(&mut Rng::new(seed)));
    run.source("generated", 0..seeds, file_case);
    run
}

fn table_run<'a>(operation: &'a Operation, limits: &[LimitTable]) -> Run<'a> {
    let mut run = Run::of(operation).silent();
    run.source("saved", 0..SEEDS, saved_case);
    run.source("damaged", 0..SEEDS, damaged_table_case);
    run.source("random", 0..2 * SEEDS, random_table_case);
    run.source("short", 0..SHORT, short_table);
    run.table_limits("limits", limits);
    run
}

#[test]
fn good_runs_are_good() {
    let due: Vec<u8> = (0..=3).chain(5..=14).collect();
    let mut run = sheet_run(&SHEET, &sheet_text_files(), 4_000);
    let limits: Vec<Vec<u8>> = limit_cases().into_iter().map(|case| case.file).collect();
    run.source("limits", 0..limits.len() as u64, |index| limits[index as usize].clone());
    assert_eq!(run.differences(), 0);
    assert!(run.report(&due));
    // What is not due is not passed over.
    assert!(!run.report(&due[1..]));
    let due = [0, 14, 21, 38];
    // 38, one that is just not that, 0 and 21.
    let run = table_run(&TABLE, &table_limit_cases()[..4]);
    assert_eq!(run.differences(), 0);
    assert!(run.report(&due));
    assert!(!run.report(&due[1..]));
    assert!(!table_run(&TABLE, &[]).report(&due), "21 and 38 were not met");
}

/// Hands over what is made otherwise than it should be.
fn delivered(made: &[u8], room: &mut [u8]) -> u64 {
    match room.get_mut(..made.len()) {
        Some(start) => {
            start.copy_from_slice(made);
            Answer::success(made.len()).packed()
        }
        None => Answer::room_needed(made.len()).packed(),
    }
}

/// With one part in place of another.
fn taking(bytes: &[u8], from: &[u8], to: &[u8]) -> Vec<u8> {
    let (mut taken, mut at) = (Vec::new(), 0);
    while at < bytes.len() {
        if bytes[at..].starts_with(from) {
            taken.extend(to);
            at += from.len();
        } else {
            taken.push(bytes[at]);
            at += 1;
        }
    }
    taken
}

/// The sheet with a change.
fn sheet_changed(file: &[u8], room: &mut [u8], change: impl Fn(&[u8]) -> Vec<u8>) -> u64 {
    match second::read_file::read_file(file) {
        Ok(piece) => delivered(&change(&sheet_of(&piece)), room),
        Err(_) => file_to_sheet(file, room).packed(),
    }
}

macro_rules! sheet_has {
    ($to:expr, $from:expr) => {
        |file, _, room| sheet_changed(file, room, |sheet| taking(sheet, $from, $to))
    };
}

const PLANTED_IN_SHEETS: [(&str, Archive); 17] = [
    ("a digit stands", sheet_has!(b"7", b"\\067")),
    ("a word's last byte stands", sheet_has!(b"true\"", b"tru\\145\"")),
    ("the word of many letters forgotten", sheet_has!(b"EQQUNNGITSOQ\"", b"EQQUNNGITSO\\121\"")),
    ("a small word is none", sheet_has!(b"wahr\"", b"wah\\162\"")),
    ("a blank after a word stands", sheet_has!(b"TRUE \"", b"TRUE\\040\"")),
    ("a mark stands first", sheet_has!(b"\"-", b"\"\\055")),
    ("a blank stands first", sheet_has!(b"\" ", b"\"\\040")),
    ("a comma stands last", sheet_has!(b",\"\n", b"\\054\"\n")),
    ("a blank stands last behind a comma", sheet_has!(b", \"", b",\\040\"")),
    ("a last blank never stands", sheet_has!(b"a\\040\"", b"a \"")),
    ("no last blank behind a mark", sheet_has!(b"!\\040\"", b"! \"")),
    ("8,192 bytes stand", |file, _, room| {
        let (octal, plain) = (b"\\141".repeat(8_192), [b'a'; 8_192]);
        let whole = |text: &[u8]| [b"\"", text, b"\"\n"].concat();
        sheet_changed(file, room, |sheet| taking(sheet, &whole(&octal), &whole(&plain)))
    }),
    ("8,191 bytes do not", |file, _, room| {
        let (octal, plain) = (b"\\141".repeat(8_191), [b'a'; 8_191]);
        let whole = |text: &[u8]| [b"\"", text, b"\"\n"].concat();
        sheet_changed(file, room, |sheet| taking(sheet, &whole(&plain), &whole(&octal)))
    }),
    ("a quote is doubled", sheet_has!(b"\"\"", b"\\042")),
    ("127 stands", sheet_has!(b"\x7F", b"\\177")),
    ("a blank between fields", sheet_has!(b",Lyric_t, \"", b",Lyric_t,\"")),
    ("a refusal writes", |file, _, room| {
        let answer = file_to_sheet(file, room);
        if answer.number != 0 {
            room.iter_mut().take(1).for_each(|byte| *byte = b'0');
        }
        answer.packed()
    }),
];

#[test]
fn faults_planted_in_sheets_are_seen() {
    let files = sheet_text_files();
    for (what, archive) in PLANTED_IN_SHEETS {
        let differences = sheet_run(&Operation { archive, ..SHEET }, &files, 400).differences();
        println!("{what}: {differences} differences");
        assert!(differences > 0, "{what} is not seen");
    }
}

/// The text of a table whose lines are changed, beside what they were in the table.
fn lines_changed(saved: &[u8], room: &mut [u8], change: fn(&[u8], &[u8]) -> Vec<u8>) -> u64 {
    let text = table_text(saved);
    if text.len() > second::TEXT_MAX || saved.len() > second::TABLE_MAX {
        return sheet_to_text(saved, room).packed();
    }
    let table = saved.strip_prefix(b"\xEF\xBB\xBF").unwrap_or(saved);
    let rows = table.split_inclusive(|byte| *byte == b'\n');
    let lines = text.split_inclusive(|byte| *byte == b'\n');
    let mut changed = Vec::new();
    for (row, line) in rows.zip(lines) {
        let row = row.strip_suffix(b"\n").unwrap_or(row);
        changed.extend(change(row, &line[..line.len() - 1]));
        changed.push(b'\n');
    }
    delivered(&changed, room)
}

macro_rules! lines_have {
    (|$row:ident, $line:ident| $change:expr) => {
        |saved, _, room| lines_changed(saved, room, |$row, $line| $change)
    };
}

macro_rules! table_taken {
    ($from:expr, $to:expr) => {
        |saved, _, room| sheet_to_text(&taking(saved, $from, $to), room).packed()
    };
}

/// A line of a record with a text, up to that.
fn cut_after_text(line: &[u8]) -> Vec<u8> {
    let Some(start) = line.windows(4).position(|part| part == b"_t,\"") else {
        return line.to_vec();
    };
    let mut end = start + 4;
    while line.len() > end && (line[end] != b'"' || line.get(end + 1) == Some(&b'"')) {
        end += if line[end] == b'"' { 2 } else { 1 };
    }
    line[..(end + 1).min(line.len())].to_vec()
}

/// A record whose name is not known, as if it were another.
fn name_unknown(saved: &[u8], room: &mut [u8], name: &[u8]) -> u64 {
    let other = vec![b'Q'; name.len()];
    delivered(&taking(&table_text(&taking(saved, name, &other)), &other, name), room)
}

const PLANTED_IN_TABLES: [(&str, Archive); 22] = [
    (
        "a row that begins with ; is a remark",
        lines_have!(|row, line| match row {
            [b';', ..] => row.to_vec(),
            _ => line.to_vec(),
        }),
    ),
    (
        "a quote not closed is passed through",
        lines_have!(|row, line| match line {
            b"\"" => row.to_vec(),
            _ => line.to_vec(),
        }),
    ),
    (
        "a missing text is not made",
        lines_have!(|row, line| match row.ends_with(b"Lyric_t") {
            true => line.strip_suffix(b",\"\"").unwrap_or(line).to_vec(),
            false => line.to_vec(),
        }),
    ),
    (
        "a text with nothing in it is left out",
        lines_have!(|row, line| {
            let empty = row.ends_with(b"Lyric_t,") && line.ends_with(b",\"\"");
            line[..line.len() - if empty { 3 } else { 0 }].to_vec()
        }),
    ),
    ("a cell with a comma is put bare", lines_have!(|_row, line| taking(line, b"\"a,b\"", b"a,b"))),
    ("a quote is put once", lines_have!(|_row, line| taking(line, b"\"a\"\"b\"", b"\"a\"b\""))),
    (
        "an empty cell is kept",
        lines_have!(|row, line| match row {
            [.., b',', b','] => [line, b","].concat(),
            _ => line.to_vec(),
        }),
    ),
    (
        "a CR is kept",
        lines_have!(|row, line| match row {
            [.., b'\r'] => [line, b"\r"].concat(),
            _ => line.to_vec(),
        }),
    ),
    (
        "rule 5 twice",
        lines_have!(|_row, line| {
            let whole = line.len() > 1 && line[0] == b'"';
            if whole {
                table_text(line).strip_suffix(b"\n").unwrap().to_vec()
            } else {
                line.to_vec()
            }
        }),
    ),
    ("a backslash is doubled", lines_have!(|_row, line| taking(line, b"\\", b"\\\\"))),
    ("a cell after the text is left out", lines_have!(|_row, line| cut_after_text(line))),
    ("blanks of a bare text are dropped", lines_have!(|_row, line| taking(line, b"\" ", b"\""))),
    ("the byte order mark is kept", |saved, _, room| {
        let kept = saved.starts_with(b"\xEF\xBB\xBF");
        let text = table_text(saved);
        delivered(&if kept { [b"\xEF\xBB\xBF", &text[..]].concat() } else { text }, room)
    }),
    ("a byte order mark is dropped anywhere", table_taken!(b"\n\xEF\xBB\xBF", b"\n")),
    ("two CRs are dropped", table_taken!(b"\r\r\n", b"\r\n")),
    ("a tab is a blank where it separates", table_taken!(b"\t\"", b"\"")),
    ("a tab does not separate", table_taken!(b"\t", b" ")),
    ("lyric_t is no name", |saved, _, room| name_unknown(saved, room, b"lyric_t")),
    ("Cue_point_t is no text", |saved, _, room| name_unknown(saved, room, b"Cue_point_t")),
    ("a name with blanks is none", |saved, _, room| name_unknown(saved, room, b"\tTitle_t ")),
    ("21 one byte late", |saved, _, room| {
        let answer = sheet_to_text(saved, room);
        let length = if answer.number == 21 { table_text(saved).len() } else { 0 };
        if length == second::TEXT_MAX + 1 {
            return Answer::room_needed(length).packed();
        }
        answer.packed()
    }),
    ("38 one byte early", |saved, _, room| {
        if saved.len() == second::TABLE_MAX {
            return Answer { number: 38, place: 0, length: 0 }.packed();
        }
        sheet_to_text(saved, room).packed()
    }),
];

#[test]
fn faults_planted_in_tables_are_seen() {
    let limits = table_limit_cases();
    for (what, archive) in PLANTED_IN_TABLES {
        let limits = match &what[..2] {
            "38" => &limits[1..2],
            "21" => &limits[3..4],
            _ => &[],
        };
        let differences = table_run(&Operation { archive, ..TABLE }, limits).differences();
        println!("{what}: {differences} differences");
        assert!(differences > 0, "{what} is not seen");
    }
}
