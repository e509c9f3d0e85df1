//! A model of spreadsheets: what they show when they have opened a sheet, and the ways
//! in which they save it again.

use crate::piece::Piece;

use super::text_lines::{lines_of, Field};
use super::Rng;

/// What a cell shows.
#[derive(Clone, Debug, PartialEq, Eq)]
pub struct Cell {
    pub content: Vec<u8>,
    /// Whether it is the text of its record.
    pub is_text: bool,
}

pub type Row = Vec<Cell>;

/// The cells of a sheet, which has neither quotes nor ends of line in its texts.
pub fn opened(sheet: &[u8]) -> Vec<Row> {
    let rows = sheet.split_inclusive(|byte| *byte == b'\n');
    rows.map(|row| cells_of(row.strip_suffix(b"\n").unwrap_or(row))).collect()
}

fn cells_of(row: &[u8]) -> Row {
    let new = || Cell { content: Vec::new(), is_text: false };
    let (mut cells, mut cell, mut inside) = (Vec::new(), new(), false);
    for byte in row {
        match byte {
            b'"' => {
                inside = !inside;
                cell.is_text = true;
            }
            b',' if !inside => cells.push(std::mem::replace(&mut cell, new())),
            _ => cell.content.push(*byte),
        }
    }
    cells.push(cell);
    cells
}

/// The cells of a piece whose texts were typed by hand: bytes as they are, but for
/// backslashes and for ends of line, which no cell can hold.
pub fn typed(rng: &mut Rng, piece: &Piece) -> Vec<Row> {
    let mut cell = |field: &Field| {
        let (content, is_text) = match field {
            Field::Number(number) => (number.to_string().into_bytes(), false),
            Field::Name(name) => (name.as_bytes().to_vec(), false),
            Field::Raw(bytes) => (bytes.clone(), false),
            Field::Quoted(text) => (typed_text(rng, text), true),
        };
        Cell { content, is_text }
    };
    lines_of(piece).iter().map(|line| line.iter().map(&mut cell).collect()).collect()
}

fn typed_text(rng: &mut Rng, text: &[u8]) -> Vec<u8> {
    // One byte in so many is in octal though it need not be; none if 0.
    let octals = rng.pick(&[0, 1, 9]);
    let mut typed = Vec::new();
    for byte in text {
        if b"\r\n".contains(byte) || octals > 0 && rng.one_in(octals) {
            typed.extend(format!("\\{byte:03o}").bytes());
        } else if *byte == b'\\' {
            typed.extend(b"\\\\");
        } else {
            typed.push(*byte);
        }
    }
    typed
}

/// How a table is saved.
#[derive(Clone, Debug)]
pub struct Way {
    pub separator: u8,
    /// One cell in so many is quoted though it need not be; none if 0.
    pub quotes: u64,
    pub padding: Padding,
    pub whole: Whole,
    /// Whether the empty cells at the end of a row are left out.
    pub drops_empty: bool,
    pub empty_rows: u64,
    pub byte_order_mark: bool,
    pub cr: bool,
    pub last_end: bool,
}

/// How many empty cells follow a row.
#[derive(Clone, Copy, Debug, PartialEq, Eq)]
pub enum Padding {
    None,
    /// All rows are as long as the longest, if that one is not very long.
    Rectangle,
    /// Up to three, row by row.
    Some,
}

/// Which rows stand in their first cell alone.
#[derive(Clone, Copy, Debug, PartialEq, Eq)]
pub enum Whole {
    None,
    Some,
    All,
}

/// A rectangle is padded to this width at most.
const WIDEST: usize = 24;

impl Way {
    pub fn any(rng: &mut Rng) -> Way {
        Way {
            separator: rng.pick(b",,;;\t"),
            quotes: rng.pick(&[0, 0, 1, 2, 7]),
            padding: rng.pick(&[Padding::None, Padding::Rectangle, Padding::Some]),
            whole: rng.pick(&[Whole::None, Whole::None, Whole::None, Whole::Some, Whole::All]),
            drops_empty: rng.one_in(3),
            empty_rows: rng.pick(&[0, 0, 1, 3]),
            byte_order_mark: rng.one_in(3),
            cr: rng.one_in(2),
            last_end: !rng.one_in(4),
        }
    }

    /// Whether there is but one column, saved with something else than commas: then no
    /// separator stands anywhere.
    fn has_one_column(&self) -> bool {
        self.whole == Whole::All && self.separator != b','
    }
}

/// The table saved in some way.
pub fn saved(rng: &mut Rng, rows: &[Row]) -> Vec<u8> {
    let way = Way::any(rng);
    saved_in(rng, &way, rows)
}

/// The table saved in this way.
pub fn saved_in(rng: &mut Rng, way: &Way, rows: &[Row]) -> Vec<u8> {
    let width = rows.iter().map(Vec::len).max().unwrap_or(0).min(WIDEST);
    let mut table = Vec::new();
    if way.byte_order_mark {
        table.extend(b"\xEF\xBB\xBF");
    }
    for (index, row) in rows.iter().enumerate() {
        let row = shown(rng, way, index, row);
        let follow = match way.padding {
            _ if way.has_one_column() => 0,
            Padding::None => 0,
            Padding::Rectangle => width.saturating_sub(row.len()),
            Padding::Some => rng.index(4),
        };
        put_row(rng, way, &[row, vec![Vec::new(); follow]].concat(), &mut table);
    }
    for _ in 0..way.empty_rows {
        let width = if way.has_one_column() { 1 } else { 1 + rng.index(5) };
        put_row(rng, way, &vec![Vec::new(); width], &mut table);
    }
    if !way.last_end {
        table.truncate(table.len() - if way.cr { 2 } else { 1 });
    }
    table
}

/// What the cells of a row hold when it is saved.
fn shown(rng: &mut Rng, way: &Way, index: usize, row: &Row) -> Vec<Vec<u8>> {
    let whole = match way.whole {
        Whole::None => false,
        // The first row tells the separator.
        Whole::Some => (index > 0 || way.separator == b',') && rng.one_in(3),
        Whole::All => true,
    };
    if whole {
        return vec![whole_line(row)];
    }
    let mut cells: Vec<Vec<u8>> = row.iter().map(|cell| cell.content.clone()).collect();
    if way.drops_empty && cells.last().is_some_and(Vec::is_empty) {
        cells.pop();
    }
    cells
}

/// A row as a line of a text.
fn whole_line(row: &Row) -> Vec<u8> {
    let field = |cell: &Cell| match cell.is_text {
        true => quoted(&cell.content),
        false => cell.content.clone(),
    };
    row.iter().map(field).collect::<Vec<_>>().join(&b',')
}

fn quoted(content: &[u8]) -> Vec<u8> {
    let mut quoted = vec![b'"'];
    for byte in content {
        quoted.push(*byte);
        if *byte == b'"' {
            quoted.push(b'"');
        }
    }
    quoted.push(b'"');
    quoted
}

/// A cell with the separator or a quote in it is always quoted.
fn put_row(rng: &mut Rng, way: &Way, cells: &[Vec<u8>], table: &mut Vec<u8>) {
    for (index, content) in cells.iter().enumerate() {
        if index > 0 {
            table.push(way.separator);
        }
        let needed = content.contains(&way.separator) || content.contains(&b'"');
        if needed || way.quotes > 0 && rng.one_in(way.quotes) {
            table.extend(quoted(content));
        } else {
            table.extend(content);
        }
    }
    table.extend(if way.cr { &b"\r\n"[..] } else { b"\n" });
}
