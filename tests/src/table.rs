//! The saved table: the text that is made of whatever a spreadsheet saved, line for line.

use std::borrow::Cow;

use crate::operations::deliver;
use crate::piece::TextKind;
use crate::refusal::{Answer, Number, Refusal};
use crate::text_field::{is_passed_over, lines};
use crate::{TABLE_MAX, TEXT_MAX};

/// Room that is enough for the text of any table of so many bytes. A line takes twice its
/// bytes and 2, as `x"` does, and all lines but the last have an LF.
pub fn room_enough(length: usize) -> usize {
    2 * length + 2
}

/// As it is exported.
pub fn sheet_to_text(saved: &[u8], room: &mut [u8]) -> Answer {
    if saved.len() > TABLE_MAX {
        return Refusal { number: Number::TableTooLong, place: 0 }.into();
    }
    let text = table_text(saved);
    if text.len() > TEXT_MAX {
        return Refusal { number: Number::TextTooLong, place: 0 }.into();
    }
    deliver(&text, room)
}

/// The text of a table; there is one for any bytes.
pub fn table_text(saved: &[u8]) -> Vec<u8> {
    let table = saved.strip_prefix(b"\xEF\xBB\xBF").unwrap_or(saved);
    let separator = separator_of(table);
    let mut text = Vec::new();
    for line in lines(table) {
        match line_text(line, separator) {
            Ok(line) => text.extend_from_slice(&line),
            Err(Unclosed) => text.push(b'"'),
        }
        text.push(b'\n');
    }
    text
}

/// A quote that is not closed, or something behind the closing one.
struct Unclosed;

/// Found in the first line that the reader of texts would not pass over.
fn separator_of(table: &[u8]) -> u8 {
    let first = lines(table).find(|line| !is_passed_over(line)).unwrap_or(b"");
    *b",;\t".iter().find(|separator| first.contains(separator)).unwrap_or(&b',')
}

/// Rules 3 to 6: a remark, a whole line in the first cell, or a row of cells.
fn line_text(line: &[u8], separator: u8) -> Result<Cow<'_, [u8]>, Unclosed> {
    if is_remark(line, separator) {
        return Ok(line.into());
    }
    if filled(line, separator)? > 1 {
        return row_text(line, separator).map(Cow::from);
    }
    let first = Cells::of(line, separator).next().expect("every line has a cell")?.content();
    if is_remark(&first, b',') {
        return Ok(first);
    }
    row_text(&first, b',').map(Cow::from)
}

fn is_blank(byte: u8, separator: u8) -> bool {
    byte == b' ' || byte == b'\t' && separator != b'\t'
}

fn is_remark(line: &[u8], separator: u8) -> bool {
    match line.iter().find(|byte| !is_blank(**byte, separator)) {
        Some(b'#') => true,
        Some(b';') => separator != b';',
        _ => false,
    }
}

#[derive(Clone, Copy)]
enum Cell<'a> {
    Bare(&'a [u8]),
    /// What stands between the quotes, with quotes in it still doubled.
    Quoted(&'a [u8]),
}

impl<'a> Cell<'a> {
    fn content(self) -> Cow<'a, [u8]> {
        match self {
            Cell::Bare(content) => content.into(),
            Cell::Quoted(inside) => {
                let mut content = Vec::with_capacity(inside.len());
                let mut bytes = inside.iter();
                while let Some(byte) = bytes.next() {
                    content.push(*byte);
                    if *byte == b'"' {
                        bytes.next();
                    }
                }
                content.into()
            }
        }
    }

    /// Nothing but spaces and tabs, whatever the separator.
    fn is_empty(self) -> bool {
        let (Cell::Bare(bytes) | Cell::Quoted(bytes)) = self;
        bytes.iter().all(|byte| *byte == b' ' || *byte == b'\t')
    }
}

/// The cells of a line, in order; after an error nothing more is given.
struct Cells<'a> {
    /// From the next cell on, or nothing after the last.
    rest: Option<&'a [u8]>,
    separator: u8,
}

impl<'a> Cells<'a> {
    fn of(line: &'a [u8], separator: u8) -> Cells<'a> {
        Cells { rest: Some(line), separator }
    }

    fn is_blank(&self, byte: u8) -> bool {
        is_blank(byte, self.separator)
    }

    /// A bare cell goes up to the separator, with its blanks.
    fn bare(&mut self, rest: &'a [u8]) -> Cell<'a> {
        let end = rest.iter().position(|byte| *byte == self.separator).unwrap_or(rest.len());
        self.rest = rest.get(end + 1..);
        Cell::Bare(&rest[..end])
    }

    /// Up to the quote that is not doubled; `rest` begins behind the opening one.
    fn quoted(&mut self, rest: &'a [u8]) -> Result<Cell<'a>, Unclosed> {
        let mut end = 0;
        loop {
            match &rest[end..] {
                [] => return Err(Unclosed),
                [b'"', b'"', ..] => end += 2,
                [b'"', ..] => break,
                _ => end += 1,
            }
        }
        let mut after = &rest[end + 1..];
        while let [byte, further @ ..] = after {
            if *byte == self.separator {
                self.rest = Some(further);
                break;
            }
            if !self.is_blank(*byte) {
                return Err(Unclosed);
            }
            after = further;
        }
        Ok(Cell::Quoted(&rest[..end]))
    }
}

impl<'a> Iterator for Cells<'a> {
    type Item = Result<Cell<'a>, Unclosed>;

    fn next(&mut self) -> Option<Self::Item> {
        let rest = self.rest.take()?;
        let first = rest.iter().position(|byte| !self.is_blank(*byte)).unwrap_or(rest.len());
        Some(match &rest[first..] {
            [b'"', inside @ ..] => self.quoted(inside),
            _ => Ok(self.bare(rest)),
        })
    }
}

/// How many cells there are up to the last that is not empty.
fn filled(line: &[u8], separator: u8) -> Result<usize, Unclosed> {
    let mut filled = 0;
    for (cell, count) in Cells::of(line, separator).zip(1..) {
        if !cell?.is_empty() {
            filled = count;
        }
    }
    Ok(filled)
}

/// Rule 6: the cells of a line become fields.
fn row_text(line: &[u8], separator: u8) -> Result<Vec<u8>, Unclosed> {
    let filled = filled(line, separator)?;
    let third = Cells::of(line, separator).nth(2).transpose()?;
    let text_cell = third.and_then(|third| text_cell(&third.content()));
    // Cells of a text are put, empty or not; any others up to the last that is not empty.
    let due = filled.max(text_cell.map_or(0, |text| text + 1));
    let (mut row, mut count) = (Vec::new(), 0);
    for cell in Cells::of(line, separator).take(due) {
        if count > 0 {
            row.push(b',');
        }
        let content = cell?.content();
        if text_cell == Some(count) || content.iter().any(|byte| b",\"".contains(byte)) {
            put_quoted(&mut row, &content);
        } else {
            row.extend_from_slice(&content);
        }
        count += 1;
    }
    if text_cell == Some(count) {
        row.extend(b",\"\"");
    }
    Ok(row)
}

/// Which cell holds the text, counted from 0, of a record with this third cell.
fn text_cell(third: &[u8]) -> Option<usize> {
    let is_blank = |byte: &u8| *byte == b' ' || *byte == b'\t';
    let start = third.iter().position(|byte| !is_blank(byte))?;
    let end = third.iter().rposition(|byte| !is_blank(byte))?;
    let is = |name: &str| name.as_bytes().eq_ignore_ascii_case(&third[start..=end]);
    if TextKind::ALL.iter().any(|kind| is(kind.name())) {
        return Some(3);
    }
    is("Key_signature").then_some(4)
}

/// In quotes, each quote twice; backslashes stay.
fn put_quoted(row: &mut Vec<u8>, content: &[u8]) {
    row.push(b'"');
    for byte in content {
        row.push(*byte);
        if *byte == b'"' {
            row.push(b'"');
        }
    }
    row.push(b'"');
}
