//! Tables at the limits of size and past them, by hand.

use crate::refusal::Answer;
use crate::{TABLE_MAX, TEXT_MAX};

/// What a table is, the answer due if no room is lent, and the rooms to try it in. It is
/// made when it is asked for: such tables are large.
pub struct LimitTable {
    pub what: &'static str,
    pub due: Answer,
    pub rooms: &'static [usize],
    make: fn() -> Vec<u8>,
}

impl LimitTable {
    pub fn table(&self) -> Vec<u8> {
        (self.make)()
    }
}

const TABLE_TOO_LONG: Answer = Answer { number: 38, place: 0, length: 0 };
const TEXT_TOO_LONG: Answer = Answer { number: 21, place: 0, length: 0 };
/// 14, with the longest text there is.
const LONGEST: Answer = Answer { number: 14, place: 0, length: TEXT_MAX };
/// 14, with a quote and an LF.
const REFUSED_LINE: Answer = Answer { number: 14, place: 0, length: 2 };
/// The length of `bare_quotes(TEXT_MAX + 1)`.
const BARE_QUOTES: usize = 16_777_217;

pub fn table_limit_cases() -> Vec<LimitTable> {
    let case = |what, due, rooms, make| LimitTable { what, due, rooms, make };
    let (both, exact, short) = (&[TEXT_MAX - 1, TEXT_MAX], &[TEXT_MAX], &[TEXT_MAX - 1]);
    let enough = &[2 * BARE_QUOTES + 2, 2 * BARE_QUOTES + 1];
    vec![
        case("one byte over the limit of tables", TABLE_TOO_LONG, &[4_096], || {
            open_quote(TABLE_MAX + 1)
        }),
        case("the longest table, of one line", REFUSED_LINE, &[2], || open_quote(TABLE_MAX)),
        case("the longest text, of bare quotes", LONGEST, both, || bare_quotes(TEXT_MAX)),
        case("one byte more", TEXT_TOO_LONG, enough, || bare_quotes(TEXT_MAX + 1)),
        case("the longest text, a remark without LF", LONGEST, exact, || remark(TEXT_MAX)),
        case("one byte more", TEXT_TOO_LONG, &[0], || remark(TEXT_MAX + 1)),
        case("the longest text, of empty lines", LONGEST, short, || b"\n".repeat(TEXT_MAX)),
        case("one line more", TEXT_TOO_LONG, &[0], || b"\n".repeat(TEXT_MAX + 1)),
        case("the longest text, of texts missing", LONGEST, exact, || missing_texts(TEXT_MAX)),
        case("one byte more", TEXT_TOO_LONG, &[0], || missing_texts(TEXT_MAX + 1)),
        case("the longest text, of rows in one cell", LONGEST, short, || whole_rows(TEXT_MAX)),
        case("one byte more", TEXT_TOO_LONG, &[0], || whole_rows(TEXT_MAX + 1)),
    ]
}

/// A quote that nothing closes.
fn open_quote(size: usize) -> Vec<u8> {
    let mut table = vec![b'a'; size];
    table[0] = b'"';
    table
}

fn remark(size: usize) -> Vec<u8> {
    vec![b'#'; size - 1]
}

/// Two cells whose text is so long: of `x` and quotes, each of which is doubled, and of
/// one or two letters.
fn bare_quotes(size: usize) -> Vec<u8> {
    // Two quotes round the first cell, its letter, a comma, the second cell, the LF.
    let letters = [&b"y"[..], b"yy"][size % 2];
    let quotes = (size - 5 - letters.len()) / 2;
    [&b"x"[..], &vec![b'"'; quotes], b",", letters].concat()
}

/// Rows whose text is missing, which makes each 3 bytes longer.
fn missing_texts(size: usize) -> Vec<u8> {
    let (row, long) = (b"1,0,Lyric_t\n", 15);
    [row.repeat(size / long), b"#".repeat(size % long - 1)].concat()
}

/// Rows that stand quoted in one cell.
fn whole_rows(size: usize) -> Vec<u8> {
    let (row, long) = (b"\"1,0,Lyric_t,\"\"a\"\"\",,\r\n", 16);
    [row.repeat(size / long - 1), b"#".repeat(size % long + long - 1)].concat()
}
