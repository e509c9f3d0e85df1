//! Lines and fields of a text.

/// One field. What stands between the quotes of a quoted text is kept as
/// written; `unescape` undoes its escapes.
#[derive(Clone, Copy, Debug, PartialEq, Eq)]
pub enum Field<'a> {
    Number(i64),
    Name(&'a [u8]),
    Quoted(&'a [u8]),
}

/// The lines of a text without their LF and the one CR before it.
pub fn lines(text: &[u8]) -> impl Iterator<Item = &[u8]> {
    text.split_inclusive(|byte| *byte == b'\n').map(|line| {
        let line = line.strip_suffix(b"\n").unwrap_or(line);
        line.strip_suffix(b"\r").unwrap_or(line)
    })
}

fn is_blank(byte: u8) -> bool {
    byte == b' ' || byte == b'\t'
}

/// Whether a line holds no record: only blanks, or a comment.
pub fn is_passed_over(line: &[u8]) -> bool {
    let first = line.iter().find(|byte| !is_blank(**byte));
    matches!(first, None | Some(b'#' | b';'))
}

/// The fields of a line, in order; `None` for one of no shape, after which
/// nothing more is given.
pub struct Fields<'a> {
    line: &'a [u8],
    /// Where the next field begins, or nothing after the last.
    at: Option<usize>,
}

impl<'a> Fields<'a> {
    pub fn of(line: &'a [u8]) -> Fields<'a> {
        Fields { line, at: Some(0) }
    }
}

impl<'a> Iterator for Fields<'a> {
    type Item = Option<Field<'a>>;

    fn next(&mut self) -> Option<Self::Item> {
        let mut at = self.at.take()?;
        while at < self.line.len() && is_blank(self.line[at]) {
            at += 1;
        }
        let rest = &self.line[at..];
        let (field, taken) = match rest.first() {
            Some(b'"') => quoted_field(rest),
            _ => bare_field(rest),
        };
        if field.is_some() && at + taken < self.line.len() {
            self.at = Some(at + taken + 1);
        }
        Some(field)
    }
}

/// The number or name at the front of `rest`, and the place of the comma or end.
fn bare_field(rest: &[u8]) -> (Option<Field<'_>>, usize) {
    let end = rest.iter().position(|byte| *byte == b',').unwrap_or(rest.len());
    let mut last = end;
    while last > 0 && is_blank(rest[last - 1]) {
        last -= 1;
    }
    let word = &rest[..last];
    let field =
        if is_name(word) { Some(Field::Name(word)) } else { number(word).map(Field::Number) };
    (field, end)
}

fn is_name(word: &[u8]) -> bool {
    !word.is_empty() && word.iter().all(|byte| byte.is_ascii_alphabetic() || *byte == b'_')
}

fn number(word: &[u8]) -> Option<i64> {
    let digits = word.strip_prefix(b"-").unwrap_or(word);
    if !(1..=10).contains(&digits.len()) || !digits.iter().all(u8::is_ascii_digit) {
        return None;
    }
    let size = digits.iter().fold(0, |size, digit| 10 * size + i64::from(digit - b'0'));
    if size > i64::from(u32::MAX) {
        return None;
    }
    Some(if digits.len() < word.len() { -size } else { size })
}

/// The quoted text at the front of `rest`, and the place of the comma or end.
fn quoted_field(rest: &[u8]) -> (Option<Field<'_>>, usize) {
    let mut at = 1;
    while let Some(taken) = quoted_unit(&rest[at..]) {
        at += taken;
    }
    if rest.get(at) != Some(&b'"') {
        return (None, at);
    }
    let inside = &rest[1..at];
    at += 1;
    while at < rest.len() && is_blank(rest[at]) {
        at += 1;
    }
    match rest.get(at) {
        None | Some(b',') => (Some(Field::Quoted(inside)), at),
        Some(_) => (None, at),
    }
}

/// How many bytes spell the next byte of a quoted text; nothing at the
/// closing quote, at a byte not permitted, and at the line's end.
fn quoted_unit(rest: &[u8]) -> Option<usize> {
    match rest {
        [b'"', b'"', ..] => Some(2),
        [b'"', ..] => None,
        [b'\\', b'\\', ..] => Some(2),
        [b'\\', b'0'..=b'3', b'0'..=b'7', b'0'..=b'7', ..] => Some(4),
        [b'\\', ..] => None,
        [b'\r', ..] => None,
        [_, ..] => Some(1),
        [] => None,
    }
}

/// The bytes that the inside of a quoted text stands for.
pub fn unescape(mut inside: &[u8]) -> Vec<u8> {
    let mut bytes = Vec::with_capacity(inside.len());
    while let Some(taken) = quoted_unit(inside) {
        bytes.push(match inside[..taken] {
            [_, high, middle, low] => 64 * (high - b'0') + 8 * (middle - b'0') + (low - b'0'),
            _ => inside[0],
        });
        inside = &inside[taken..];
    }
    bytes
}
