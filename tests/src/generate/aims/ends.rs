//! Ends of lines and of the text, each way of spelling loosely alone, and texts of
//! a few bytes.

use super::super::text_lines::{loosely, plain, Ends, Looseness};
use super::{good_lines, line_count, some_of, spots, Aim, Made};

/// Whole texts with number and line due.
const SMALL: [(&str, u8, usize); 38] = [
    ("", 28, 1),
    ("\n", 28, 2),
    ("\r", 28, 2),
    ("\r\n", 28, 2),
    ("\n\n", 28, 3),
    ("\n\r", 28, 3),
    ("\r\r", 22, 1),
    ("\r\r\n", 22, 1),
    ("\r \n", 22, 1),
    (" \r\n", 28, 2),
    (" ", 28, 2),
    ("\t\n", 28, 2),
    ("\u{b}", 22, 1),
    ("\0", 22, 1),
    ("#", 28, 2),
    (";\n", 28, 2),
    ("\r#", 22, 1),
    ("\"", 22, 1),
    ("\"\"", 24, 1),
    ("\"\"\"", 22, 1),
    ("\"\"\"\"", 24, 1),
    (",", 22, 1),
    (",,", 22, 1),
    ("0", 24, 1),
    ("-", 22, 1),
    ("x", 24, 1),
    ("x\r", 24, 1),
    ("0,0", 24, 1),
    ("0,0,", 22, 1),
    ("0,0,0", 23, 1),
    ("0,0,x", 23, 1),
    ("0,0,\"\"", 23, 1),
    ("\u{feff}0, 0, Header, 0, 1, 96", 22, 1),
    ("0, 0, Header, 0, 1, 96", 28, 2),
    ("0, 0, Header, 0, 1, 96\n", 28, 2),
    ("0, 0, Header, 0, 1, 96\n\n", 28, 3),
    ("0, 0, End_of_file", 26, 1),
    ("1, 0, Start_track", 26, 1),
];

/// What a good text ends with in place of its last LF, with the number due; the
/// place is that many lines after End_of_file's.
const LAST: [(&str, u8, usize); 20] = [
    ("", 0, 0),
    ("\r", 0, 0),
    ("\r\n", 0, 0),
    (" ", 0, 0),
    ("\t\r", 0, 0),
    ("\n\r", 0, 0),
    ("\n\n\n", 0, 0),
    ("\n#", 0, 0),
    ("\n \t;", 0, 0),
    ("\n\r\n\r", 0, 0),
    ("\r\r", 22, 0),
    ("\r ", 22, 0),
    (",", 22, 0),
    ("\0", 22, 0),
    ("\n\0", 22, 1),
    ("\n\r\r", 22, 1),
    ("\nx", 24, 1),
    ("\n\n0, 0, End_of_file", 26, 2),
    ("\n0, 0, End_of_file\n", 26, 1),
    ("\n#\n1, 0, Tempo, 0", 25, 2),
];

/// How a line of an event ends before its LF, with the number due.
const LINE: [(&str, u8); 8] = [
    ("\r", 0),
    (" \r", 0),
    ("\t\t\r", 0),
    ("\r\r", 22),
    ("\r ", 22),
    ("\r\t\r", 22),
    ("\r#", 22),
    (" #", 22),
];

pub fn aims() -> Vec<Aim> {
    let mut aims = Vec::new();
    for (text, number, line) in SMALL {
        aims.push(Aim::new(format!("text {text:?}"), number, move |_| {
            Made::Text(text.as_bytes().to_vec(), line)
        }));
    }
    for (end, number, after) in LAST {
        aims.push(Aim::new(format!("last line ended by {end:?}"), number, move |rng| {
            let mut text = plain(&good_lines(rng));
            let last = line_count(&text);
            text.pop();
            text.extend(end.bytes());
            Made::Text(text, if number > 0 { last + after } else { 0 })
        }));
    }
    for (end, number) in LINE {
        aims.push(Aim::new(format!("a line ended by {end:?} and LF"), number, move |rng| {
            let mut lines = good_lines(rng);
            let at = some_of(rng, &spots(&lines)).index;
            let rest = lines.split_off(at + 1);
            let mut text = plain(&lines);
            text.pop();
            let text = [&text, end.as_bytes(), b"\n", &plain(&rest)].concat();
            Made::Text(text, if number > 0 { at + 1 } else { 0 })
        }));
    }
    aims.push(Aim::new("CR for every LF", 22, |rng| {
        let mut text = plain(&good_lines(rng));
        text.iter_mut().filter(|byte| **byte == b'\n').for_each(|byte| *byte = b'\r');
        Made::Text(text, 1)
    }));
    aims.push(Aim::new("as document 01 writes it", 0, |rng| {
        Made::Text(plain(&good_lines(rng)), 0)
    }));
    aims.extend(looseness());
    aims
}

/// Each way alone, and in fact met.
fn looseness() -> Vec<Aim> {
    const NONE: Looseness = Looseness::NONE;
    [
        ("nothing round commas", NONE),
        ("spaces", Looseness { blanks: b" ", ..NONE }),
        ("tabs", Looseness { blanks: b"\t", ..NONE }),
        ("spaces and tabs", Looseness { blanks: b" \t", ..NONE }),
        ("blank lines", Looseness { passed_over: &[b"", b" ", b"\t"], ..NONE }),
        ("comment lines", Looseness { passed_over: &[b"#a", b"; b", b" # \"c"], ..NONE }),
        ("other case", Looseness { cases: true, ..NONE }),
        ("leading zeros", Looseness { zeros: true, ..NONE }),
        ("needless escapes", Looseness { escapes: true, ..NONE }),
        ("CR LF", Looseness { ends: Ends::CrLf, ..NONE }),
        ("LF and CR LF", Looseness { ends: Ends::Mixed, ..NONE }),
    ]
    .into_iter()
    .map(|(name, loose)| {
        Aim::new(format!("loosely: {name}"), 0, move |rng| loop {
            let lines = good_lines(rng);
            let (tight, _) = loosely(rng, &NONE, &lines);
            let (text, _) = loosely(rng, &loose, &lines);
            // Escapes that are needless, and not only those left out, make it longer.
            let longer = !loose.escapes || text.len() > tight.len();
            if name == "nothing round commas" || text != tight && longer {
                return Made::Text(text, 0);
            }
        })
    })
    .collect()
}
