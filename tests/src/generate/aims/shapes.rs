//! Shapes of fields: what is a number, a name, a quoted text, and what is none.

use super::super::text_lines::Field;
use super::{line_at, probed, Aim};

/// Whole lines or what follows Track and Time; see `line_at`.
const SHAPELESS: [&str; 71] = [
    // Numbers: ten digits, 4,294,967,295 without the sign, one ASCII hyphen.
    "Tempo, 00000000001", "Tempo, 12345678901", "Tempo, -00000000000", "Tempo, 4294967296",
    "Tempo, -4294967296", "Tempo, 9999999999", "Tempo, -9999999999", "Tempo, 10000000000",
    "@$n, 4294967296, Tempo, 1", "@4294967296, 0, Tempo, 1", "@$n, 00000000000, Tempo, 1",
    "System_exclusive, 4294967296", "System_exclusive, 00000000000", "Tempo, +1", "Tempo, +0",
    "@+1, 0, Tempo, 1", "Tempo, -", "Tempo, --1", "Tempo, - 1", "Tempo, 1-", "Tempo, 1 2",
    "Tempo, 1.0", "Tempo, 1e3", "Tempo, 0x10", "Tempo, 1x", "Tempo, x1", "Tempo, \u{2212}1",
    "Tempo, '1'", "Tempo, 1_000", "Tempo, 1\u{b}", "Tempo, \u{a0}1",
    // Empty fields and commas too many.
    "Tempo, ", "Tempo,,1", "Tempo, 1,", "Tempo, 1,,", "@,1, $t, Tempo, 1", "@,", "@1,", "@,,",
    "@$n, , Tempo, 1", "End_track,", "Text_t, \"a\",", "Text_t,,\"a\"", "System_exclusive, 0,",
    // Names.
    "Note-on", "Note on", "Note1", "Note.on", "caf\u{e9}", "Tempo\0, 1",
    // Quoted texts: unended, something after the closing quote, quotes within words.
    "Text_t, \"", "Text_t, \"a", "Text_t, \"a\"\"", "Text_t, \"\"\"", "Text_t, a\"",
    "Text_t, \"a\"b", "Text_t, \"a\"1", "Text_t, \"a\" \"b\"", "Text_t, \"a\";", "Text_t, \"a\"#",
    "Text_t, \"a\"\\", "Text_t, x\"a\"", "Text_t, 'a'", "@\"1", "@\"1\"\", $t, Tempo, 1",
    // CR and LF; the LF ends the line.
    "Text_t, \"a\rb\"", "Text_t, \"a\r\"", "Text_t, \"\r\"", "Text_t, \"a\nb\"", "Tempo\r, 1",
    "@\r1, $t, Tempo, 1",
];

/// Within quotes, after one backslash: three octal digits to 377, or a backslash.
const NO_ESCAPES: [&str; 22] = [
    "400", "477", "500", "777", "378", "387", "380", "800", "900", "08", "1", "12", "7", "0",
    "12a", "n", "r", "t", "x41", " ", "", "\\\\",
];

/// Good events, near what is none.
const SHAPES: [&str; 36] = [
    "Tempo, 0000000001", "Tempo, 0016777215", "Sequence_number, -0",
    "Sequence_number, -0000000000", "Sequence_number, 0000000000",
    "Key_signature, -0000000007, \"major\"", "Key_signature, -0, \"minor\"",
    "System_exclusive, -0", "System_exclusive, 0000000001, -0", "Program_c, -0, -0",
    "Unknown_meta_event, 0000000126, 0000000000", "Text_t, \"\"", "Text_t, \"\"\"\"",
    "Text_t, \"a\"\"\"", "Text_t, \"\"\"a\"", "Text_t, \"a,b\"", "Text_t, \"\\377\"",
    "Text_t, \"\\000\"", "Text_t, \"\\3770\"", "Text_t, \"\\\\400\"", "Text_t, \"\\\\\"",
    "Text_t, \"\\042\"", "Text_t, \"\\134\"", "Text_t, \"\\134400\"", "Text_t, \"\\015\\012\"",
    "Text_t, \"\t\"", "Text_t, \"#;\"", "Text_t, \"'\"", "Text_t, \"\u{b}\u{c}\u{0}\"",
    "Text_t, \"\u{e9}\u{a0}\"", "Text_t, \"\u{7f}\"", "Text_t, \" \"", "tEMPO, 1", "TEMPO, 1",
    "tempo, 1", "midi_PORT, 1",
];

/// Lines without a record, in a track.
const PASSED_OVER: [&str; 12] = [
    "@#", "@;", "@# , \"", "@; 1, 0, Tempo, +", "@#\"a", "@\t#", "@ ;", "@#\r\r", "@#\r", "@ \t ",
    "@#0, 0, End_of_file", "@;\u{0}\u{ff}",
];

pub fn aims() -> Vec<Aim> {
    let mut aims = Vec::new();
    aims.extend(SHAPELESS.map(|line| Aim::probe(22, line)));
    for digits in NO_ESCAPES {
        aims.push(Aim::new(format!("escape \\{digits}"), 22, move |rng| {
            probed(rng, 22, |_, spot| {
                let text = format!("\"a\\{digits}\"");
                [line_at("Marker_t", spot), vec![Field::Raw(text.into_bytes())]].concat()
            })
        }));
    }
    aims.extend(SHAPES.map(|line| Aim::probe(0, line)));
    aims.extend(PASSED_OVER.map(|line| Aim::probe(0, line)));
    aims.extend([
        all_bytes("every byte escaped", |byte| format!("\\{byte:03o}").into_bytes(), 0),
        all_bytes("every byte as it stands that may", standing, 0),
        all_bytes("every byte doubled as a quote is", |byte| vec![byte, byte], 22),
    ]);
    aims
}

fn standing(byte: u8) -> Vec<u8> {
    match byte {
        b'\r' | b'\n' => Vec::new(),
        b'"' | b'\\' => vec![byte, byte],
        _ => vec![byte],
    }
}

/// A text of all bytes; those doubled have CR among them, before LF.
fn all_bytes(name: &'static str, spell: fn(u8) -> Vec<u8>, number: u8) -> Aim {
    Aim::new(name, number, move |rng| {
        probed(rng, number, |_, spot| {
            let mut bytes: Vec<u8> = (0..=255).collect();
            if number > 0 {
                bytes.retain(|byte| *byte != b'\n');
            }
            let text =
                [b"\"".to_vec(), bytes.into_iter().flat_map(spell).collect(), b"\"".to_vec()];
            [line_at("Lyric_t", spot), vec![Field::Raw(text.concat())]].concat()
        })
    })
}
