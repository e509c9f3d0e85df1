//! The text of a saved table, by hand: rule after rule, and what becomes of what people
//! type.

mod common;

use common::{hex, to_file};
use second::generate::table_limit_cases;
use second::refusal::Answer;
use second::table::{room_enough, sheet_to_text, table_text};

type Case = (&'static [u8], &'static [u8]);

fn try_all(cases: &[Case]) {
    for (saved, due) in cases {
        let text = table_text(saved);
        let words = |bytes: &[u8]| String::from_utf8_lossy(bytes).into_owned();
        assert_eq!(words(&text), words(due), "{:?}", words(saved));
        assert!(text == *due, "{saved:?}");
        let asked = sheet_to_text(saved, &mut []);
        let number = if due.is_empty() { 0 } else { 14 };
        assert_eq!(asked, Answer { number, place: 0, length: due.len() }, "{saved:?}");
    }
}

/// Rule 1: byte order mark, ends of lines.
#[test]
fn lines() {
    try_all(&[
        (b"", b""),
        (b"\n", b"\n"),
        (b"\r", b"\n"),
        (b"\r\n", b"\n"),
        (b"a", b"a\n"),
        (b"a\n", b"a\n"),
        (b"a\r\n", b"a\n"),
        (b"a\r", b"a\n"),
        (b"a\n\n", b"a\n\n"),
        (b"a\nb", b"a\nb\n"),
        (b"a\r\r\n", b"a\r\n"),
        (b"\r\r", b"\r\n"),
        (b"a\rb\n", b"a\rb\n"),
        (b"#\r\r\n", b"#\r\n"),
        (b"\xEF\xBB\xBF", b""),
        (b"\xEF\xBB\xBF\n", b"\n"),
        (b"\xEF\xBB\xBFa\n", b"a\n"),
        (b"\xEF\xBB\xBF\"a\"", b"a\n"),
        (b"\xEF\xBB\xBF\xEF\xBB\xBFa", b"\xEF\xBB\xBFa\n"),
        (b"a\n\xEF\xBB\xBFb\n", b"a\n\xEF\xBB\xBFb\n"),
        (b"\xEF\xBB", b"\xEF\xBB\n"),
        (b"\xEF\xBB\xBF#", b"#\n"),
    ]);
}

/// Rule 2: the separator.
#[test]
fn separators() {
    try_all(&[
        (b"a,b", b"a,b\n"),
        (b"a;b", b"a,b\n"),
        (b"a\tb", b"a,b\n"),
        (b"a;b,c", b"a;b,c\n"),
        (b"a\tb,c", b"a\tb,c\n"),
        (b"a\tb;c", b"a\tb,c\n"),
        // Of the first line that the reader would not pass over, whatever it is.
        (b"a\nb;c\n", b"a\nb;c\n"),
        (b"a;b\nc,d\n", b"a,b\nc,d\n"),
        (b"a;b\nc,d;e\n", b"a,b\n\"c,d\",e\n"),
        (b"#x,y\na;b\n", b"#x,y\na,b\n"),
        (b" ;x,y\na;b\n", b" ,\"x,y\"\na,b\n"),
        (b"\n \t\r\n\t#\na;b\n", b"\n\n\t#\na,b\n"),
        (b";;;\na;b\n", b"\na,b\n"),
        (b"; a,b\nc;d\n", b",\" a,b\"\nc,d\n"),
        (b"\n;\n#", b"\n;\n#\n"),
        (b"\r\r\na;b\n", b"\r\na;b\n"),
        // A comma in quotes counts too.
        (b"\"a,b\";c\n", b"\"\n"),
        (b"\"a;b\"\tc\n", b"\"\n"),
        (b"\"a\tb\"\n", b"a\tb\n"),
    ]);
}

/// Rule 3: remarks.
#[test]
fn remarks() {
    try_all(&[
        (b"# x, \"y\" ,,\n", b"# x, \"y\" ,,\n"),
        (b" \t#x\r\n", b" \t#x\n"),
        (b"a,b\n\t ;x\n", b"a,b\n\t ;x\n"),
        (b"a\tb\n;x\ty\n", b"a,b\n;x\ty\n"),
        (b"a\tb\n #x\n", b"a,b\n #x\n"),
        (b"a;b\n\t#x;y\n", b"a,b\n\t#x;y\n"),
        // Where semicolon separates, it begins none.
        (b"a;b\n;x\n", b"a,b\n,x\n"),
        (b"a;b\n ; x;\n", b"a,b\n , x\n"),
        (b"a;b\n;\n", b"a,b\n\n"),
        // Where tab separates, it is no blank.
        (b"a\tb\n\t#x\n", b"a,b\n,#x\n"),
        (b"a\tb\n\t;x\n", b"a,b\n,;x\n"),
        (b"a#,b\n", b"a#,b\n"),
    ]);
}

/// Rule 4: cells.
#[test]
fn cells() {
    try_all(&[
        (b"\"a\",\"b\"", b"a,b\n"),
        (b" \"a\"\t,\t\"b\" ", b"a,b\n"),
        (b"\" a \",b", b" a ,b\n"),
        (b" a , b ", b" a , b \n"),
        (b"\"a\"\"b\",c", b"\"a\"\"b\",c\n"),
        (b"a\"b,c", b"\"a\"\"b\",c\n"),
        (b"\"\",b", b",b\n"),
        (b"\"\"\"\",b", b"\"\"\"\",b\n"),
        (b"\"a,b\",c", b"\"a,b\",c\n"),
        (b"a;b\n\"c;d\";e", b"a,b\nc;d,e\n"),
        (b"a\tb\n\"c\td\"\te", b"a,b\nc\td,e\n"),
        (b"a\tb\n \"c\" \t d", b"a,b\nc, d\n"),
        (b",,b", b",,b\n"),
        (b"a,,b,", b"a,,b\n"),
        // Not closed, or something behind it.
        (b"\"", b"\"\n"),
        (b"\"a", b"\"\n"),
        (b"\"a\"\"", b"\"\n"),
        (b"a,\"b", b"\"\n"),
        (b"\"a\nb\"", b"\"\n\"b\"\"\"\n"),
        (b"\"a\"b,c", b"\"\n"),
        (b"\"a\" \"b\",c", b"\"\n"),
        (b"a,b,\"c\"d,e", b"\"\n"),
        (b"a\tb\n\"c\";\td", b"a,b\n\"\n"),
        (b"a,\"b\"\r\r\n", b"\"\n"),
    ]);
}

/// Rule 5: a whole line in the first cell.
#[test]
fn whole_lines() {
    try_all(&[
        (b"a", b"a\n"),
        (b"a,", b"a\n"),
        (b"a, ,\t,\"\",\" \"", b"a\n"),
        (b",", b"\n"),
        (b" ,", b"\n"),
        (b" \t ", b"\n"),
        (b"\" \"", b"\n"),
        (b"\"1,0,Lyric_t,\"\"x\"\"\"", b"1,0,Lyric_t,\"x\"\n"),
        (b"\"1,0,Lyric_t,x\",,\r\n", b"1,0,Lyric_t,\"x\"\n"),
        (b"\"1,0,Lyric_t,\"\"a,\"\"\"\"b\"\"\"", b"1,0,Lyric_t,\"a,\"\"b\"\n"),
        (b"a;b\n1,0,Lyric_t,x;;\n", b"a,b\n1,0,Lyric_t,\"x\"\n"),
        (b"a\tb\n1,0,Lyric_t,x\t\t\n", b"a,b\n1,0,Lyric_t,\"x\"\n"),
        // With a comma as separator, whatever the table's.
        (b"a;b\n\"c;d\"\n", b"a,b\nc;d\n"),
        (b"a\tb\n\"\tc\"\n", b"a,b\n\tc\n"),
        (b"a\tb\n\"\t#c\"\n", b"a,b\n\t#c\n"),
        (b"a;b\n\";x\";\n", b"a,b\n;x\n"),
        (b"\"# x\",\n", b"# x\n"),
        (b"\" #\"\"x\"\n", b" #\"x\n"),
        // A fault in it.
        (b"\"\"\"a\"", b"\"\n"),
        (b"\"a,\"\"b\"", b"\"\n"),
        (b"\"\"\"a\"\"b\"", b"\"\n"),
        // Not once more.
        (b"\"\"\"1,0,Lyric_t,x\"\"\"", b"\"1,0,Lyric_t,x\"\n"),
        (b"\"\"\"# x\"\"\"", b"# x\n"),
        (b"\"\"\"a,b\"\",,\"", b"\"a,b\"\n"),
        // Not where another cell has something in it.
        (b"\"a,b\",,c", b"\"a,b\",,c\n"),
        (b"a;b\n;1,0,Lyric_t,x\n", b"a,b\n,\"1,0,Lyric_t,x\"\n"),
        // A CR in it is not the end of a line.
        (b"\"# x\r\"\n", b"# x\r\n"),
    ]);
}

/// Rule 6: fields.
#[test]
fn fields() {
    try_all(&[
        (b"1,0,Lyric_t,x", b"1,0,Lyric_t,\"x\"\n"),
        (b"1;0;Lyric_t;a,b", b"1;0;Lyric_t;a,b\n"),
        (b"1;0;Tempo;5\n1;0;Lyric_t;a,b", b"1,0,Tempo,5\n1,0,Lyric_t,\"a,b\"\n"),
        (b"1,0,Lyric_t,\"a\"\"b\"", b"1,0,Lyric_t,\"a\"\"b\"\n"),
        (b"1,0,Lyric_t,a\"b", b"1,0,Lyric_t,\"a\"\"b\"\n"),
        (b"1,0,Lyric_t, x ", b"1,0,Lyric_t,\" x \"\n"),
        (b"1,0,Lyric_t, \"x\" ", b"1,0,Lyric_t,\"x\"\n"),
        (b"1,0,Lyric_t,\\101\\", b"1,0,Lyric_t,\"\\101\\\"\n"),
        (b"1,0,Lyric_t,# no remark", b"1,0,Lyric_t,\"# no remark\"\n"),
        // The name.
        (b"1,0,\"Lyric_t\",x", b"1,0,Lyric_t,\"x\"\n"),
        (b"1,0, \tlyRIC_T ,x", b"1,0, \tlyRIC_T ,\"x\"\n"),
        (b"1\t0\t\"\tLyric_t\"\tx", b"1,0,\tLyric_t,\"x\"\n"),
        (b"1,0,Lyric_tt,x", b"1,0,Lyric_tt,x\n"),
        (b"1,0,Lyric,x", b"1,0,Lyric,x\n"),
        (b"1,0,Lyric_t\r,x", b"1,0,Lyric_t\r,x\n"),
        (b"1,0,Lyric_t x,y", b"1,0,Lyric_t x,y\n"),
        (b"1,0,,Lyric_t,x", b"1,0,,Lyric_t,x\n"),
        (b"0,Lyric_t,x", b"0,Lyric_t,x\n"),
        (b"1,0,\"\"\"Lyric_t\"\"\",x", b"1,0,\"\"\"Lyric_t\"\"\",x\n"),
        // A text cell that is missing, or has nothing in it.
        (b"1,0,Lyric_t", b"1,0,Lyric_t,\"\"\n"),
        (b",,Lyric_t", b",,Lyric_t,\"\"\n"),
        (b"1,0,Lyric_t,", b"1,0,Lyric_t,\"\"\n"),
        (b"1,0,Lyric_t,,,", b"1,0,Lyric_t,\"\"\n"),
        (b"1,0,Lyric_t,  ,\t", b"1,0,Lyric_t,\"  \"\n"),
        (b"1,0,Lyric_t,,y", b"1,0,Lyric_t,\"\",y\n"),
        // The cells after it.
        (b"1,0,Lyric_t,x,,y,,", b"1,0,Lyric_t,\"x\",,y\n"),
        (b"1,0,Lyric_t,x,\"y,z\"", b"1,0,Lyric_t,\"x\",\"y,z\"\n"),
        // Key_signature.
        (b"1,0,Key_signature,-3,minor", b"1,0,Key_signature,-3,\"minor\"\n"),
        (b"1,0,KEY_signature,-3,\"minor\",", b"1,0,KEY_signature,-3,\"minor\"\n"),
        (b"1,0,Key_signature,\"a,b\",c", b"1,0,Key_signature,\"a,b\",\"c\"\n"),
        (b"1,0,Key_signature,-3", b"1,0,Key_signature,-3,\"\"\n"),
        (b"1,0,Key_signature,-3,", b"1,0,Key_signature,-3,\"\"\n"),
        (b"1,0,Key_signature,", b"1,0,Key_signature,,\"\"\n"),
        (b"1,0,Key_signature", b"1,0,Key_signature\n"),
        (b"1,0,Key_signature,,", b"1,0,Key_signature,,\"\"\n"),
        // Any other row.
        (b"1,0,Tempo,500000,,", b"1,0,Tempo,500000\n"),
        (b"1,0,Tempo,\"500000\"", b"1,0,Tempo,500000\n"),
        (b"1,0,Tempo", b"1,0,Tempo\n"),
        (b"1,0,Tempo,,,x,", b"1,0,Tempo,,,x\n"),
        (b" , ,x, ,\t", b" , ,x\n"),
        (b"1,0,Tempo,a\"", b"1,0,Tempo,\"a\"\"\"\n"),
        (b"1,0,Tempo,\"\"\"\"", b"1,0,Tempo,\"\"\"\"\n"),
    ]);
    for name in [
        "Text_t", "Copyright_t", "Title_t", "Instrument_name_t", "Lyric_t", "Marker_t",
        "Cue_point_t",
    ] {
        let row = |text: &str| format!("1,0,{name},{text}").into_bytes();
        assert_eq!(table_text(&row("a b")), row("\"a b\"\n"));
    }
    for name in ["Header", "Start_track", "Sequencer_specific", "End_of_file", "Text", "Key"] {
        let row = |text: &str| format!("1,0,{name},{text}").into_bytes();
        assert_eq!(table_text(&row("a b")), row("a b\n"));
    }
}

const HEAD: &str = "0;0;Header;0;1;96\n1;0;Start_track;;;\n";
const TAIL: &str = "1;9;End_track;;;\n0;0;End_of_file;;;\n";

/// The file of a table, or the refusal.
fn file_of(table: &[u8]) -> Result<Vec<u8>, Answer> {
    to_file(&table_text(table), 1)
}

/// A table with this as its third row, saved with semicolons or commas.
fn third(row: &[u8], separator: &str) -> Vec<u8> {
    let around = |rows: &str| rows.replace(';', separator).into_bytes();
    [around(HEAD), row.to_vec(), b"\n".to_vec(), around(TAIL)].concat()
}

/// The events of a track with one Lyric_t at Time 0, ended at 9.
fn lyric(text: &[u8]) -> Vec<u8> {
    let body = [&[0, 0xFF, 5, text.len() as u8], text, &[9, 0xFF, 0x2F, 0]].concat();
    let head = hex("4D546864 00000006 0000 0001 0060 4D54726B 000000");
    [head, vec![body.len() as u8], body].concat()
}

#[test]
fn what_is_typed_in_a_text() {
    let typed: [(&[u8], &[u8]); 8] = [
        (b"n\xC3\xA9", b"n\xC3\xA9"),
        (b"n\xE9", b"n\xE9"),
        (b"a,b", b"a,b"),
        (b"\"a;\"\"b\"", b"a;\"b"),
        (b"say \"x\"", b"say \"x\""),
        (b"\\101", b"A"),
        (b"\\\\", b"\\"),
        (b"", b""),
    ];
    for (cell, text) in typed {
        let row = [b"1;0;Lyric_t;", cell, b";;"].concat();
        assert_eq!(file_of(&third(&row, ";")), Ok(lyric(text)), "{cell:?}");
    }
    assert_eq!(file_of(&third(b"1;0;Lyric_t", ";")), Ok(lyric(b"")));
}

/// Refused at its own row, by the reader of texts.
#[test]
fn what_is_refused() {
    let semicolons: [(&[u8], u8); 15] = [
        (b"1;0;Lyric_t;\\", 22),
        (b"1;0;Lyric_t;a\\", 22),
        (b"1;0;Lyric_t;\"a\nb\"", 22),
        (b"1;60.0;Tempo;5", 22),
        (b"1;5E+05;Tempo;5", 22),
        (b"1;1 000;Tempo;5", 22),
        (b"1;0;Key_signature;+5;major", 22),
        ("1;0;Key_signature;\u{2212}5;major".as_bytes(), 22),
        (b"1;0;Tempo;500,000", 25),
        (b"1;0;Tempo;\"500,000\"", 25),
        (b"1;0;Tempo;500000;;loud", 22),
        (b"1;0;Tempo;500000;loud", 24),
        (b"1;0;Lyric_t;x;y", 24),
        (b";0;Lyric_t;x", 22),
        (b"1;0;Key_signature;5;Major", 25),
    ];
    for (row, number) in semicolons {
        let refused = Answer { number, place: 3, length: 0 };
        assert_eq!(file_of(&third(row, ";")), Err(refused), "{}", String::from_utf8_lossy(row));
    }
    let commas: [(&[u8], u8); 4] = [
        (b"1,0,Tempo,\"500,000\"", 25),
        (b"1,0,Tempo,500,000", 24),
        (b"1,0,Lyric_t,a,b", 24),
        (b",0,Lyric_t,x", 22),
    ];
    for (row, number) in commas {
        let refused = Answer { number, place: 3, length: 0 };
        assert_eq!(file_of(&third(row, ",")), Err(refused), "{}", String::from_utf8_lossy(row));
    }
}

#[test]
fn what_is_passed_over() {
    let due = file_of(&third(b"", ";")).unwrap();
    let rows: [&[u8]; 8] =
        [b";;;", b"  ", b"\"\";\" \"", b"# a note", b"\"# a; note\";;", b"#;;", b"\";x\"", b"\t"];
    for row in rows {
        assert_eq!(file_of(&third(row, ";")).as_ref(), Ok(&due), "{row:?}");
    }
}

#[test]
fn other_encodings() {
    let refused = Err(Answer { number: 22, place: 1, length: 0 });
    let table = third(b"1;0;Lyric_t;x", ";");
    let low = |byte: &u8| [*byte, 0];
    let high = |byte: &u8| [0, *byte];
    let utf16 = [b"\xFF\xFE".to_vec(), table.iter().flat_map(low).collect()].concat();
    assert_eq!(file_of(&utf16), refused);
    assert_eq!(file_of(&utf16[2..]), refused);
    let utf16 = [b"\xFE\xFF".to_vec(), table.iter().flat_map(high).collect()].concat();
    assert_eq!(file_of(&utf16), refused);
    for separator in [",", ";", "\t"] {
        let table = third(b"", separator);
        let cr: Vec<u8> =
            table.iter().map(|byte| if *byte == b'\n' { b'\r' } else { *byte }).collect();
        assert_eq!(file_of(&cr), refused, "{separator:?}");
    }
}

/// 38, then 21, then 14, then 0.
#[test]
fn answers_at_the_limits() {
    let mut met = Vec::new();
    for case in table_limit_cases() {
        let table = case.table();
        assert_eq!(sheet_to_text(&table, &mut []), case.due, "{}", case.what);
        met.push(case.due.number);
        let over = table.len() > 268_435_456;
        assert_eq!(over, case.due.number == 38, "{}, {} bytes", case.what, table.len());
    }
    assert!([14, 21, 38].iter().all(|number| met.contains(number)), "{met:?}");
}

/// The rules' table says 2n + 1, but a last line without LF may take one byte more.
#[test]
fn the_longest_texts() {
    for (table, length) in [
        (&b"x\""[..], 6),
        (b"x\"\"", 8),
        (b"x\",x\"", 12),
        (b"a;\n,;x\"", 2 + 10),
        (b"\"", 2),
        (b"", 0),
    ] {
        assert_eq!(table_text(table).len(), length, "{table:?}");
        assert!(length <= room_enough(table.len()));
    }
    assert_eq!(table_text(b"x\""), b"\"x\"\"\"\n");
    assert_eq!(room_enough(2), 6);
}
