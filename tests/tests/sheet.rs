//! The sheet by hand: which bytes of a text stand, the rows, the answers.

mod common;

use common::{ended, hex, shown, to_file, to_sheet};
use second::generate::{file_case, sheet_text_files};
use second::operations::check;
use second::read_file::read_file;
use second::refusal::Answer;
use second::sheet::{cell_of, file_to_sheet, sheet_of, words};
use second::table::table_text;

fn cell(text: &str) -> String {
    String::from_utf8(cell_of(text.as_bytes())).unwrap()
}

/// The table of the rules.
#[test]
fn texts_and_their_cells() {
    for text in ["Hal-", "le", "lu-", "jah", "Amen", "jah, amen", "Ich ", "Hallelujah", ""] {
        assert_eq!(cell(text), text);
    }
    for (text, due) in [
        // The table has `la, \040`, which is two blanks.
        ("la, ", "la,\\040"),
        ("la,  ", "la, \\040"),
        ("jah,", "jah\\054"),
        ("true", "tru\\145"),
        ("WAHR", "WAH\\122"),
        ("n\u{E9}", "n\\303\\251"),
        ("Mar 1", "Mar \\061"),
        ("=1+1", "\\075\\061+\\061"),
        ("'tis", "\\047tis"),
        ("a  ", "a \\040"),
        ("a\"b\\", "a\\042b\\134"),
        ("true ", "true\\040"),
    ] {
        assert_eq!(cell(text), due, "{text:?}");
    }
}

/// What the rules say of ends, one sentence after the other.
#[test]
fn first_and_last_bytes() {
    for (text, due) in [
        // A mark stands, but not as the first byte.
        ("-", "\\055"),
        ("-a", "\\055a"),
        ("a-", "a-"),
        ("--", "\\055-"),
        // A blank and a comma do not stand first, nor last.
        (" ", "\\040"),
        (",", "\\054"),
        (" a", "\\040a"),
        (",a", "\\054a"),
        ("a,", "a\\054"),
        ("a, b", "a, b"),
        ("a,,b", "a,,b"),
        ("1,2", "\\061,\\062"),
        // But a blank does, behind a letter or a mark, whether or not that stands.
        ("a ", "a "),
        ("_ ", "_ "),
        ("a! ", "a! "),
        ("! ", "\\041 "),
        ("a1 ", "a\\061\\040"),
        ("1 ", "\\061\\040"),
        ("\u{E9} ", "\\303\\251\\040"),
        ("  ", "\\040\\040"),
        (", ", "\\054\\040"),
        ("a\" ", "a\\042\\040"),
    ] {
        assert_eq!(cell(text), due, "{text:?}");
    }
}

const LETTERS: &[u8] = b"ABCDEFGHIJKLMNOPQRSTUVWXYZabcdefghijklmnopqrstuvwxyz_";
const MARKS: &[u8] = b"!'()*+-.:?";

/// Each byte alone, first, in the midst and last.
#[test]
fn every_byte_in_every_place() {
    for byte in 0..=255 {
        let octal = format!("\\{byte:03o}").into_bytes();
        let due = |stands: bool| if stands { vec![byte] } else { octal.clone() };
        let (letter, mark) = (LETTERS.contains(&byte), MARKS.contains(&byte));
        let between = letter || mark || byte == b' ' || byte == b',';
        let at_end = letter || mark || byte == b' ';
        assert_eq!(cell_of(&[byte]), due(letter), "{byte} alone");
        assert_eq!(cell_of(&[byte, b'z']), [due(letter), vec![b'z']].concat(), "{byte} first");
        assert_eq!(cell_of(&[b'z', byte, b'z']), [b"z", &due(between)[..], b"z"].concat());
        assert_eq!(cell_of(&[b'z', byte]), [vec![b'z'], due(at_end)].concat(), "{byte} last");
    }
}

#[test]
fn words_hide_their_last_byte() {
    let all: Vec<&[u8]> = words().collect();
    assert_eq!(all.len(), 143);
    assert_eq!((all[0], all[142]), (&b"AO"[..], &b"EQQUNNGITSOQ"[..]));
    for word in all {
        let mixed = |at: usize, byte: u8| [byte, byte.to_ascii_lowercase()][at % 2];
        let mixed = word.iter().enumerate().map(|(at, byte)| mixed(at, *byte)).collect();
        for word in [word.to_vec(), word.to_ascii_lowercase(), mixed] {
            let (last, before) = word.split_last().unwrap();
            let due = [before, format!("\\{last:03o}").as_bytes()].concat();
            assert_eq!(cell_of(&word), due);
            let with = |end: &[u8]| [&word[..], end].concat();
            assert_eq!(cell_of(&with(b" ")), with(b"\\040"));
            // No longer the word.
            assert_eq!(cell_of(&with(b"  ")), with(b" \\040"));
            assert_eq!(cell_of(&with(b"q")), with(b"q"));
            assert_eq!(cell_of(&with(b"!")), with(b"!"));
            assert_eq!(cell_of(&[b"q", &word[..]].concat()), [b"q", &word[..]].concat());
        }
    }
}

#[test]
fn long_texts_are_all_in_octal() {
    for size in [1, 8_190, 8_191] {
        assert_eq!(cell_of(&vec![b'a'; size]), vec![b'a'; size]);
    }
    for size in [8_192, 8_193, 32_767, 65_535] {
        assert_eq!(cell_of(&vec![b'a'; size]), b"\\141".repeat(size));
    }
    // The most that a shorter one takes; cut off at either program's limit, a longer one
    // ends inside an octal group.
    assert_eq!(cell_of(&[b'1'; 8_191]).len(), 32_764);
    assert_eq!([32_767 % 4, 65_535 % 4], [3, 3]);
}

/// The file of document 01, and one of every sort of record.
#[test]
fn rows() {
    let file =
        hex("4D 54 68 64 00 00 00 06 00 00 00 01 00 60 4D 54 72 6B 00 00 00 11 00 FF 03 02 41 22 \
         00 90 3C 40 60 3C 00 00 FF 2F 00");
    let due = "0,0,Header,0,1,96\n1,0,Start_track\n1,0,Title_t,\"A\\042\"\n\
               1,0,Note_on_c,0,60,64\n1,96,Note_on_c,0,60,0\n1,96,End_track\n0,0,End_of_file\n";
    assert_eq!(shown(to_sheet(&file)), due);
    let events = "00 81 3C 40 00 A2 01 02 00 B3 03 04 00 C4 05 00 D5 06 00 E6 00 40 \
                  00 F0 02 01 F7 00 F7 00 00 FF 00 02 01 02 00 FF 05 00 00 FF 20 01 03 \
                  00 FF 21 01 FF 00 FF 51 03 07 A1 20 00 FF 54 05 01 02 03 04 05 \
                  00 FF 58 04 03 02 18 08 00 FF 59 02 FD 01 00 FF 59 02 07 00 \
                  00 FF 7F 03 00 80 FF 00 FF 60 01 09";
    let due = "1,0,Note_off_c,1,60,64\n1,0,Poly_aftertouch_c,2,1,2\n1,0,Control_c,3,3,4\n\
               1,0,Program_c,4,5\n1,0,Channel_aftertouch_c,5,6\n1,0,Pitch_bend_c,6,8192\n\
               1,0,System_exclusive,2,1,247\n1,0,System_exclusive_packet,0\n\
               1,0,Sequence_number,258\n1,0,Lyric_t,\"\"\n1,0,Channel_prefix,3\n\
               1,0,MIDI_port,255\n1,0,Tempo,500000\n1,0,SMPTE_offset,1,2,3,4,5\n\
               1,0,Time_signature,3,2,24,8\n1,0,Key_signature,-3,\"minor\"\n\
               1,0,Key_signature,7,\"major\"\n1,0,Sequencer_specific,3,0,128,255\n\
               1,0,Unknown_meta_event,96,1,9\n";
    let start = "0,0,Header,0,1,96\n1,0,Start_track\n";
    let end = "1,0,End_track\n0,0,End_of_file\n";
    assert_eq!(shown(to_sheet(&ended(events))), [start, due, end].concat());
}

/// Signed as in the text, and bare: a spreadsheet takes it for the number that it is.
#[test]
fn film_divisions() {
    for (division, row) in
        [("E8 01", "-6143"), ("E7 28", "-6360"), ("E3 04", "-7420"), ("E2 FF", "-7425")]
    {
        let mut file = ended("");
        file[12..14].copy_from_slice(&hex(division));
        let rest = "1,0,Start_track\n1,0,End_track\n0,0,End_of_file\n";
        let sheet = format!("0,0,Header,0,1,{row}\n{rest}");
        assert_eq!(shown(to_sheet(&file)), sheet);
        for saved in [sheet.clone(), sheet.replace(',', ";"), sheet.replace(',', "\t")] {
            assert_eq!(to_file(&table_text(saved.as_bytes()), 1), Ok(file.clone()), "{saved}");
        }
    }
}

/// 1 to 13 as check has them, then 14 with the length needed, then 0 with the length.
#[test]
fn answers() {
    let mut refused = [0; 14];
    for seed in 0..6_000 {
        let file = file_case(seed);
        let checked = check(&file);
        let asked = file_to_sheet(&file, &mut []);
        if checked.number != 0 {
            assert_eq!(asked, checked, "seed {seed}");
            refused[usize::from(checked.number)] += 1;
        } else {
            let sheet = sheet_of(&read_file(&file).unwrap());
            assert_eq!(asked, Answer::room_needed(sheet.len()), "seed {seed}");
            assert!(to_sheet(&file) == Ok(sheet), "seed {seed}");
        }
    }
    println!("seeds 0..6000: {refused:?}");
    // 4 is not given; 0 is no refusal.
    let never: Vec<usize> = (0..refused.len()).filter(|number| refused[*number] == 0).collect();
    assert_eq!(never, [0, 4], "{refused:?}");
}

/// What the files of texts hold, so that none is lost without anybody seeing it.
#[test]
fn files_of_texts() {
    let files = sheet_text_files();
    let mut texts = std::collections::BTreeSet::new();
    for file in &files {
        let piece = read_file(file).unwrap();
        for event in &piece.tracks[0].events {
            if let second::piece::Kind::Text(_, text) = &event.kind {
                texts.insert(text.clone());
            }
        }
    }
    println!("{} files, {} texts", files.len(), texts.len());
    for (length, count) in [(0, 1), (1, 256), (2, 65_536)] {
        assert_eq!(texts.iter().filter(|text| text.len() == length).count(), count);
    }
    for length in [8_190, 8_191, 8_192, 8_193] {
        assert_eq!(texts.iter().filter(|text| text.len() == length).count(), 5);
    }
    for word in words() {
        assert!([&b""[..], b" ", b"  "].iter().all(|end| texts.contains(&[word, end].concat())));
        assert!(texts.contains(&word.to_ascii_lowercase()));
    }
}
