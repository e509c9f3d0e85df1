//! What holds of every sheet and of every saved table, on seeded pieces, files, texts and
//! tables.

mod common;

use std::collections::BTreeMap;

use common::{file_of, to_sheet};
use second::generate::{
    aims, damaged_table_case, file_case, good_file, opened, piece, random_table_case, saved_case,
    saved_in, saved_piece, sheet_text_files, short_table, short_tables, sung_file, sung_piece,
    text_case, typed, varied_text, Padding, Rng, Way, Whole,
};
use second::outside::{expected, kept, outside_files};
use second::piece::{Kind, Piece};
use second::read_file::read_file;
use second::read_text::read_text;
use second::sheet::{room_enough, sheet_of, words};
use second::spelling::Manner;
use second::table::{self, table_text};
use second::text_field::unescape;
use second::write_file::write_file;
use second::write_text::write_text;

const SEEDS: u64 = 4_000;

fn pieces() -> impl Iterator<Item = Piece> {
    let any = (0..SEEDS).map(|seed| piece(&mut Rng::new(seed)));
    any.chain((0..SEEDS).map(|seed| sung_piece(&mut Rng::new(seed))))
}

/// A sheet is a text of its piece, and as a table its own text.
#[test]
fn a_sheet_is_a_text_of_its_piece() {
    for (index, piece) in pieces().enumerate() {
        let sheet = sheet_of(&piece);
        assert_eq!(read_text(&sheet).as_ref(), Ok(&piece), "{index}");
        assert!(table_text(&sheet) == sheet, "{index}");
        let count = |bytes: &[u8]| bytes.iter().filter(|byte| **byte == b'\n').count();
        assert_eq!(count(&sheet), count(&write_text(&piece)), "{index}: one row to a record");
    }
}

/// A sheet takes at most 23 bytes for each byte of the file.
#[test]
fn a_sheet_is_not_longer_than_said() {
    let mut most = 0.0;
    let mut look = |file: &[u8]| {
        let Ok(sheet) = to_sheet(file) else { return };
        assert!(sheet.len() <= room_enough(file.len()));
        most = f64::max(most, sheet.len() as f64 / file.len() as f64);
    };
    (0..6_000).for_each(|seed| look(&file_case(seed)));
    for seed in 0..SEEDS {
        // The fewest bytes that a piece can take.
        let piece = sung_piece(&mut Rng::new(seed));
        look(&write_file(&piece, Manner::Short).unwrap());
    }
    // Long names, two bytes each: after 16 of the longest deltas, in a late track.
    let to_the_end = [0xFF, 0xFF, 0xFF, 0x7F, 0xDF, 0].repeat(16);
    let body = [to_the_end, [0, 127].repeat(450_000), vec![0, 0xFF, 0x2F, 0]].concat();
    let mut bodies = vec![vec![0, 0xFF, 0x2F, 0]; 9_999];
    bodies.push(body);
    look(&file_of(1, &bodies));
    println!("at most {most:.2} bytes for each");
    assert!(most > 20.0);
}

/// What is promised of the cell of a text.
fn look_at_cell(cell: &[u8]) {
    let shown = String::from_utf8_lossy(cell).into_owned();
    assert!(cell.iter().all(|byte| (32..127).contains(byte)), "{shown}");
    assert!(!cell.iter().any(|byte| b"\";=@#$%/&<>[]^`{|}~".contains(byte)), "{shown}");
    if let Some(first) = cell.first() {
        assert!(first.is_ascii_alphabetic() || b"_\\".contains(first), "{shown}");
    }
    let mut rest = cell;
    let mut standing = Vec::new();
    while let [byte, further @ ..] = rest {
        if *byte == b'\\' {
            let octal = &further[..3];
            assert!(octal.iter().all(|digit| (b'0'..=b'7').contains(digit)), "{shown}");
            rest = &further[3..];
        } else {
            standing.push(*byte);
            rest = further;
        }
    }
    assert!(!standing.iter().any(u8::is_ascii_digit), "{shown}");
    assert_ne!(cell.last(), Some(&b','), "{shown}");
    let trimmed = cell.strip_suffix(b" ").unwrap_or(cell);
    assert!(!words().any(|word| word.eq_ignore_ascii_case(trimmed)), "{shown}");
}

#[test]
fn text_cells_are_safe() {
    let mut count = 0;
    let of_texts = sheet_text_files().into_iter().map(|file| read_file(&file).unwrap());
    for piece in pieces().chain(of_texts) {
        let texts = piece.tracks.iter().flat_map(|track| &track.events);
        let texts = texts.filter_map(|event| match &event.kind {
            Kind::Text(_, text) => Some(text.clone()),
            Kind::KeySignature { mode, .. } => Some(format!("{mode:?}").to_lowercase().into()),
            _ => None,
        });
        let rows = opened(&sheet_of(&piece));
        let cells = rows.iter().flatten().filter(|cell| cell.is_text);
        let mut texts = texts.collect::<Vec<Vec<u8>>>().into_iter();
        for cell in cells {
            look_at_cell(&cell.content);
            assert_eq!(texts.next(), Some(unescape(&cell.content)));
            count += 1;
        }
        assert_eq!(texts.next(), None);
        let others = rows.iter().flatten().filter(|cell| !cell.is_text);
        let plain = |byte: &u8| byte.is_ascii_alphanumeric() || b"_-".contains(byte);
        assert!(others.into_iter().all(|cell| cell.content.iter().all(plain)));
    }
    println!("{count} texts");
    assert!(count > 100_000);
}

/// However it is saved, the piece comes back.
#[test]
fn every_way_of_saving_gives_the_piece() {
    for seed in 0..8_000 {
        let (piece, table) = saved_piece(&mut Rng::new(seed));
        let text = table_text(&table);
        assert_eq!(read_text(&text).as_ref(), Ok(&piece), "seed {seed}");
    }
}

/// All ways there are, one after the other.
#[test]
fn all_ways_of_saving() {
    let mut count = 0;
    for way in all_ways() {
        let rng = &mut Rng::new(count);
        let piece = sung_piece(rng);
        for rows in [opened(&sheet_of(&piece)), typed(rng, &piece)] {
            let table = saved_in(rng, &way, &rows);
            assert_eq!(read_text(&table_text(&table)).as_ref(), Ok(&piece), "{way:?}");
        }
        count += 1;
    }
    println!("{count} ways");
    assert_eq!(count, 3 * 3 * 3 * 3 * 2 * 2 * 2 * 2 * 2);
}

fn all_ways() -> impl Iterator<Item = Way> {
    let yes_or_no = |number: usize| number % 2 == 1;
    (0..2_592).map(move |number| {
        let flags = number / 81;
        Way {
            separator: b",;\t"[number % 3],
            quotes: [0, 1, 3][number / 3 % 3],
            padding: [Padding::None, Padding::Rectangle, Padding::Some][number / 9 % 3],
            whole: [Whole::None, Whole::Some, Whole::All][number / 27 % 3],
            drops_empty: yes_or_no(flags),
            empty_rows: if yes_or_no(flags / 2) { 2 } else { 0 },
            byte_order_mark: yes_or_no(flags / 4),
            cr: yes_or_no(flags / 8),
            last_end: yes_or_no(flags / 16),
        }
    })
}

/// Every text that has a piece keeps it.
#[test]
fn texts_keep_their_pieces() {
    let mut count = 0;
    let mut look = |text: &[u8]| {
        if let Ok(piece) = read_text(text) {
            assert_eq!(
                read_text(&table_text(text)),
                Ok(piece),
                "{}",
                String::from_utf8_lossy(text)
            );
            count += 1;
        }
    };
    (0..20_000).for_each(|seed| look(&text_case(seed)));
    for seed in 0..SEEDS {
        let rng = &mut Rng::new(seed);
        let piece = sung_piece(rng);
        look(&varied_text(rng, &piece));
    }
    let aimed = aims();
    aimed.iter().for_each(|aim| look(&aim.text(&mut Rng::new(1)).text));
    for (name, _) in outside_files() {
        let text = expected(&name, "csv");
        assert!(read_text(&text).is_ok(), "{name}");
        look(&text);
    }
    kept("texts").iter().for_each(|text| look(text));
    println!("{count} texts");
    assert!(count > 10_000);
}

/// Tables of every sort.
fn tables() -> impl Iterator<Item = Vec<u8>> {
    let seeds = 0..SEEDS;
    let seeded = seeds.flat_map(|seed| {
        [saved_case(seed), damaged_table_case(seed), random_table_case(seed), text_case(seed)]
    });
    seeded.chain((0..short_tables()).map(short_table))
}

/// As many lines as rows, each in its place, and not longer than said.
#[test]
fn line_for_line() {
    let (mut longest, mut count) = (0, 0);
    for saved in tables() {
        let text = table_text(&saved);
        assert!(text.len() <= table::room_enough(saved.len()), "{saved:?}");
        longest += u64::from(text.len() == table::room_enough(saved.len()));
        assert_eq!(text == b"", saved.is_empty() || saved == b"\xEF\xBB\xBF");
        assert!(text.is_empty() || text.ends_with(b"\n"), "{saved:?}");
        let table = saved.strip_prefix(b"\xEF\xBB\xBF").unwrap_or(&saved);
        let rows = table.split_inclusive(|byte| *byte == b'\n').count();
        assert_eq!(text.iter().filter(|byte| **byte == b'\n').count(), rows, "{saved:?}");
        count += 1;
    }
    println!("{count} tables, {longest} with a text of 2n + 2 bytes");
    assert!(longest > 20);
}

/// Row by row: what a row becomes hangs on the separator alone.
#[test]
fn rows_do_not_touch_each_other() {
    let heads: [&[u8]; 3] = [b"a,b\n", b"a;b\n", b"a\tb\n"];
    for seed in 0..SEEDS {
        let table = random_table_case(seed);
        for head in heads {
            let whole = table_text(&[head, &table[..]].concat());
            let mut due = table_text(head);
            for row in table.split_inclusive(|byte| *byte == b'\n') {
                let text = table_text(&[head, row].concat());
                due.extend(&text[4..]);
            }
            assert!(whole == due, "seed {seed}, {head:?}");
        }
    }
}

/// What the generators of tables must not lose without anybody seeing it.
#[test]
fn tables_are_of_every_sort() {
    let mut sorts = BTreeMap::new();
    for seed in 0..SEEDS {
        for (what, make) in
            [("saved", saved_case as fn(u64) -> Vec<u8>), ("damaged", damaged_table_case)]
        {
            let answer = match read_text(&table_text(&make(seed))) {
                Ok(_) => 0,
                Err(refusal) => refusal.number as u8,
            };
            *sorts.entry((what, answer)).or_insert(0) += 1;
        }
    }
    println!("seeds 0..{SEEDS}: {sorts:?}");
    assert_eq!(sorts.get(&("saved", 0)), Some(&SEEDS));
    for number in [0, 22, 23, 24, 25, 26, 28] {
        assert!(sorts.get(&("damaged", number)).is_some_and(|count| *count > 5), "{number}");
    }
    let mut files = (0..SEEDS).map(|seed| sung_file(&mut Rng::new(seed)));
    assert!(files.all(|file| read_file(&file).is_ok()));
    assert!(good_file(&mut Rng::new(0)) != sung_file(&mut Rng::new(0)));
}
