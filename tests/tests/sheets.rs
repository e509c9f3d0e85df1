//! What spreadsheets saved of two sheets, in the folder `sheets`.

mod common;

use common::{to_file, to_sheet};
use second::outside::{saved_tables, stored_sheet, SHEETS};
use second::read_text::read_text;
use second::table::table_text;

#[test]
fn every_saved_table_gives_its_file() {
    let tables = saved_tables();
    let edited = tables.iter().filter(|saved| saved.name.contains("edited")).count();
    assert_eq!((tables.len(), edited), (34, 8));
    for saved in tables {
        assert_eq!(to_file(&table_text(&saved.table), 1), Ok(saved.file), "{}", saved.name);
    }
}

#[test]
fn the_stored_sheets_are_those_of_the_files() {
    for name in SHEETS {
        let sheet = stored_sheet(&format!("{name}.sheet.csv"));
        assert!(to_sheet(&stored_sheet(&format!("{name}.mid"))).as_ref() == Ok(&sheet), "{name}");
        assert!(table_text(&sheet) == sheet, "{name}");
    }
}

/// What was typed is there, once, and the rest of the piece is as it was.
#[test]
fn the_edit_is_the_only_change() {
    for saved in saved_tables().iter().filter(|saved| saved.name.contains("edited")) {
        let name = saved.name.split('.').next().unwrap();
        let lines = |text: Vec<u8>| -> Vec<Vec<u8>> {
            text.split(|byte| *byte == b'\n').map(<[u8]>::to_vec).collect()
        };
        let due = lines(common::to_text(&stored_sheet(&format!("{name}.mid"))).unwrap());
        let piece = read_text(&table_text(&saved.table)).unwrap();
        let made = lines(second::write_text::write_text(&piece));
        assert_eq!(due.len(), made.len(), "{}", saved.name);
        let changed: Vec<usize> = (0..due.len()).filter(|at| due[*at] != made[*at]).collect();
        assert_eq!(changed, [2], "{}: row 3", saved.name);
        assert!(
            made[2].windows(20).any(|part| part == b"\"Glo-ria, \"\"et\"\" n\xC3\xA9")
                || made[2].ends_with(b"\"Glo-ria, \"\"et\"\" n\xE9\""),
            "{}",
            saved.name
        );
    }
}
