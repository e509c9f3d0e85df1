//! The outside files of the folder `corpus`, what midicsv, csvmidi and mido make of
//! them, what spreadsheets saved (the folder `sheets`), and the inputs that the fuzzer
//! found worth keeping.

use std::fs;
use std::path::{Path, PathBuf};

use crate::refusal::Answer;

fn corpus() -> PathBuf {
    folder("corpus")
}

/// A folder beside `src`.
fn folder(name: &str) -> PathBuf {
    Path::new(env!("CARGO_MANIFEST_DIR")).join(name)
}

/// Name without extension, and bytes, of each outside file, in order of names.
pub fn outside_files() -> Vec<(String, Vec<u8>)> {
    let mut files = Vec::new();
    for entry in fs::read_dir(corpus()).expect("the folder corpus") {
        let path = entry.expect("an entry of the folder corpus").path();
        if path.extension().is_some_and(|extension| extension == "mid") {
            let name = path.file_stem().expect("a file's name").to_string_lossy().into_owned();
            files.push((name, fs::read(&path).expect("an outside file")));
        }
    }
    files.sort();
    files
}

/// What is stored for an outside file: its text (`csv`), what csvmidi makes of that in
/// manner 1 (`short.mid`) and manner 0 (`full.mid`), and its tracks as mido merges them
/// (`fold.mid`). Of those with film divisions only the text is.
pub fn expected(name: &str, ending: &str) -> Vec<u8> {
    let path = corpus().join("expected").join(format!("{name}.{ending}"));
    fs::read(&path).unwrap_or_else(|error| panic!("{}: {error}", path.display()))
}

/// midicsv writes the text of these, but csvmidi refuses it.
pub fn has_film_division(name: &str) -> bool {
    name.contains("smpte")
}

/// What an outside file's text must give: what csvmidi made of it (`short.mid`, `full.mid`).
/// Those with film divisions are one and the same file but for their division, and csvmidi
/// wrote that file.
pub fn expected_back(name: &str, ending: &str) -> Vec<u8> {
    let division = match name.strip_prefix("gen-csvmidi__own_smpte") {
        None => return expected(name, ending),
        Some("25x40") => [0xE7, 40],
        Some("29x4") => [0xE3, 4],
        Some("30x80") => [0xE2, 80],
        Some(_) => panic!("{name}: not known"),
    };
    let mut file = expected("gen-csvmidi__own_allkinds", ending);
    file[12..14].copy_from_slice(&division);
    file
}

/// What an outside file folds to: what mido merges its tracks to, or the refusal due.
pub fn expected_fold(name: &str) -> Result<Vec<u8>, Answer> {
    let refused = |number, place| Err(Answer { number, place, length: 0 });
    match name {
        _ if name.contains("format2") => refused(32, 8),
        // Where the delta of track 1's Channel_prefix stands in both spellings; those with
        // film divisions have the same events.
        _ if name.contains("allkinds") || has_film_division(name) => refused(33, 131),
        _ => Ok(expected(name, "fold.mid")),
    }
}

/// A table that a spreadsheet saved.
pub struct SavedTable {
    pub name: String,
    pub table: Vec<u8>,
    /// The file that it gives in manner 1, with the edit if there was one.
    pub file: Vec<u8>,
}

/// The pieces of the folder `sheets`.
pub const SHEETS: [&str; 2] = ["nasty", "song"];

/// A file of the folder `sheets`.
pub fn stored_sheet(name: &str) -> Vec<u8> {
    let path = folder("sheets").join(name);
    fs::read(&path).unwrap_or_else(|error| panic!("{}: {error}", path.display()))
}

/// The tables of the folder `sheets`, the sheets themselves among them, in order of names.
pub fn saved_tables() -> Vec<SavedTable> {
    let mut tables = Vec::new();
    for entry in fs::read_dir(folder("sheets")).expect("the folder sheets") {
        let entry = entry.expect("an entry of the folder sheets");
        let name = entry.file_name().to_string_lossy().into_owned();
        let Some(piece) = SHEETS.iter().find(|piece| name.starts_with(**piece)) else { continue };
        if name.ends_with(".csv") {
            let file = edited(&name, stored_sheet(&format!("{piece}.mid")));
            tables.push(SavedTable { table: stored_sheet(&name), name, file });
        }
    }
    tables.sort_by(|a, b| a.name.cmp(&b.name));
    tables
}

/// The file with what was typed into cell D3, the text of its first event.
fn edited(name: &str, file: Vec<u8>) -> Vec<u8> {
    if !name.contains("edited") {
        return file;
    }
    let typed: &[u8] = match name.contains("latin1") {
        true => b"Glo-ria, \"et\" n\xE9",
        false => "Glo-ria, \"et\" n\u{E9}".as_bytes(),
    };
    // Header, chunk, delta and FF with a type; then the text's length and the text.
    const TRACK: usize = 14;
    const LENGTH: usize = TRACK + 8 + 3;
    let rest = &file[LENGTH + 1 + usize::from(file[LENGTH])..];
    let mut edited = [&file[..LENGTH], &[typed.len() as u8], typed, rest].concat();
    let before = u32::from_be_bytes(file[TRACK + 4..TRACK + 8].try_into().expect("four bytes"));
    let length = before + typed.len() as u32 - u32::from(file[LENGTH]);
    edited[TRACK + 4..TRACK + 8].copy_from_slice(&length.to_be_bytes());
    edited
}

/// What is stored of fuzzing, `files`, `texts` or `tables`, in order of names; at least one.
pub fn kept(kind: &str) -> Vec<Vec<u8>> {
    let folder = folder("fuzz/kept").join(kind);
    let entries = fs::read_dir(&folder).expect("the folder fuzz/kept");
    let mut paths: Vec<PathBuf> =
        entries.map(|entry| entry.expect("an entry of fuzz/kept").path()).collect();
    paths.sort();
    assert!(!paths.is_empty(), "nothing in {}", folder.display());
    paths.iter().map(|path| fs::read(path).expect("a kept input")).collect()
}
