//! seeds FOLDER: writes the fuzzer's first inputs, FOLDER/files, FOLDER/texts and
//! FOLDER/tables: outside files and their texts, tables that spreadsheets saved, and what
//! the generators of the second program make. Those longer than what the fuzzer makes are
//! left out.

use std::env;
use std::fs;
use std::io;
use std::path::{Path, PathBuf};
use std::process::ExitCode;

use second::generate::{
    aims, damaged_table_case, file_case, many_tracks_case, padded_case, random_table_case,
    saved_case, sung_file, text_case, Rng,
};
use second::outside::{expected, outside_files, saved_tables};

/// As long as the fuzzer's own inputs become (-max_len).
const LONGEST: usize = 2_048;
/// Of each generator; those that reach nothing new the fuzzer drops.
const GENERATED: u64 = 2_000;

fn main() -> ExitCode {
    let Some(folder) = env::args().nth(1).map(PathBuf::from) else {
        eprintln!("usage: seeds FOLDER");
        return ExitCode::from(2);
    };
    match write_all(&folder) {
        Ok([files, texts, tables]) => {
            let folder = folder.display();
            println!("seeds: {files} files, {texts} texts, {tables} tables in {folder}");
            ExitCode::SUCCESS
        }
        Err(error) => {
            eprintln!("seeds: {}: {error}", folder.display());
            ExitCode::FAILURE
        }
    }
}

/// How many files, texts and tables were written.
fn write_all(folder: &Path) -> io::Result<[usize; 3]> {
    let outside = outside_files();
    let generated = (0..GENERATED).map(|seed| (format!("generated-{seed}"), file_case(seed)));
    let tracks = (0..GENERATED).map(|seed| (format!("tracks-{seed}"), many_tracks_case(seed)));
    let sung = (0..GENERATED).map(|seed| (format!("sung-{seed}"), sung_file(&mut Rng::new(seed))));
    let padded = (0..GENERATED).map(|seed| (format!("padded-{seed}"), padded_case(seed)));
    let files = outside.iter().cloned().chain(generated).chain(tracks).chain(sung).chain(padded);
    let files = write(&folder.join("files"), files)?;

    let stored = outside.iter().map(|(name, _)| (name.clone(), expected(name, "csv")));
    let generated = (0..GENERATED).map(|seed| (format!("generated-{seed}"), text_case(seed)));
    let aimed = aims()
        .into_iter()
        .enumerate()
        .map(|(index, aim)| (format!("aimed-{index}"), aim.text(&mut Rng::new(index as u64)).text));
    let texts = write(&folder.join("texts"), stored.chain(generated).chain(aimed))?;

    let stored = saved_tables().into_iter().map(|saved| (saved.name, saved.table));
    let generated = (0..GENERATED).flat_map(|seed| {
        [
            (format!("saved-{seed}"), saved_case(seed)),
            (format!("damaged-{seed}"), damaged_table_case(seed)),
            (format!("random-{seed}"), random_table_case(seed)),
        ]
    });
    let tables = write(&folder.join("tables"), stored.chain(generated))?;
    Ok([files, texts, tables])
}

fn write(folder: &Path, inputs: impl Iterator<Item = (String, Vec<u8>)>) -> io::Result<usize> {
    fs::create_dir_all(folder)?;
    let mut count = 0;
    for (name, input) in inputs.filter(|(_, input)| input.len() <= LONGEST) {
        fs::write(folder.join(name), input)?;
        count += 1;
    }
    Ok(count)
}
