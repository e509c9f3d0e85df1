//! What is asked of the archive alone: nothing is smaller than what it is tidied to, outside
//! files, texts and tables are converted, folded and listed as they must be, and what is
//! converted forth and back is as it was.

use second::archive;
use second::generate::{
    file_case, good_file, many_tracks_case, opened, padded_case, piece, plain_text, saved,
    sung_file, Rng,
};
use second::nothing_smaller::{self, Program};
use second::outside::{expected, expected_back, expected_fold, outside_files, saved_tables};
use second::read_file::read_file;
use second::refusal::Answer;
use second::spelling::Manner;
use second::write_file::write_file;

use super::TEXT;

/// Wish 10, and what else is due of a file that is tidied: good files of all sorts, as long as
/// the manner 1 file or longer, outside files among them.
pub fn nothing_smaller(cases: u64, first: u64) -> Vec<bool> {
    const ARCHIVE: Program = Program { check: archive::check, tidy: archive::tidy };
    let seeds = |cases| first..first + cases;
    vec![
        nothing_smaller::outside(&ARCHIVE).report(),
        nothing_smaller::cases(&ARCHIVE, seeds(cases)).report(),
        nothing_smaller::generated(&ARCHIVE, seeds(cases / 2)).report(),
        nothing_smaller::near(&ARCHIVE, seeds(cases / 8)).report(),
        nothing_smaller::all(&ARCHIVE).report(),
        nothing_smaller::beside(&ARCHIVE).report(),
    ]
}

/// Outside files tidy to what csvmidi makes of their text, whatever their
/// spelling: as found, in manner 0, and in manner 1, which so tidies to itself.
pub fn outside_tidied() -> bool {
    let (mut files, mut faults) = (0, 0);
    for (name, file) in outside_files() {
        files += 1;
        let short = expected_back(&name, "short.mid");
        for spelling in [&file, &expected_back(&name, "full.mid"), &short] {
            if tidied(spelling).as_ref() != Ok(&short) {
                faults += 1;
                println!("FAULT: outside file {name}, in some spelling, is tidied wrongly");
            }
        }
    }
    println!("tidy: {files} outside files in 3 spellings, {faults} faults");
    faults == 0 && files > 0
}

/// What the archive tidies it tidies to itself.
pub fn tidied_twice(cases: u64, first: u64) -> bool {
    let (mut count, mut faults) = (0, 0);
    for seed in first..first + cases {
        if let Ok(once) = tidied(&file_case(seed)) {
            count += 1;
            if tidied(&once).as_ref() != Ok(&once) {
                faults += 1;
                println!("FAULT: seed {seed} is tidied to a file which is not tidy");
            }
        }
    }
    println!("tidy: {count} generated files tidied twice, {faults} faults");
    faults == 0 && count > 0
}

/// Outside files have the text that midicsv makes of them, in exact room and in
/// room that is always enough.
pub fn outside_texts() -> bool {
    let (mut files, mut faults) = (0, 0);
    for (name, file) in outside_files() {
        files += 1;
        let due = Ok(expected(&name, "csv"));
        let enough = (TEXT.enough)(file.len());
        if made(archive::file_to_text, &file) != due || made_in(&file, enough) != due {
            faults += 1;
            println!("FAULT: outside file {name} has not midicsv's text");
        }
    }
    println!("file_to_text: {files} outside files in 2 rooms, {faults} faults");
    faults == 0 && files > 0
}

/// The texts that midicsv made give the files that csvmidi made of them, in both
/// manners.
pub fn outside_back() -> bool {
    let (mut texts, mut faults) = (0, 0);
    for (name, _) in outside_files() {
        texts += 1;
        for (manner, ending) in [(0, "full.mid"), (1, "short.mid")] {
            let due = Ok(expected_back(&name, ending));
            if filed(&expected(&name, "csv"), manner) != due {
                faults += 1;
                println!("FAULT: outside text {name} has not csvmidi's file in manner {manner}");
            }
        }
    }
    println!("text_to_file: {texts} outside texts in 2 manners, {faults} faults");
    faults == 0 && texts > 0
}

/// Of the archive alone: a good file's text gives the tidied file in manner 1, and in
/// manner 0 a file of the same text.
pub fn files_forth_and_back(cases: u64, first: u64) -> bool {
    let (mut count, mut faults) = (0, 0);
    for seed in first..first + cases {
        let file = good_file(&mut Rng::new(seed));
        let Ok(text) = made(archive::file_to_text, &file) else {
            faults += 1;
            println!("FAULT: the good file of seed {seed} is refused");
            continue;
        };
        count += 1;
        let full = filed(&text, 0).and_then(|full| made(archive::file_to_text, &full));
        if filed(&text, 1) != tidied(&file) || full.as_ref() != Ok(&text) {
            faults += 1;
            println!("FAULT: the good file of seed {seed} does not come back from its text");
        }
    }
    println!("text_to_file: {count} good files to text and back, {faults} faults");
    faults == 0 && count > 0
}

/// Of the archive alone: a text as document 01 writes it comes back from its file, in
/// either manner.
pub fn texts_forth_and_back(cases: u64, first: u64) -> bool {
    let mut faults = 0;
    for seed in first..first + cases {
        let text = plain_text(&piece(&mut Rng::new(seed)));
        for manner in [0, 1] {
            let back = filed(&text, manner).and_then(|file| made(archive::file_to_text, &file));
            if back.as_ref() != Ok(&text) {
                faults += 1;
                println!("FAULT: the text of seed {seed} does not come back in manner {manner}");
            }
        }
    }
    println!("text_to_file: {cases} texts to file and back in 2 manners, {faults} faults");
    faults == 0 && cases > 0
}

/// Outside files fold to what mido merges their tracks to, and those that are not to be
/// folded have the refusal due.
pub fn outside_folded() -> bool {
    let (mut files, mut refused, mut faults) = (0, 0, 0);
    for (name, file) in outside_files() {
        let due = expected_fold(&name);
        *if due.is_ok() { &mut files } else { &mut refused } += 1;
        if made(archive::fold, &file) != due {
            faults += 1;
            println!("FAULT: outside file {name} is folded wrongly");
        }
    }
    println!("fold: {files} outside files, {refused} refused, {faults} faults");
    faults == 0 && files > 0
}

/// Of the archive alone: what it folds it folds and tidies to itself, and how the file
/// was spelled does not count.
pub fn folded_twice(cases: u64, first: u64) -> bool {
    let (mut count, mut faults) = (0, 0);
    for seed in first..first + cases {
        let file = many_tracks_case(seed);
        let Ok(once) = made(archive::fold, &file) else { continue };
        count += 1;
        let tidy_first = tidied(&file).and_then(|file| made(archive::fold, &file));
        let again = [made(archive::fold, &once), tidied(&once), tidy_first];
        if again.iter().any(|made| made.as_ref() != Ok(&once)) {
            faults += 1;
            println!("FAULT: seed {seed} does not fold to what it folds to again");
        }
    }
    println!("fold: {count} generated files folded twice, {faults} faults");
    faults == 0 && count > 0
}

/// Outside files have the Times of End_track and as many events as midicsv's text of them
/// has records; none of the programs that they are of pads.
pub fn outside_listed() -> bool {
    let (mut files, mut faults) = (0, 0);
    for (name, file) in outside_files() {
        files += 1;
        let text = String::from_utf8_lossy(&expected(&name, "csv")).into_owned();
        let (mut times, mut counts, mut events) = (Vec::new(), Vec::new(), 0);
        for line in text.lines() {
            let fields: Vec<&str> = line.split(", ").collect();
            events += 1;
            match fields[2] {
                "Start_track" => events = 0,
                "End_track" => {
                    times.push(fields[1].parse().expect("a Time"));
                    counts.push(events);
                }
                _ => {}
            }
        }
        let padding = vec![0; times.len()];
        if listed(&file) != Ok([times, counts, padding]) {
            faults += 1;
            println!("FAULT: outside file {name} is listed otherwise than its text has it");
        }
    }
    println!("list_tracks: {files} outside files, {faults} faults");
    faults == 0 && files > 0
}

/// Of the archive alone: what it tidies has the same Times and counts, and no padding.
pub fn tidied_listed(cases: u64, first: u64) -> bool {
    let (mut count, mut padded, mut faults) = (0, 0, 0);
    for seed in first..first + cases {
        let file = padded_case(seed);
        let Ok(tidy) = tidied(&file) else { continue };
        count += 1;
        let due = listed(&file).map(|[times, counts, padding]| {
            padded += u64::from(padding.iter().any(|bytes| *bytes > 0));
            [times, counts, vec![0; padding.len()]]
        });
        if due.is_err() || listed(&tidy) != due {
            faults += 1;
            println!("FAULT: seed {seed} is listed otherwise when it was tidied");
        }
    }
    println!("list_tracks: {count} files, {padded} of them padded, and tidied, {faults} faults");
    faults == 0 && padded > 0
}

/// The lists that the archive makes in just enough room.
fn listed(file: &[u8]) -> Result<[Vec<u32>; 3], Answer> {
    let mut file = file.to_vec();
    let asked = Answer::unpacked(archive::list_tracks(&mut file, [&mut [], &mut [], &mut []]));
    if asked.number != 14 {
        return Err(asked);
    }
    let mut lists = [(); 3].map(|()| vec![u32::MAX; asked.length]);
    let lent = lists.each_mut().map(Vec::as_mut_slice);
    match Answer::unpacked(archive::list_tracks(&mut file, lent)) {
        answer if answer == Answer::success(asked.length) => Ok(lists),
        answer => Err(answer),
    }
}

/// What spreadsheets saved of two sheets gives the pieces' files again.
pub fn saved_sheets() -> bool {
    let (mut count, mut faults) = (0, 0);
    for saved in saved_tables() {
        count += 1;
        let text = made(archive::sheet_to_text, &saved.table);
        if text.and_then(|text| filed(&text, 1)).as_ref() != Ok(&saved.file) {
            faults += 1;
            println!("FAULT: {} does not give its file", saved.name);
        }
    }
    println!("sheet_to_text: {count} stored tables to file, {faults} faults");
    faults == 0 && count > 0
}

/// A good file comes back from its sheet, saved in some way: tidied in manner 1, and in
/// manner 0 as the second program writes it.
pub fn sheets_forth_and_back(cases: u64, first: u64) -> bool {
    let mut faults = 0;
    for seed in first..first + cases {
        let rng = &mut Rng::new(seed);
        let file = sung_file(rng);
        let full = write_file(&read_file(&file).expect("a good file"), Manner::Full);
        let text = made(archive::file_to_sheet, &file)
            .map(|sheet| saved(rng, &opened(&sheet)))
            .and_then(|table| made(archive::sheet_to_text, &table));
        let back = |manner| text.clone().and_then(|text| filed(&text, manner));
        if back(1) != tidied(&file) || back(0).ok() != full {
            faults += 1;
            println!("FAULT: the file of seed {seed} does not come back from its sheet");
        }
    }
    println!(
        "sheet_to_text: {cases} files to sheet, saved, and back in 2 manners, {faults} faults"
    );
    faults == 0 && cases > 0
}

/// The file that the archive makes of a text.
fn filed(text: &[u8], manner: u32) -> Result<Vec<u8>, Answer> {
    match manner {
        0 => made(|text, room| archive::text_to_file(text, 0, room), text),
        _ => made(|text, room| archive::text_to_file(text, 1, room), text),
    }
}

/// What the archive tidies a file to.
fn tidied(file: &[u8]) -> Result<Vec<u8>, Answer> {
    made(archive::tidy, file)
}

/// What the archive makes of a file in just enough room.
pub fn made(run: fn(&mut [u8], &mut [u8]) -> u64, file: &[u8]) -> Result<Vec<u8>, Answer> {
    let mut file = file.to_vec();
    let asked = Answer::unpacked(run(&mut file, &mut []));
    if asked.number != 14 {
        return Err(asked);
    }
    let mut room = vec![0; asked.length];
    match Answer::unpacked(run(&mut file, &mut room)) {
        answer if answer == Answer::success(asked.length) => Ok(room),
        answer => Err(answer),
    }
}

/// The text that the archive makes of a file in room of this size.
fn made_in(file: &[u8], size: usize) -> Result<Vec<u8>, Answer> {
    let mut room = vec![0; size];
    match Answer::unpacked(archive::file_to_text(&mut file.to_vec(), &mut room)) {
        Answer { number: 0, place: 0, length } if length <= size => {
            room.truncate(length);
            Ok(room)
        }
        answer => Err(answer),
    }
}
