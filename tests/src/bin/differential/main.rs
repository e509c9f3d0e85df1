//! differential [CASES [FIRST_SEED [OPERATION]]]: the proved archive against the second
//! program, in all operations or in one. Exit 0 when all answers are the same, every
//! number, room, manner and aim due was met and no other number, the generated files and
//! texts held all that is due, every sort of header and chunks and of division was met,
//! outside files, texts and tables are converted and folded as they must be, nothing is
//! smaller than what it is tidied to, and what is converted forth and back is as it was. With
//! fewer cases than `CASES` what was never met in comparing is said, but is no fault.

mod alone;

use std::env;
use std::process::ExitCode;

use alone::{
    files_forth_and_back, folded_twice, made, nothing_smaller, outside_back, outside_folded,
    outside_listed, outside_texts, outside_tidied, saved_sheets, sheets_forth_and_back,
    texts_forth_and_back, tidied_listed, tidied_twice,
};
use second::archive;
use second::compare::{Compared, Operation};
use second::compare_lists::Listing;
use second::division_coverage::Given;
use second::every_division;
use second::every_first_byte::{self, Track};
use second::fold;
use second::generate::{
    aims, benchmark_file, damaged_table, damaged_table_case, file_case, fold_limit_cases,
    known_padding, limit_cases, many_tracks_case, mutated_copy, mutated_text, opened, padded_case,
    padding_limits, random_table_case, saved, saved_case, sheet_text_files, short_table,
    short_tables, small_benchmark_file, sung_file, table_limit_cases, text_case, text_limit_cases,
    Rng,
};
use second::operations;
use second::outside::{expected, kept, outside_files, saved_tables};
use second::read_file::read_file;
use second::read_text::read_text;
use second::run::{Run, GENERATED};
use second::sheet::{self, sheet_of};
use second::table;

const USAGE: &str = "\
usage: differential [CASES [FIRST_SEED [OPERATION]]], with CASES at least 1000
OPERATION is check, tidy, file_to_text, text_to_file, fold, list_tracks, file_to_sheet or
sheet_to_text";
/// So many meet all that is due; 100,000 do not.
const CASES: u64 = 500_000;
/// With fewer some sources would have no case at all.
const LEAST: u64 = 1_000;

const CHECK: Operation = Operation::new(
    "check",
    |file, _, _| operations::check(file),
    |file, _, _| archive::check(file),
);

const TIDY: Operation = Operation::new(
    "tidy",
    |file, _, room| operations::tidy(file, room),
    |file, _, room| archive::tidy(file, room),
);

const FOLD: Operation = Operation::new(
    "fold",
    |file, _, room| fold::fold(file, room),
    |file, _, room| archive::fold(file, room),
);

const LIST: Listing = Listing {
    second: |file, [times, counts, padding]| operations::list_tracks(file, times, counts, padding),
    archive: archive::list_tracks,
};

const TEXT: Operation = Operation {
    enough: |length| 25 * length,
    ..Operation::new(
        "file_to_text",
        |file, _, room| operations::file_to_text(file, room),
        |file, _, room| archive::file_to_text(file, room),
    )
};

const FILE: Operation = Operation {
    manners: true,
    ..Operation::new("text_to_file", operations::text_to_file, archive::text_to_file)
};

const SHEET: Operation = Operation {
    enough: sheet::room_enough,
    ..Operation::new(
        "file_to_sheet",
        |file, _, room| sheet::file_to_sheet(file, room),
        |file, _, room| archive::file_to_sheet(file, room),
    )
};

const TABLE: Operation = Operation {
    enough: table::room_enough,
    ..Operation::new(
        "sheet_to_text",
        |saved, _, room| table::sheet_to_text(saved, room),
        |saved, _, room| archive::sheet_to_text(saved, room),
    )
};

/// The runs of an operation, and what is asked of the archive alone.
type Part = (&'static dyn Compared, fn(cases: u64, first: u64, few: bool) -> Vec<bool>);

const PARTS: [Part; 8] = [
    (&CHECK, |cases, first, few| {
        let run = of_files(Run::of(&CHECK).of_few(few), |_| Vec::new());
        let run = of_first_bytes(run, every_first_byte::nothing);
        vec![on_files(run, &read(), cases, first)]
    }),
    (&TIDY, |cases, first, few| {
        // Not 29: a file that is read has at most 1,048,576 bytes, and manner 1 takes no
        // more bytes than the spelling it had (Wish 10). So 29 counts as a fault here.
        let run = of_files(Run::of(&TIDY).of_few(few), every_division::short_file);
        let run = of_first_bytes(run, every_first_byte::short_file);
        let mut good = vec![
            on_files(run, &written(), cases / 2, first),
            outside_tidied(),
            tidied_twice(cases / 10, first),
        ];
        good.extend(nothing_smaller(cases / 10, first));
        good
    }),
    (&TEXT, |cases, first, few| {
        let run = Run::holding(&TEXT, read_file).of_few(few);
        let run = of_first_bytes(of_files(run, every_division::text), every_first_byte::text);
        vec![on_files(run, &written(), cases / 4, first), outside_texts()]
    }),
    (&FILE, |cases, first, few| {
        vec![
            on_texts(Run::holding(&FILE, read_text).of_few(few), cases / 4, first),
            outside_back(),
            files_forth_and_back(cases / 10, first),
            texts_forth_and_back(cases / 10, first),
        ]
    }),
    (&FOLD, |cases, first, few| {
        let run = of_files(Run::of(&FOLD).of_few(few), every_division::folded_file);
        vec![on_tracks(run, cases / 4, first), outside_folded(), folded_twice(cases / 10, first)]
    }),
    (&LIST, |cases, first, few| {
        let run = Run::of(&LIST).of_few(few).of_chunks().of_divisions(Given::Files).of_padding();
        vec![on_lists(run, cases / 4, first), outside_listed(), tidied_listed(cases / 10, first)]
    }),
    (&SHEET, |cases, first, few| {
        let run = of_files(Run::of(&SHEET).of_few(few), every_division::sheet);
        vec![on_sung(run, cases / 16, first)]
    }),
    (&TABLE, |cases, first, few| {
        vec![
            on_tables(Run::of(&TABLE).of_few(few), cases / 8, first),
            saved_sheets(),
            sheets_forth_and_back(cases / 20, first),
        ]
    }),
];

/// The numbers of reading a file. Not 4: it fell away with Wish 3, and is a fault if it comes.
fn read() -> Vec<u8> {
    (0..=3).chain(5..=13).collect()
}

/// The numbers of an operation that reads a file and writes something else.
fn written() -> Vec<u8> {
    [read(), vec![14]].concat()
}

fn main() -> ExitCode {
    let Some((cases, first, only)) = words_given() else {
        eprintln!("{USAGE}");
        return ExitCode::from(2);
    };
    let mut good = Vec::new();
    for (operation, part) in PARTS {
        if only.iter().all(|only| only == operation.name()) {
            good.extend(part(cases, first, cases < CASES));
        }
    }
    if good.contains(&false) {
        return ExitCode::FAILURE;
    }
    ExitCode::SUCCESS
}

/// CASES, FIRST_SEED and the operation, if all seeds fit, no source is without cases and
/// there is such an operation.
fn words_given() -> Option<(u64, u64, Option<String>)> {
    let mut words = env::args().skip(1);
    let cases = words.next().map_or(Ok(CASES), |word| word.parse()).ok()?;
    let first: u64 = words.next().map_or(Ok(0), |word| word.parse()).ok()?;
    let only = words.next();
    let known = |only: &String| PARTS.iter().any(|(operation, _)| operation.name() == only);
    if words.next().is_some() || !only.iter().all(known) {
        return None;
    }
    first.checked_add(cases).filter(|_| cases >= LEAST).map(|_| (cases, first, only))
}

/// A run of an operation that takes a file, begun with the file of every division, of which
/// the operation makes this.
fn of_files(run: Run, made: fn(u16) -> Vec<u8>) -> Run {
    let mut run = run.of_chunks().of_divisions(Given::Files);
    run.known("divisions", every_division::files(made));
    run
}

/// The same run, gone on with the files of every byte behind a delta.
fn of_first_bytes(mut run: Run, made: fn(&Track) -> Vec<u8>) -> Run {
    run.known("first bytes", every_first_byte::files(made));
    run
}

/// Compares an operation that takes a file; `due` are the numbers to be met.
fn on_files(mut run: Run, due: &[u8], cases: u64, first: u64) -> bool {
    file_sources(&mut run, cases, first);
    run.report(due)
}

fn file_sources<C: Compared>(run: &mut Run<C>, cases: u64, first: u64) {
    let outside: Vec<Vec<u8>> = outside_files().into_iter().map(|(_, file)| file).collect();
    let limits: Vec<Vec<u8>> = limit_cases().into_iter().map(|case| case.file).collect();
    let long = benchmark_file();

    run.source(GENERATED, first..first + cases, file_case);
    run.source("limits", 0..limits.len() as u64, |index| limits[index as usize].clone());
    run.source("outside", 0..outside.len() as u64, |index| outside[index as usize].clone());
    let count = outside.len() as u64;
    run.source("damaged", first..first + cases / 4, |seed| {
        mutated_copy(&mut Rng::new(seed), &outside[(seed % count) as usize])
    });
    run.source("long", first..first + cases / 400, |seed| mutated_copy(&mut Rng::new(seed), &long));
    on_kept(run, "files");
}

/// Compares fold: on files made for it, and on the same as the others.
fn on_tracks(mut run: Run, cases: u64, first: u64) -> bool {
    run.source("many tracks", first..first + cases, many_tracks_case);
    run.file_limits("fold limits", &fold_limit_cases());
    file_sources(&mut run, cases / 2, first);
    // Not 27: no folded step is longer than one of the file. Not 37: it has rows enough.
    run.report(&[written(), vec![29, 31, 32, 33]].concat())
}

/// Compares list_tracks: on files of which all numbers in its lists are known, on padded
/// files, good and damaged, and on the same as the others.
fn on_lists(mut run: Run<Listing>, cases: u64, first: u64) -> bool {
    run.listed_divisions("divisions");
    run.known_lists("spelled", first..first + cases / 2, known_padding);
    run.source("padded", first..first + cases, padded_case);
    run.list_limits("padding limits", &padding_limits());
    file_sources(&mut run, cases / 2, first);
    run.report(&written())
}

/// Compares file_to_sheet: on files of texts, and on the same as the others.
fn on_sung(mut run: Run, cases: u64, first: u64) -> bool {
    const TIMES: u64 = 4;
    let files = sheet_text_files();
    run.source("texts", 0..TIMES * files.len() as u64, |seed| {
        files[(seed / TIMES) as usize].clone()
    });
    run.source("sung", first..first + cases, |seed| sung_file(&mut Rng::new(seed)));
    file_sources(&mut run, cases, first);
    run.report(&written())
}

/// Compares sheet_to_text.
fn on_tables(mut run: Run, cases: u64, first: u64) -> bool {
    let stored: Vec<Vec<u8>> = saved_tables().into_iter().map(|saved| saved.table).collect();
    let outside: Vec<Vec<u8>> =
        outside_files().iter().map(|(name, _)| expected(name, "csv")).collect();
    let long: Vec<Vec<u8>> = [small_benchmark_file(), benchmark_file()]
        .iter()
        .map(|file| sheet_of(&read_file(file).expect("the benchmark's file")))
        .collect();

    run.source("saved", first..first + cases / 4, saved_case);
    run.source("damaged", first..first + cases / 2, damaged_table_case);
    run.source("random", first..first + cases, random_table_case);
    run.source("short", 0..short_tables(), short_table);
    run.source("texts", first..first + cases / 4, text_case);
    run.source("outside", 0..outside.len() as u64, |index| outside[index as usize].clone());
    let count = stored.len() as u64;
    run.source("stored", 0..count, |index| stored[index as usize].clone());
    run.source("near stored", first..first + cases / 4, |seed| {
        damaged_table(&mut Rng::new(seed), &stored[(seed % count) as usize])
    });
    // One in 32 is nearly 1 MiB long as a file.
    run.source("long", first..first + cases / 1_000, |seed| {
        let rng = &mut Rng::new(seed);
        let sheet = saved(rng, &opened(&long[usize::from(seed % 32 == 0)]));
        if rng.one_in(2) {
            damaged_table(rng, &sheet)
        } else {
            sheet
        }
    });
    run.table_limits("limits", &table_limit_cases());
    on_kept(&mut run, "tables");
    run.report(&[0, 14, 21, 38])
}

/// Compares text_to_file.
fn on_texts(run: Run, cases: u64, first: u64) -> bool {
    let mut run = run.of_divisions(Given::Texts);
    let outside: Vec<Vec<u8>> =
        outside_files().iter().map(|(name, _)| expected(name, "csv")).collect();
    let long = made(archive::file_to_text, &benchmark_file()).expect("the benchmark's text");

    run.known("divisions", every_division::texts());
    run.source(GENERATED, first..first + cases, text_case);
    run.aimed("aimed", first..first + cases, &aims());
    run.limits("limits", &text_limit_cases());
    run.source("outside", 0..outside.len() as u64, |index| outside[index as usize].clone());
    let count = outside.len() as u64;
    run.source("damaged", first..first + cases / 4, |seed| {
        mutated_text(&mut Rng::new(seed), &outside[(seed % count) as usize])
    });
    run.source("long", first..first + cases / 400, |seed| mutated_text(&mut Rng::new(seed), &long));
    on_kept(&mut run, "texts");
    let due: Vec<u8> = [0, 14].into_iter().chain(21..=30).collect();
    run.report(&due)
}

/// Compares on what the fuzzer found worth keeping, each in several manners and rooms.
fn on_kept<C: Compared>(run: &mut Run<C>, kind: &str) {
    const TIMES: u64 = 8;
    let kept = kept(kind);
    let cases = TIMES * kept.len() as u64;
    run.source("kept", 0..cases, |seed| kept[(seed / TIMES) as usize].clone());
}
