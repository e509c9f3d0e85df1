//! The generator's aim: what it must not lose without anybody seeing it.

mod common;

use std::collections::{BTreeMap, BTreeSet};
use std::ops::RangeInclusive;

use common::{folded, tidied, to_text};
use second::chunk_coverage::ChunkCoverage;
use second::compare::Compared;
use second::compare_lists::Listing;
use second::division_coverage::{DivisionCoverage, Given};
use second::generate::{
    aims, benchmark_file, chunks_among_tracks_file, chunks_round_track_file, damaged_table_case,
    file_case, fold_benchmark_file, known_padding, limit_cases, manner, many_tracks_case,
    padded_case, piece, plain_file, plain_text, pulse_piece, random_table_case, room, saved_case,
    sheet_text_files, short_table, small_benchmark_file, small_chunks_among_tracks_file,
    small_chunks_round_track_file, small_fold_benchmark_file, spelling, sung_file, text_case,
    text_limit_cases, Rng,
};
use second::number::read_variable;
use second::operations::{check, file_to_text, list_tracks, text_to_file};
use second::padding_coverage::PaddingCoverage;
use second::piece::{Event, Format, Kind, Piece, Time};
use second::read_file::read_file;
use second::refusal::Answer;
use second::spelling::shortest;
use second::tally::Tally;
use second::write_file::{length_of, write_event};

const CASES: u64 = 20_000;

fn counted(numbers: impl Iterator<Item = u8>) -> BTreeMap<u8, u64> {
    let mut counts = BTreeMap::new();
    numbers.for_each(|number| *counts.entry(number).or_insert(0) += 1);
    counts
}

/// Runs `operation` in as much room as a chance gives it.
fn number_of(seed: u64, operation: impl Fn(&mut [u8]) -> Answer) -> u8 {
    let asked = operation(&mut []);
    let size = room(&mut Rng::new(seed), asked.length);
    operation(&mut vec![0; size]).number
}

#[test]
fn files_meet_every_number() {
    let counts = counted((0..CASES).map(|seed| {
        let file = file_case(seed);
        number_of(seed, |room| file_to_text(&file, room))
    }));
    println!("{CASES} files, seeds 0..{CASES}: {counts:?}");
    let met: BTreeSet<u8> = counts.keys().copied().collect();
    // 4 is not given.
    assert_eq!(met, (0..=3).chain(5..=14).collect());
    for (number, count) in counts {
        let least = if number == 1 { 5 } else { 100 };
        assert!(count >= least, "{number} only {count} times");
    }
}

#[test]
fn texts_meet_every_number() {
    let counts = counted((0..CASES).map(|seed| {
        let text = text_case(seed);
        let manner = manner(&mut Rng::new(seed));
        number_of(seed, |room| text_to_file(&text, manner, room))
    }));
    println!("{CASES} texts, seeds 0..{CASES}: {counts:?}");
    let met: BTreeSet<u8> = counts.keys().copied().collect();
    assert_eq!(met, [0, 14].into_iter().chain(21..=30).collect());
    for (number, count) in counts {
        let least = if number == 21 || number == 29 { 2 } else { 100 };
        assert!(count >= least, "{number} only {count} times");
    }
}

/// Aims that hit one number by more than one way: the places must vary too.
#[test]
fn header_faults_meet_every_place() {
    let answers: BTreeSet<(u8, usize)> = (0..CASES)
        .map(|seed| check(&file_case(seed)))
        .filter(|answer| answer.number == 3)
        .map(|answer| (answer.number, answer.place))
        .collect();
    assert_eq!(answers, BTreeSet::from([(3, 0), (3, 4), (3, 8), (3, 10), (3, 12)]));
}

/// Every sort of header and chunks, good and refused.
#[test]
fn files_meet_every_sort_of_chunks() {
    let met = chunks_of((0..CASES).map(file_case));
    every_sort(&format!("{CASES} files, seeds 0..{CASES}"), &met.tally);
}

fn every_sort(what: &str, met: &Tally) {
    println!("{what}: {}", met.summary());
    assert_eq!(met.missing(), [""; 0], "{what}");
    let (name, count) = met.least();
    assert!(count >= 10, "{what}: {name} only {count} times");
}

/// Those of `names` that were never met.
fn never_of<'a>(names: &[&'a str], met: &Tally) -> Vec<&'a str> {
    let missing = met.missing();
    names.iter().copied().filter(|name| missing.contains(&name.to_string())).collect()
}

/// The files of many tracks and of texts are mostly good: they have all sorts that are.
#[test]
fn other_files_meet_every_good_sort_of_chunks() {
    let tracks = chunks_of((0..CASES).map(many_tracks_case));
    let sung = chunks_of((0..2_000).map(|seed| sung_file(&mut Rng::new(seed))));
    for (what, met) in [("many tracks", tracks), ("sung", sung)] {
        println!("{what}: {}", met.tally.summary());
        assert_eq!(never_of(&ChunkCoverage::GOOD, &met.tally), [""; 0], "{what}");
    }
}

fn chunks_of(files: impl Iterator<Item = Vec<u8>>) -> ChunkCoverage {
    let mut met = ChunkCoverage::default();
    for file in files {
        let answer = check(&file);
        met.add(&file, answer.number, answer.place);
    }
    met
}

/// Every sort of division, good and refused.
#[test]
fn files_and_texts_meet_every_sort_of_divisions() {
    let mut files = DivisionCoverage::of(Given::Files);
    let mut texts = DivisionCoverage::of(Given::Texts);
    for seed in 0..CASES {
        let (file, text) = (file_case(seed), text_case(seed));
        let answer = check(&file);
        files.add(&file, answer.number, answer.place);
        let answer = text_to_file(&text, 1, &mut []);
        // With room enough it would be 0.
        let number = if answer.number == 14 { 0 } else { answer.number };
        texts.add(&text, number, answer.place);
    }
    every_sort(&format!("{CASES} files, seeds 0..{CASES}"), &files.tally);
    every_sort(&format!("{CASES} texts, seeds 0..{CASES}"), &texts.tally);
}

/// The files of many tracks and of texts have all divisions that are good.
#[test]
fn other_files_meet_every_good_sort_of_divisions() {
    let sung = |seed| sung_file(&mut Rng::new(seed));
    for (what, make) in [("many tracks", many_tracks_case as fn(u64) -> Vec<u8>), ("sung", sung)] {
        let mut met = DivisionCoverage::of(Given::Files);
        for file in (0..2_000).map(make) {
            let answer = check(&file);
            met.add(&file, answer.number, answer.place);
        }
        println!("{what}: {}", met.tally.summary());
        assert_eq!(never_of(&DivisionCoverage::GOOD, &met.tally), [""; 0], "{what}");
    }
}

/// Every sort of padding and of lists, but for what only files near the limit have.
#[test]
fn padded_files_meet_every_sort_of_padding() {
    const LISTING: Listing = Listing {
        second: |file, [times, counts, padding]| list_tracks(file, times, counts, padding),
        archive: |file, [times, counts, padding]| {
            list_tracks(file, times, counts, padding).packed()
        },
    };
    let mut met = PaddingCoverage::default();
    let mut numbers = Vec::new();
    for seed in 0..CASES {
        let file = padded_case(seed);
        let compared = LISTING.compare(seed, &file).expect("one and the same program");
        numbers.push(compared.number);
        met.add(&file, &compared);
    }
    println!("{CASES} padded files, seeds 0..{CASES}: {}", met.tally.summary());
    assert_eq!(met.tally.missing(), ["over 65535 in a track"]);
    let names = PaddingCoverage::default().tally.missing();
    for name in names.iter().filter(|name| name.contains("alone") || name.contains("lists")) {
        assert!(met.tally.count_of(name) >= 130, "{name} only {} times", met.tally.count_of(name));
    }
    for name in names.iter().filter(|name| name.contains(" by ")) {
        assert!(met.tally.count_of(name) >= 60, "{name} only {} times", met.tally.count_of(name));
    }
    let counts = counted(numbers.into_iter());
    println!("{CASES} padded files, seeds 0..{CASES}: {counts:?}");
    let numbers: BTreeSet<u8> = counts.keys().copied().collect();
    assert_eq!(numbers, [0, 2, 3].into_iter().chain(5..=14).collect());
    assert!(counts.values().all(|count| *count >= 100), "{counts:?}");
}

/// Half of the spellings have nothing besides the piece.
#[test]
fn half_of_the_spellings_are_plain() {
    let plain = (0..CASES).filter(|seed| {
        let rng = &mut Rng::new(*seed);
        let piece = piece(rng);
        let spelling = spelling(rng, &piece);
        spelling.header_extra.is_empty() && spelling.unknown.iter().all(Vec::is_empty)
    });
    let plain = plain.count() as u64;
    assert!((CASES / 2..CASES * 6 / 10).contains(&plain), "{plain} of {CASES}");
}

fn events(piece: &Piece) -> impl Iterator<Item = &Event> {
    piece.tracks.iter().flat_map(|track| &track.events)
}

#[test]
fn pieces_have_every_kind_and_boundary() {
    let (mut kinds, mut lengths, mut steps) = (BTreeSet::new(), BTreeSet::new(), BTreeSet::new());
    let (mut formats, mut greatest) = (BTreeSet::new(), 0);
    for seed in 0..2_000 {
        let piece = piece(&mut Rng::new(seed));
        assert!(piece.keeps_rules(), "seed {seed}");
        formats.insert((piece.format.number(), piece.tracks.len() > 1));
        for event in events(&piece) {
            kinds.insert(name_of(&event.kind));
            lengths.extend(length_of(&event.kind));
            greatest += u32::from(event.time == Time(u32::MAX));
        }
        for track in &piece.tracks {
            steps.extend(track.events.windows(2).map(|pair| pair[1].time.0 - pair[0].time.0));
        }
    }
    assert_eq!(kinds.len(), 19 + 7, "{kinds:?}");
    let one = Format::OneTrack.number();
    assert!(formats.contains(&(one, false)) && !formats.contains(&(one, true)));
    assert!(formats.contains(&(1, true)) && formats.contains(&(2, true)));
    for length in [0, 127, 128, 16_383, 16_384] {
        assert!(lengths.contains(&length), "no length {length}");
    }
    for step in [0, 127, 128, 16_383, 16_384, 2_097_151, 2_097_152, 268_435_455] {
        assert!(steps.contains(&step), "no step {step}");
    }
    assert!(greatest > 50, "the greatest Time {greatest} times");
}

/// A word for the kind of an event: the variant's name, or the text's.
fn name_of(kind: &Kind) -> String {
    match kind {
        Kind::Text(text, _) => format!("{text:?}_t"),
        other => format!("{other:?}").split([' ', '(']).next().unwrap().to_owned(),
    }
}

#[test]
fn files_at_the_limit_are_as_said() {
    for case in limit_cases() {
        let due = Answer { number: case.number, place: case.place, length: 0 };
        assert_eq!(check(&case.file), due, "{}, {} bytes", case.what, case.file.len());
        let over = case.file.len() > 1_048_576;
        assert_eq!(over, case.number == 1, "{}, {} bytes", case.what, case.file.len());
    }
}

#[test]
fn texts_at_the_limits_are_as_said() {
    let cases = text_limit_cases();
    for case in &cases {
        let text = case.text();
        for (manner, due) in case.due.into_iter().enumerate() {
            let answer = text_to_file(&text, manner as u32, &mut []);
            assert_eq!(answer, due, "{}, manner {manner}", case.what);
        }
        let over = text.len() > 33_554_432;
        assert_eq!(over, case.due[0].number == 21, "{}, {} bytes", case.what, text.len());
    }
    let sizes: BTreeSet<usize> =
        cases.iter().map(|case| case.text().len()).filter(|size| *size > 33_000_000).collect();
    assert_eq!(sizes, BTreeSet::from([33_554_432, 33_554_433]));
    let needed: BTreeSet<usize> =
        cases.iter().flat_map(|case| case.due.map(|due| due.length)).collect();
    assert_eq!(needed, BTreeSet::from([0, 26, 786_434, 1_048_575, 1_048_576]));
}

fn fnv(bytes: &[u8]) -> u64 {
    let step = |hash: u64, byte: &u8| (hash ^ u64::from(*byte)).wrapping_mul(0x100_0000_01B3);
    bytes.iter().fold(0xCBF2_9CE4_8422_2325, step)
}

#[test]
fn the_benchmark_files_are_as_asked() {
    the_benchmark_file_is_as_asked(benchmark_file, 1_048_000..=1_048_576);
    the_benchmark_file_is_as_asked(small_benchmark_file, 65_500..=65_536);
}

fn the_benchmark_file_is_as_asked(make: fn() -> Vec<u8>, sizes: RangeInclusive<usize>) {
    let file = make();
    println!("benchmark: {} bytes, FNV {:016x}", file.len(), fnv(&file));
    assert!(sizes.contains(&file.len()), "{} bytes", file.len());
    assert!(file == make(), "not repeatable");
    let piece = read_file(&file).unwrap();
    let kinds: BTreeSet<String> = events(&piece).map(|event| name_of(&event.kind)).collect();
    assert_eq!(kinds.len(), 19 + 7, "{kinds:?}");
    for track in &piece.tracks {
        let mut before = None;
        for event in &track.events {
            let mut bytes = Vec::new();
            let spelling = shortest(event, before).unwrap();
            write_event(event, before, spelling, &mut bytes).unwrap();
            assert!(bytes.len() <= 100, "an event of {} bytes", bytes.len());
            assert!(read_variable(&bytes).is_ok());
            before = Some(event);
        }
    }
    assert!(to_text(&file).is_ok());
}

/// Tidy, so many tracks, and folds that are no longer and take their events in turn.
#[test]
fn the_benchmark_files_to_be_folded_are_as_asked() {
    for tracks in FOLDED {
        let (large, small) = (fold_benchmark_file(tracks), small_fold_benchmark_file(tracks));
        println!("{tracks} tracks: {} and {} bytes", large.len(), small.len());
        assert!((1_048_000..=1_048_576).contains(&large.len()), "{tracks} tracks");
        assert!((65_000..=65_536).contains(&small.len()), "{tracks} tracks");
        for file in [large, small] {
            let piece = read_file(&file).unwrap();
            assert_eq!(piece.tracks.len(), tracks);
            assert_eq!(tidied(&file), Ok(file.clone()));
            let made = folded(&file).unwrap();
            assert!(made.len() <= file.len(), "{tracks} tracks");
            let fold = read_file(&made).unwrap();
            assert_eq!(events(&fold).count(), events(&piece).count() + 1 - tracks);
            let times = events(&fold).filter(|event| event.kind != Kind::EndTrack);
            assert!(times.map(|event| event.time.0).eq(0..events(&fold).count() as u32 - 1));
        }
    }
}

/// So many bytes, tracks and chunks; nothing but chunks and End_tracks.
#[test]
fn the_benchmark_files_of_chunks_are_as_asked() {
    for (file, size, tracks, chunks) in [
        (chunks_round_track_file(), 1_048_576, 1, 131_068),
        (small_chunks_round_track_file(), 65_536, 1, 8_188),
        (chunks_among_tracks_file(), 1_048_576, 65_535, 32_767),
        (small_chunks_among_tracks_file(), 65_536, 4_095, 2_047),
    ] {
        assert_eq!(file.len(), size);
        let piece = read_file(&file).unwrap();
        assert_eq!((piece.tracks.len(), events(&piece).count()), (tracks, tracks));
        // Six extra bytes of the header make up the size.
        assert_eq!(file[..8], *b"MThd\0\0\0\x0C");
        assert_eq!(14 + 6 + 12 * tracks + 8 * chunks, size);
        let empty = file.windows(8).filter(|part| part == b"XFIH\0\0\0\0");
        assert_eq!(empty.count(), chunks);
    }
}

/// The numbers of tracks that folds are timed with.
const FOLDED: [usize; 4] = [1, 2, 16, 64];

/// Cases and benchmark stay what they were: measurements and reports name them.
#[test]
fn seeds_give_what_they_gave() {
    let hash = |make: fn(u64) -> Vec<u8>| {
        let bytes: Vec<u8> = (0..500).flat_map(|seed| fnv(&make(seed)).to_be_bytes()).collect();
        fnv(&bytes)
    };
    let aimed: Vec<u8> = aims()
        .iter()
        .enumerate()
        .flat_map(|(seed, aim)| fnv(&aim.text(&mut Rng::new(seed as u64)).text).to_be_bytes())
        .collect();
    let benchmarks = [fnv(&benchmark_file()), fnv(&small_benchmark_file())];
    let to_fold: Vec<u8> =
        FOLDED.iter().flat_map(|tracks| fnv(&fold_benchmark_file(*tracks)).to_be_bytes()).collect();
    let texts: Vec<u8> =
        sheet_text_files().iter().flat_map(|file| fnv(file).to_be_bytes()).collect();
    let hashes = [
        hash(file_case),
        hash(text_case),
        benchmarks[0],
        benchmarks[1],
        fnv(&aimed),
        hash(many_tracks_case),
        fnv(&to_fold),
        hash(|seed| sung_file(&mut Rng::new(seed))),
        fnv(&texts),
        hash(saved_case),
        hash(damaged_table_case),
        hash(random_table_case),
        hash(short_table),
        // What docs/FROM-MIDICSV.md was measured with.
        hash(|seed| plain_file(&mut Rng::new(seed))),
        hash(|seed| plain_text(&pulse_piece(&mut Rng::new(seed)))),
        hash(padded_case),
        hash(|seed| known_padding(seed).file),
    ];
    println!("{hashes:016x?}");
    assert_eq!(hashes, PINNED, "pin anew if the generator was changed on purpose");
}

const PINNED: [u64; 17] = [
    0xe934_9adb_c8b7_e485, 0x9dcb_1ec3_54fa_e190, 0x80ca_d4ff_450a_95d7, 0x8e2b_f0b6_0c94_7c34,
    0xe033_da70_f5c4_6c56, 0xad6d_63cd_359b_c2f5, 0x8e35_28a6_a807_e1ee, 0xca3c_70dc_6607_529d,
    0xf81b_4767_f6fb_1324, 0x3323_4419_3435_bbb6, 0x343b_1c85_3756_3bab, 0x94f6_1f21_8b97_91e6,
    0x5b1f_3d85_81de_8294, 0xe967_41de_8eff_daea, 0x5eae_1c9f_4fb9_6356, 0x0e45_d51b_4523_4d00,
    0xb5c2_a491_e65f_a085,
];
