//! Wish 3 of document 02: a header longer than 6 and chunks that are not known. Each
//! refusal by hand with its exact place, and that nothing passed over changes what is made.

mod common;

use common::{chunk, file_of, folded, hex, one_track, refused, tidied, to_sheet, to_text, Case};
use second::fast_text;
use second::fold::{fold_rows, Row};
use second::generate::{piece, spelling, Rng};
use second::operations::{check, list_tracks};
use second::piece::Time;
use second::read_file::read_file;
use second::refusal::Answer;
use second::spelling::{Manner, Spelling, UnknownChunk};
use second::write_file::{layout, write_file};

const END: &str = "00 FF 2F 00";
/// Tags that are not a track's, however near.
const TAGS: [[u8; 4]; 7] = [*b"mtrk", *b"MTrl", *b"MThd", *b"XFIH", *b"XFKM", [0; 4], [255; 4]];

/// The header of a file with so many tracks, format 1: 14 bytes and `extra`.
fn header(tracks: u8, extra: &[u8]) -> Vec<u8> {
    let length = (6 + extra.len() as u32).to_be_bytes();
    [b"MThd", &length[..], &[0, 1, 0, tracks, 0, 96], extra].concat()
}

fn track() -> Vec<u8> {
    chunk(&hex(END))
}

fn unknown(tag: &[u8; 4], data: &[u8]) -> Vec<u8> {
    [tag, &(data.len() as u32).to_be_bytes()[..], data].concat()
}

/// A chunk that declares a length and has other data.
fn declaring(tag: &[u8; 4], length: u32, data: &[u8]) -> Vec<u8> {
    [tag, &length.to_be_bytes()[..], data].concat()
}

fn with_length(mut file: Vec<u8>, length: u32) -> Vec<u8> {
    file[4..8].copy_from_slice(&length.to_be_bytes());
    file
}

fn with_byte(mut file: Vec<u8>, at: usize, byte: u8) -> Vec<u8> {
    file[at] = byte;
    file
}

fn headers() -> Vec<Case> {
    // 26 bytes, so that a header of length 18 takes them all.
    let good = || one_track(END);
    let extra = || [header(1, b"extra"), track()].concat();
    let mut cases: Vec<Case> = vec![
        ("tag before a length under 6", with_byte(with_length(good(), 5), 0, b'm'), 3, 0),
        ("length under 6 before format", with_byte(with_length(good(), 0), 9, 3), 3, 4),
        ("length under 6, extra bytes", with_length(extra(), 5), 3, 4),
        ("tag before a length past the end", with_byte(with_length(good(), 19), 3, b'D'), 3, 0),
        ("under 14 bytes before the length", with_length(good(), 5)[..13].to_vec(), 2, 0),
        ("14 bytes, one more declared", with_length(good()[..14].to_vec(), 7), 2, 0),
        ("past the end by one byte", with_length(good(), 19), 2, 0),
        ("past the end by one byte, extra bytes", with_length(extra(), 24), 2, 0),
        ("past the end before format", with_byte(with_length(good(), 19), 9, 3), 2, 0),
        ("past the end before count", with_byte(with_length(good(), 19), 11, 0), 2, 0),
        ("past the end before division", with_byte(with_length(good(), 19), 13, 0), 2, 0),
        ("the whole file", with_length(good(), 18), 2, 26),
        ("the whole file but a byte", with_length(good(), 17), 2, 25),
        ("the whole file but 7 bytes", with_length(good(), 11), 2, 19),
        ("format before a track that is missing", with_byte(with_length(good(), 18), 9, 3), 3, 8),
        ("format, extra bytes", with_byte(extra(), 8, 1), 3, 8),
        ("count, extra bytes", with_byte(extra(), 11, 0), 3, 10),
        ("division, extra bytes", with_byte(extra(), 12, 255), 3, 12),
        ("a track in the header is none", header(1, &track()), 2, 26),
        ("one more track behind it is", [header(2, &track()), track()].concat(), 2, 38),
        ("an event's place moves", [header(1, b"extra"), chunk(&[0, 0xF4])].concat(), 8, 27),
        ("12's place moves", [header(1, b"x"), chunk(&hex("00 FF 2F 00 00"))].concat(), 12, 27),
        // The tag is then xMTr, and its length begins with k.
        ("an extra byte not declared", [&good()[..14], b"x", &track()].concat(), 2, 14),
    ];
    for length in 0..6 {
        cases.push(("length under 6", with_length(good(), length), 3, 4));
    }
    for length in [1 << 8, 1 << 16, 1 << 24, 1 << 31, u32::MAX - 8, u32::MAX - 7, u32::MAX] {
        cases.push(("far past the end", with_length(good(), length), 2, 0));
    }
    cases
}

/// Where a track must still begin.
fn track_due() -> Vec<Case> {
    let one = |rest: &[Vec<u8>]| [header(1, &[]), rest.concat()].concat();
    let two = |rest: &[Vec<u8>]| [header(2, &[]), rest.concat()].concat();
    let ab = || unknown(b"XFIH", b"ab");
    let far = || declaring(b"XFIH", u32::MAX, b"ab");
    let bad = || chunk(&[0, 0xF4, 0, 0xFF, 0x2F, 0]);
    let cut = || declaring(b"MTrk", 5, &hex(END));
    let mut cases = vec![
        ("none left behind a chunk", one(&[ab()]), 2, 24),
        ("none left behind two", one(&[ab(), unknown(b"MThd", &[])]), 2, 32),
        ("none left behind track 1 and a chunk", two(&[track(), ab()]), 2, 36),
        ("a byte too long", one(&[declaring(b"XFIH", 3, b"ab")]), 2, 14),
        ("a byte too long, empty", one(&[declaring(b"XFIH", 1, b"")]), 2, 14),
        ("far too long", one(&[far()]), 2, 14),
        ("a byte too long for all behind it", one(&[declaring(b"XFIH", 13, b""), track()]), 2, 14),
        ("just long enough for all behind it", one(&[declaring(b"XFIH", 12, b""), track()]), 2, 34),
        ("too long behind a chunk", one(&[ab(), far()]), 2, 24),
        ("too long behind track 1", two(&[track(), far(), track()]), 2, 26),
        ("a second MThd too long", one(&[declaring(b"MThd", 7, &[0, 0, 0, 1, 0, 96])]), 2, 14),
        ("a track too long behind a chunk", one(&[ab(), cut()]), 2, 24),
        (
            "a track's length before its events",
            one(&[ab(), declaring(b"MTrk", 9, &[0, 0xF4])]),
            2,
            24,
        ),
        ("a track in a chunk is none", one(&[unknown(b"XFIH", &track())]), 2, 34),
        ("a file in a chunk is none", one(&[unknown(b"XFIH", &one_track(END))]), 2, 48),
        ("one track behind a chunk, two due", two(&[ab(), track()]), 2, 36),
        ("8 behind a chunk", one(&[ab(), bad()]), 8, 32),
        ("8 in track 2, chunks round track 1", two(&[ab(), track(), ab(), bad()]), 8, 54),
        ("6 behind a chunk", one(&[ab(), chunk(&[])]), 6, 32),
        ("12 behind a chunk", one(&[ab(), chunk(&hex("00 FF 2F 00 00"))]), 12, 36),
        ("track 1's events before the next chunk", two(&[bad(), far()]), 8, 22),
        ("track 1's 12 before the next chunk", two(&[chunk(&hex("00FF2F00F4")), far()]), 12, 26),
        ("track 1's events before bytes left", one(&[bad(), vec![0]]), 8, 22),
    ];
    for count in 1..8 {
        for few in [&b"MTrk\0\0\0"[..], b"XFIH\0\0\0", &[0; 7], &[255; 7]] {
            let few = || few[..count].to_vec();
            cases.push(("few left", one(&[few()]), 2, 14));
            cases.push(("few left behind a chunk", one(&[ab(), few()]), 2, 24));
            cases.push(("few left behind track 1", two(&[track(), few()]), 2, 26));
        }
    }
    for tag in TAGS {
        cases.push(("a track hidden by its tag", one(&[unknown(&tag, &hex(END))]), 2, 26));
    }
    cases
}

/// Behind the last track.
fn behind() -> Vec<Case> {
    let after = |rest: &[Vec<u8>]| [one_track(END), rest.concat()].concat();
    let ab = || unknown(b"XFIH", b"ab");
    let far = || declaring(b"XFIH", u32::MAX, b"ab");
    let mut cases = vec![
        ("a further track", after(&[track()]), 13, 26),
        ("a further track without events", after(&[chunk(&[])]), 13, 26),
        ("a further track, its events bad", after(&[chunk(&[0, 0xF4])]), 13, 26),
        ("a further track, a byte too long", after(&[declaring(b"MTrk", 5, &hex(END))]), 13, 26),
        ("a further track, a byte too long, empty", after(&[declaring(b"MTrk", 1, &[])]), 13, 26),
        ("a further track, far too long", after(&[declaring(b"MTrk", u32::MAX, &[])]), 13, 26),
        ("a further track, then a byte", after(&[track(), vec![0]]), 13, 26),
        ("a further track, then a bad chunk", after(&[track(), far()]), 13, 26),
        ("a further track behind a chunk", after(&[ab(), track()]), 13, 36),
        ("a further track behind two", after(&[ab(), unknown(b"MThd", &[]), track()]), 13, 44),
        ("not fitting behind a chunk", after(&[ab(), declaring(b"MTrk", 9, &[])]), 13, 36),
        ("a second file", after(&[one_track(END)]), 13, 40),
        ("a byte too long", after(&[declaring(b"XFIH", 3, b"ab")]), 2, 26),
        ("a byte too long, empty", after(&[declaring(b"XFIH", 1, b"")]), 2, 26),
        ("far too long", after(&[far()]), 2, 26),
        ("too long behind a chunk", after(&[ab(), far()]), 2, 36),
        ("a second MThd too long", after(&[declaring(b"MThd", 7, &[0, 0, 0, 1, 0, 96])]), 2, 26),
        ("too long before a track that it holds", after(&[far(), track()]), 2, 26),
        ("12 before a further track", [one_track("00 FF 2F 00 00"), track()].concat(), 12, 26),
        ("8 before a further track", [one_track("00 F4"), track()].concat(), 8, 22),
        (
            "a track more than two",
            [header(2, b"x"), track(), ab(), track(), track()].concat(),
            13,
            49,
        ),
    ];
    for count in 1..8 {
        for few in [&b"MTrk\0\0\0"[..], b"XFIH\0\0\0", &[0; 7], &[255; 7]] {
            let few = || few[..count].to_vec();
            cases.push(("few left", after(&[few()]), 2, 26));
            cases.push(("few left behind a chunk", after(&[ab(), few()]), 2, 36));
        }
    }
    for tag in TAGS {
        cases.push(("too long, of each tag", after(&[declaring(&tag, 1, &[])]), 2, 26));
        cases.push(("13 behind each tag", after(&[unknown(&tag, b"abc"), track()]), 13, 37));
    }
    cases
}

#[test]
fn each_refusal_has_its_number_and_place() {
    let cases = [headers(), track_due(), behind()].concat();
    cases.iter().for_each(refused);
    println!("{} refused files", cases.len());
}

/// Each bit of a track's tag counts.
#[test]
fn a_track_has_just_its_tag() {
    for bit in 0..32 {
        let mut file = one_track(END);
        file[14 + bit / 8] ^= 1 << (bit % 8);
        refused(&("a track hidden by its tag", file.clone(), 2, 26));
        file.extend(track());
        assert_eq!(check(&file), Answer::success(0), "bit {bit}");
    }
}

/// All that is made of `file` is what is made of `plain`.
fn same(what: &str, file: &[u8], plain: &[u8]) {
    assert_eq!(check(file), Answer::success(0), "{what}");
    assert!(read_file(file) == read_file(plain), "{what}: piece");
    assert_eq!(tidied(file), tidied(plain), "{what}: tidied");
    assert_eq!(to_text(file), to_text(plain), "{what}: text");
    assert_eq!(to_sheet(file), to_sheet(plain), "{what}: sheet");
    // What is not folded for what the piece has is refused alike, but perhaps elsewhere.
    match (folded(file), folded(plain)) {
        (Err(one), Err(other)) => assert_eq!(one.number, other.number, "{what}: folded"),
        (one, other) => assert_eq!(one, other, "{what}: folded"),
    }
    // How much is padded is no matter of the piece.
    let listed = |file| {
        let (mut times, mut counts) = ([7; 70], [8; 70]);
        (list_tracks(file, &mut times, &mut counts, &mut [0; 70]), times, counts)
    };
    assert_eq!(listed(file), listed(plain), "{what}: listed");
    let fast = |file| {
        let mut text = Vec::new();
        (fast_text::file_to_text(file, &mut text), text)
    };
    assert_eq!(fast(file), fast(plain), "{what}: fast text");
}

/// Two tracks with running status and deltas, and what is put round them.
fn with_chunks(extra: &[u8], unknown: [&[u8]; 3]) -> Vec<u8> {
    let [before, between, behind] = unknown;
    let first = chunk(&hex("00 90 3C 40 60 3C 00 00 FF 2F 00"));
    let second = chunk(&hex("05 90 3E 40 83 00 FF 05 02 6C 61 00 FF 2F 00"));
    [&header(2, extra), before, &first, between, &second, behind].concat()
}

#[test]
fn what_is_passed_over_changes_nothing() {
    let plain = with_chunks(&[], [&[]; 3]);
    assert_eq!(plain.len(), 14 + 19 + 23);
    let events = hex("00 90 3C 40 00 FF 2F 00");
    let datas =
        [&[][..], b"a", b"abcdefg", &track(), &events, &header(2, &[]), &plain, &vec![0xFF; 700]];
    let mut tried = 0;
    for data in datas {
        if !data.is_empty() {
            same("header", &with_chunks(data, [&[]; 3]), &plain);
        }
        for tag in TAGS {
            let one = unknown(&tag, data);
            let three = [one.clone(), unknown(b"XFKM", &[]), one.clone()].concat();
            same("before", &with_chunks(&[], [&one, &[], &[]]), &plain);
            same("between", &with_chunks(&[], [&[], &one, &[]]), &plain);
            same("behind", &with_chunks(&[], [&[], &[], &one]), &plain);
            same("three everywhere", &with_chunks(data, [&three; 3]), &plain);
            tried += 4;
        }
    }
    assert_eq!(tried, 4 * 8 * 7);
}

/// A row's place is that of the file, chunks and all.
#[test]
fn rows_lead_behind_what_is_passed_over() {
    let rows_of = |file: &[u8]| {
        let mut rows = [Row::UNUSED; 2];
        assert_eq!(fold_rows(file, &mut [0; 99], &mut rows).number, 0);
        rows
    };
    let row = |place, time| Row { place, time: Time(time), status: 0 };
    let plain = with_chunks(&[], [&[]; 3]);
    assert_eq!(rows_of(&plain), [row(22 + 7, 96), row(41 + 11, 389)]);
    let ab = unknown(b"XFIH", b"ab");
    let file = with_chunks(b"extra", [&ab, &[&ab[..], &ab].concat(), &ab]);
    assert_eq!(rows_of(&file), [row(22 + 7 + 15, 96), row(41 + 11 + 35, 389)]);
    // So is that of a 33.
    let prefix = chunk(&hex("00 FF 20 01 00 00 FF 2F 00"));
    let file = [header(2, b"x"), track(), ab, prefix].concat();
    assert_eq!(folded(&file), Err(Answer { number: 33, place: 15 + 12 + 10 + 8, length: 0 }));
}

#[test]
fn seeded_pieces_are_the_same_with_chunks_and_without() {
    let (mut extra, mut chunks) = (0, 0);
    for seed in 0..3_000 {
        let rng = &mut Rng::new(seed);
        let piece = piece(rng);
        let spelled = spelling(rng, &piece);
        let file = layout(&piece, &spelled).expect("a permitted spelling");
        extra += u32::from(!spelled.header_extra.is_empty());
        chunks += u32::from(spelled.unknown.iter().any(|some| !some.is_empty()));
        let plain = write_file(&piece, Manner::Full).expect("a piece that keeps its rules");
        same(&format!("seed {seed}"), &file, &plain);
    }
    println!("seeds 0..3000: {extra} with extra bytes, {chunks} with chunks");
    assert!((500..1_000).contains(&extra) && (1_000..1_600).contains(&chunks));
}

#[test]
fn a_layout_has_its_chunks_in_place() {
    let file = with_chunks(b"ex", [b"XFIH\0\0\0\x01a", &[], b"MThd\0\0\0\0ABCD\0\0\0\x02xy"]);
    let piece = read_file(&file).expect("a good file");
    let some = |tag: &[u8; 4], data: &[u8]| UnknownChunk { tag: *tag, data: data.to_vec() };
    let mut spelled = Spelling::of_manner(&piece, Manner::Short).expect("a spelling");
    assert_eq!((&spelled.header_extra[..], &spelled.unknown), (&[][..], &vec![vec![]; 3]));
    spelled.header_extra = b"ex".to_vec();
    spelled.unknown =
        vec![vec![some(b"XFIH", b"a")], vec![], vec![some(b"MThd", b""), some(b"ABCD", b"xy")]];
    assert_eq!(layout(&piece, &spelled), Some(file));
    // Our writers write none.
    let plain = with_chunks(&[], [&[]; 3]);
    assert_eq!(write_file(&piece, Manner::Short), Some(plain));
}

#[test]
fn no_layout_with_a_track_among_the_unknown_chunks() {
    let piece = read_file(&file_of(1, &[hex(END), hex(END)])).expect("a good file");
    let good = Spelling::of_manner(&piece, Manner::Full).expect("a spelling");
    for at in 0..3 {
        let mut bad = good.clone();
        bad.unknown[at].push(UnknownChunk { tag: *b"MTrl", data: vec![1] });
        assert!(layout(&piece, &bad).is_some(), "list {at}");
        bad.unknown[at].push(UnknownChunk { tag: *b"MTrk", data: hex(END) });
        assert_eq!(layout(&piece, &bad), None, "list {at}");
    }
    for lists in [0, 2, 4] {
        let unknown = vec![Vec::new(); lists];
        assert_eq!(layout(&piece, &Spelling { unknown, ..good.clone() }), None, "{lists} lists");
    }
}
