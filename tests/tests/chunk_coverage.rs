//! What a run tells of headers and chunks: each sort by hand, on a file that has it.

mod common;

use common::{chunk, hex};
use second::chunk_coverage::ChunkCoverage;
use second::operations::check;

/// A file of format 1 that counts so many tracks, with a header of the length declared.
fn file(tracks: u8, length: u8, rest: &[&[u8]]) -> Vec<u8> {
    let header = [b'M', b'T', b'h', b'd', 0, 0, 0, length, 0, 1, 0, tracks, 0, 96];
    [&header[..], &rest.concat()].concat()
}

/// The sorts that are met when the second program's answer to a file is added.
fn met(file: &[u8]) -> String {
    let mut coverage = ChunkCoverage::default();
    let all = coverage.tally.missing();
    let answer = check(file);
    coverage.add(file, answer.number, answer.place);
    let missing = coverage.tally.missing();
    let met: Vec<String> = all.into_iter().filter(|name| !missing.contains(name)).collect();
    met.join("; ")
}

const EMPTY: &[u8] = b"XFIH\0\0\0\0";
const CUT: &[u8] = b"XFIH\0\0\0\x01";
const CUT_BY_TWO: &[u8] = b"XFIH\0\0\0\x02";

#[test]
fn each_sort_is_told() {
    let track = &chunk(&hex("00 FF 2F 00"))[..];
    let mthd = b"MThd\0\0\0\x01x";
    let holder = &[b"abcd\0\0\0\x0C", track].concat()[..];
    let cases: Vec<(Vec<u8>, &str)> = vec![
        (file(1, 6, &[track]), ""),
        (file(1, 7, &[b"x", track]), "long header"),
        (file(1, 10, &[b"MTrk", track]), "long header; MTrk in a long header"),
        (file(1, 6, &[EMPTY, track]), "chunk before the first track; empty chunk"),
        (file(2, 6, &[track, holder, track]), "chunk between tracks; MTrk in a chunk"),
        (file(1, 6, &[track, mthd]), "chunk behind the last track; second MThd"),
        (
            file(1, 6, &[mthd, mthd, track]),
            "chunk before the first track; second MThd; several chunks in a row",
        ),
        (file(1, 5, &[track]), "3 at 4"),
        (file(1, 20, &[track]), "header too long"),
        (file(1, 19, &[track]), "header too long; header too long by one byte"),
        (file(1, 6, &[]), "none left, track due"),
        (file(2, 6, &[track]), "none left, track due"),
        (file(1, 6, &[EMPTY]), "none left, track due; none left behind a chunk, track due"),
        (file(1, 6, &[b"MTrk\0\0\0\x02"]), "track too long"),
        (file(1, 6, &[b"MTrk\0\0\0\x01"]), "track too long; track too long by one byte"),
        (file(2, 6, &[track, EMPTY, CUT_BY_TWO]), "chunk too long, track due"),
        (file(1, 6, &[CUT]), "chunk too long, track due; chunk too long by one byte, track due"),
        (file(1, 6, &[track, CUT_BY_TWO]), "chunk too long behind all tracks"),
        (
            file(1, 6, &[EMPTY, track, CUT]),
            "chunk too long behind all tracks; chunk too long by one byte behind all tracks",
        ),
        (file(1, 6, &[track, track]), "13 fitting"),
        (file(1, 6, &[track, b"MTrk\0\0\0\x01"]), "13 not fitting"),
        (file(1, 6, &[track, EMPTY, track]), "13 fitting; 13 behind a chunk"),
        // Nothing of chunks.
        (b"MThd".to_vec(), ""),
        (file(0, 6, &[track]), ""),
        (file(1, 6, &[chunk(&[0, 0xF4]).as_slice()]), ""),
    ];
    for (index, (file, due)) in cases.iter().enumerate() {
        assert_eq!(met(file), *due, "case {index}");
    }
    for left in 1..8 {
        let few = &b"MTrk\0\0\0"[..left];
        assert_eq!(met(&file(1, 6, &[few])), format!("{left} left, track due"));
        assert_eq!(met(&file(2, 6, &[track, few])), format!("{left} left, track due"));
        assert_eq!(met(&file(1, 6, &[track, few])), format!("{left} left, behind all tracks"));
    }
}

#[test]
fn counts_go_up_and_what_is_missing_goes_down() {
    let mut coverage = ChunkCoverage::default();
    assert_eq!(coverage.tally.missing().len(), 37);
    let track = chunk(&hex("00 FF 2F 00"));
    for _ in 0..2 {
        coverage.add(&file(1, 7, &[b"x", &track]), 0, 0);
    }
    assert_eq!(coverage.tally.missing().len(), 36);
    assert!(coverage.tally.summary().starts_with("long header 2; MTrk in a long header 0; "));
}
