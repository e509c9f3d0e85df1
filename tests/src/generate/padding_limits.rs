//! Files near the limit of size that are mostly padding, or list most tracks, by hand.

use super::padded::KnownLists;

/// No event has more padding for its bytes: 6 in 9.
const EMPTY_SYSEX: &[u8] = b"\x80\x80\x80\0\xF0\x80\x80\x80\0";
const PROGRAM: &[u8] = b"\x80\x80\x80\0\xC0\0";
/// The same with its status left out.
const NEXT_PROGRAM: &[u8] = b"\x80\x80\x80\0\0";
const END: &[u8] = b"\0\xFF\x2F\0";
const END_BY_4: &[u8] = b"\x80\x80\x80\0\xFF\x2F\x80\0";
const END_BY_5: &[u8] = b"\x80\x80\x80\0\xFF\x2F\x80\x80\0";
/// At Time 128, which takes two bytes.
const LATE_END_BY_4: &[u8] = b"\x80\x81\0\xFF\x2F\x80\x80\x80\0";

const SYSEXES: u32 = 116_505;
const PROGRAMS: u32 = 209_709;
const TRACKS: usize = 65_535;

pub fn padding_limits() -> Vec<KnownLists> {
    let mut limits = listed();
    limits.extend(refused());
    limits
}

/// So many of the events that are mostly padding.
fn sysexes(count: u32) -> Vec<u8> {
    EMPTY_SYSEX.repeat(count as usize)
}

/// A track that fills a file to its last byte.
fn sysex_track() -> Vec<u8> {
    [&sysexes(SYSEXES)[..], END_BY_5].concat()
}

fn listed() -> Vec<KnownLists> {
    let shorter = [&sysexes(SYSEXES - 10)[..], END].concat();
    let programs = [PROGRAM, &NEXT_PROGRAM.repeat(PROGRAMS as usize - 1), END].concat();
    vec![
        known(
            "nothing but padded empty sysexes",
            file_of(&[&sysex_track()]),
            Ok([vec![0], vec![SYSEXES + 1], vec![6 * SYSEXES + 5]]),
        ),
        known(
            "nothing but padded deltas",
            file_of(&[&programs]),
            Ok([vec![0], vec![PROGRAMS + 1], vec![3 * PROGRAMS]]),
        ),
        known(
            "as many tracks as can be counted, all padded",
            file_of(&[END_BY_4].repeat(TRACKS)),
            Ok([vec![0; TRACKS], vec![1; TRACKS], vec![4; TRACKS]]),
        ),
        known(
            "every other one of many tracks padded",
            file_of(&[END_BY_4, END].repeat(TRACKS / 2)),
            Ok([vec![0; TRACKS - 1], vec![1; TRACKS - 1], [4, 0].repeat(TRACKS / 2)]),
        ),
        known(
            "two tracks behind one of much padding",
            file_of(&[&shorter, END, LATE_END_BY_4]),
            Ok([vec![0, 0, 128], vec![SYSEXES - 9, 1, 1], vec![6 * (SYSEXES - 10), 0, 4]]),
        ),
    ]
}

fn refused() -> Vec<KnownLists> {
    vec![
        known(
            "much padding, and a byte over the limit",
            [&file_of(&[&sysex_track()])[..], b"X"].concat(),
            Err((1, 0)),
        ),
        known(
            "much padding, and no End_track in the last track",
            file_of(&[END, &sysexes(SYSEXES - 2)]),
            Err((6, 14 + 12 + 8 + 9 * (SYSEXES as usize - 2))),
        ),
    ]
}

fn known(what: &str, file: Vec<u8>, due: Result<[Vec<u32>; 3], (u8, usize)>) -> KnownLists {
    KnownLists { what: what.to_owned(), file, due }
}

fn file_of(bodies: &[&[u8]]) -> Vec<u8> {
    let count = (bodies.len() as u16).to_be_bytes();
    let mut file = [&b"MThd\0\0\0\x06\0\x01"[..], &count, b"\0\x60"].concat();
    for body in bodies {
        file.extend(b"MTrk");
        file.extend((body.len() as u32).to_be_bytes());
        file.extend(*body);
    }
    file
}

#[test]
fn they_are_near_the_limit() {
    use crate::FILE_MAX;
    let sizes = padding_limits().iter().map(|known| known.file.len()).collect::<Vec<_>>();
    let [all, most, counted, half, three, over, endless] = sizes[..] else { panic!("seven") };
    assert_eq!((all, over), (FILE_MAX, FILE_MAX + 1));
    assert!(most > FILE_MAX - 5 && counted > FILE_MAX - 3, "{most}, {counted}");
    assert_eq!(half, 14 + 28 * (TRACKS / 2));
    assert!(three > FILE_MAX - 70 && endless > FILE_MAX - 20, "{three}, {endless}");
    assert!([three, endless].iter().all(|size| *size <= FILE_MAX));
}
