//! Small pieces in all their spellings: what Wish 10 says of any accepted file, asked of every
//! file of a piece that has nothing besides it.

use super::small::{small_pieces, Small};
use super::source::{laid_out, Source};
use super::{tidied_in, Fault, Program};
use crate::generate::Rng;
use crate::piece::Piece;
use crate::read_file::read_file;
use crate::refusal::Answer;
use crate::spelling::{EventSpelling, Manner, Spelling};
use crate::write_file::length_of;

/// All spellings of an event whose shortest one is given.
fn of_event(shortest: EventSpelling, has_length: bool) -> Vec<EventSpelling> {
    let greatest = if has_length { 4 } else { shortest.length_bytes };
    let mut all = Vec::new();
    for delta_bytes in shortest.delta_bytes..=4 {
        for length_bytes in shortest.length_bytes..=greatest {
            for status_left_out in [false, true] {
                if shortest.status_left_out || !status_left_out {
                    all.push(EventSpelling { delta_bytes, length_bytes, status_left_out });
                }
            }
        }
    }
    all
}

/// All permitted spellings of a piece with nothing besides it.
fn spellings(piece: &Piece) -> Vec<Spelling> {
    let short = Spelling::of_manner(piece, Manner::Short).expect("a small piece has spellings");
    let mut all = vec![short.clone()];
    for (track, shortest) in short.tracks.iter().enumerate() {
        for (at, shortest) in shortest.iter().enumerate() {
            let has_length = length_of(&piece.tracks[track].events[at].kind).is_some();
            let events = of_event(*shortest, has_length);
            let each = |spelling: Spelling| {
                events.iter().map(move |event| {
                    let mut spelling = spelling.clone();
                    spelling.tracks[track][at] = *event;
                    spelling
                })
            };
            all = all.into_iter().flat_map(each).collect();
        }
    }
    all
}

/// Whether among these files `short` is the only one of the least length.
fn only_least(files: &[Vec<u8>], short: &[u8]) -> bool {
    let least = files.iter().map(Vec::len).min();
    files.iter().filter(|file| Some(file.len()) == least).eq([short])
}

pub fn all(program: &Program) -> Source<'_> {
    let pieces = small_pieces();
    let of = format!("{} small pieces in all spellings", pieces.len());
    let mut source = Source::of(program, "all", of);
    for (number, Small { what, short, spellings: due }) in pieces.iter().enumerate() {
        let rng = &mut Rng::new(number as u64);
        let piece = read_file(short).expect("a good file by hand");
        let files: Vec<Vec<u8>> =
            spellings(&piece).iter().map(|spelling| laid_out(&piece, spelling)).collect();
        assert_eq!(files.len(), *due, "{what}: not all spellings");
        for (number, file) in files.iter().enumerate() {
            source.take(rng, &format!("{what}, spelling {number}"), file, short);
        }
        let (Answer { length, .. }, _) = tidied_in(program, rng, &files[0], 0);
        let (_, tidied) = tidied_in(program, rng, &files[0], length);
        if !only_least(&files, &tidied) {
            source.add(what, [Fault::NotTheOnlyLeast]);
        }
    }
    source
}

#[test]
fn small_pieces_have_as_many_spellings_as_due() {
    for Small { what, short, spellings: due } in small_pieces() {
        let piece = read_file(&short).expect(what);
        assert_eq!(crate::write_file::write_file(&piece, Manner::Short), Some(short), "{what}");
        let mut all = spellings(&piece);
        assert_eq!(all.len(), due, "{what}");
        all.sort_by_key(|spelling| format!("{spelling:?}"));
        all.dedup();
        assert_eq!(all.len(), due, "{what}: a spelling is there twice");
    }
}

#[test]
fn another_one_of_the_least_length_is_seen() {
    let files = |bytes: &[&[u8]]| bytes.iter().map(|file| file.to_vec()).collect::<Vec<_>>();
    assert!(only_least(&files(&[b"long", b"abc", b"longer"]), b"abc"));
    assert!(!only_least(&files(&[b"long", b"abc", b"xyz"]), b"abc"), "two");
    assert!(!only_least(&files(&[b"long", b"abc", b"abc"]), b"abc"), "twice");
    assert!(!only_least(&files(&[b"long", b"xyz"]), b"abc"), "another");
    assert!(!only_least(&files(&[b"abc", b"xy"]), b"abc"), "shorter");
    assert!(!only_least(&[], b"abc"), "none");
}
