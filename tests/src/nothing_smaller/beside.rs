//! All files beside the manner 1 file of a small piece: as long with one byte changed, or
//! shorter by one byte. Were one of them a file of the same piece, Wish 10 would fail: it
//! would be as long and of other bytes, or shorter than what it is tidied to.

use super::small::small_pieces;
use super::source::Source;
use super::Program;
use crate::generate::Rng;

/// Of longer files most bytes are alike.
const FEW_BYTES: usize = 100;

pub fn beside(program: &Program) -> Source<'_> {
    let mut pieces = small_pieces();
    pieces.retain(|piece| piece.short.len() <= FEW_BYTES);
    let of = format!("{} small pieces with a byte changed or left out", pieces.len());
    let mut source = Source::of(program, "beside", of);
    for (number, piece) in pieces.iter().enumerate() {
        let rng = &mut Rng::new(number as u64);
        for (what, file) in files_beside(&piece.short) {
            source.take_any(rng, &format!("{}, {what}", piece.what), &file);
        }
    }
    source
}

/// The file with each of its bytes changed to every other, and with each one left out; the
/// track that it is missing in then says that it is shorter.
fn files_beside(file: &[u8]) -> Vec<(String, Vec<u8>)> {
    let mut all = Vec::new();
    for place in 0..file.len() {
        for value in (0..=255).filter(|value| *value != file[place]) {
            let mut changed = file.to_vec();
            changed[place] = value;
            all.push((format!("byte {place} as {value}"), changed));
        }
        let mut shorter = file.to_vec();
        if let Some(length) = length_round(file, place) {
            shorter[length] -= 1;
        }
        shorter.remove(place);
        all.push((format!("without byte {place}"), shorter));
    }
    all
}

/// Where the length of the track ends whose body has this place, if it has one. No track of
/// these files takes more than that last byte to count.
fn length_round(file: &[u8], place: usize) -> Option<usize> {
    let mut start = 14;
    while start + 8 <= place {
        let end = start + 8 + usize::from(file[start + 7]);
        if place < end {
            return Some(start + 7);
        }
        start = end;
    }
    None
}

#[test]
fn lengths_are_those_of_the_track_round_a_place() {
    let file =
        b"MThd\0\0\0\x06\0\x02\0\x02\0\x60MTrk\0\0\0\x04\0\xFF\x2F\0MTrk\0\0\0\x04\0\xFF\x2F\0";
    let found: Vec<Option<usize>> =
        (0..file.len()).map(|place| length_round(file, place)).collect();
    let due = [vec![None; 22], vec![Some(21); 4], vec![None; 8], vec![Some(33); 4]].concat();
    assert_eq!(found, due);
    let beside = files_beside(file);
    assert_eq!(beside.len(), 256 * file.len());
    assert!(beside.iter().all(|(_, beside)| beside != file && beside.len() <= file.len()));
    let (_, without) = beside.last().expect("the last byte left out");
    assert_eq!(without[22..], *b"\0\xFF\x2F\0MTrk\0\0\0\x03\0\xFF\x2F");
}
