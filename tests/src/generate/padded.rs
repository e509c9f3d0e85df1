//! Files whose variable-length numbers take more bytes than they need, in some tracks and
//! not in others, in many numbers or in one alone.

use crate::piece::{Event, Kind, Piece};
use crate::spelling::{EventSpelling, Manner, Spelling};
use crate::write_file::{layout, length_of};

use super::damaged_file::{damaged, mutated_copy};
use super::many_tracks::many_tracks_piece;
use super::pieces::piece;
use super::raw_file::RawFile;
use super::unknown_chunks::besides;
use super::Rng;

/// A file, and the three lists due to it or number and place of its refusal.
pub struct KnownLists {
    pub what: String,
    pub file: Vec<u8>,
    pub due: Result<[Vec<u32>; 3], (u8, usize)>,
}

/// A file for this seed, three in eight damaged.
pub fn padded_case(seed: u64) -> Vec<u8> {
    // Another stream than other files of the same seed.
    let rng = &mut Rng::new(seed ^ 1 << 61);
    let (piece, spelling) = padded(rng);
    match rng.below(8) {
        0..=4 => laid_out(&piece, &spelling),
        5 | 6 => damaged(rng, RawFile::of(&piece, spelling)),
        _ => mutated_copy(rng, &laid_out(&piece, &spelling)),
    }
}

/// A good file for this seed. What is due to it comes of the piece and of the widths that
/// were chosen for its numbers: nothing of the file is read.
pub fn known_padding(seed: u64) -> KnownLists {
    let (piece, spelling) = padded(&mut Rng::new(seed ^ 1 << 60));
    let due = [
        piece.tracks.iter().map(|track| track.end_time().0).collect(),
        piece.tracks.iter().map(|track| track.events.len() as u32).collect(),
        spelling.padding(&piece).expect("a generated piece has spellings"),
    ];
    KnownLists { what: seed.to_string(), file: laid_out(&piece, &spelling), due: Ok(due) }
}

fn laid_out(piece: &Piece, spelling: &Spelling) -> Vec<u8> {
    layout(piece, spelling).expect("a permitted spelling")
}

/// A piece and a permitted spelling, half the time with something besides it.
pub fn padded(rng: &mut Rng) -> (Piece, Spelling) {
    let mut piece = if rng.one_in(4) { many_tracks_piece(rng) } else { piece(rng) };
    if rng.one_in(24) {
        lengthen(rng, &mut piece);
    }
    let shortest = Spelling::of_manner(&piece, Manner::Short);
    let mut spelling = shortest.expect("a generated piece has spellings");
    (spelling.header_extra, spelling.unknown) = besides(rng, piece.tracks.len());
    // One piece in eight is padded nowhere.
    let pads = !rng.one_in(8);
    for (track, spelled) in piece.tracks.iter().zip(&mut spelling.tracks) {
        write_statuses(rng, spelled);
        let lengths: Vec<bool> =
            track.events.iter().map(|event| length_of(&event.kind).is_some()).collect();
        if pads {
            pad_track(rng, spelled, &lengths);
        }
    }
    (piece, spelling)
}

/// Some track of so many events that their padding takes more than a byte to count.
fn lengthen(rng: &mut Rng, piece: &mut Piece) {
    const TIMES: usize = 20;
    /// Of longer data once: the file must not pass the limit.
    const LONG: usize = 300;
    let track = rng.index(piece.tracks.len());
    let events = &mut piece.tracks[track].events;
    let often = |event: Event| {
        let once = event.kind == Kind::EndTrack || length_of(&event.kind) > Some(LONG);
        vec![event; if once { 1 } else { TIMES }]
    };
    *events = std::mem::take(events).into_iter().flat_map(often).collect();
}

/// Of those that may be left out none, all or some.
fn write_statuses(rng: &mut Rng, spelled: &mut [EventSpelling]) {
    let written = rng.pick(&[Some(false), Some(true), None]);
    for event in spelled {
        event.status_left_out &= !written.unwrap_or_else(|| rng.one_in(2));
    }
}

/// `lengths` says which of the events have a length.
fn pad_track(rng: &mut Rng, spelled: &mut [EventSpelling], lengths: &[bool]) {
    let one_in = rng.pick(&[1, 2, 6]);
    match rng.below(8) {
        0 | 1 => {}
        2 => {
            // One number alone, of End_track every other time.
            let last = spelled.len() - 1;
            let index = if rng.one_in(2) { last } else { rng.index(spelled.len()) };
            let has_length = lengths[index] && rng.one_in(2);
            let event = &mut spelled[index];
            let number = if has_length { &mut event.length_bytes } else { &mut event.delta_bytes };
            widen(rng, number, 1);
        }
        3 => spelled.iter_mut().for_each(|event| widen(rng, &mut event.delta_bytes, one_in)),
        4 => spelled.iter_mut().for_each(|event| widen(rng, &mut event.length_bytes, one_in)),
        5 => {
            // All by as many bytes, as far as they have room for it.
            let more = rng.between(1, 3) as usize;
            for event in spelled {
                event.delta_bytes = (event.delta_bytes + more).min(4);
                event.length_bytes = (event.length_bytes + more).min(4);
            }
        }
        _ => {
            for event in spelled {
                widen(rng, &mut event.delta_bytes, one_in);
                widen(rng, &mut event.length_bytes, one_in);
            }
        }
    }
}

/// Once in so many times by a byte or more, unless the number takes all four.
fn widen(rng: &mut Rng, width: &mut usize, one_in: u64) {
    if *width < 4 && rng.one_in(one_in) {
        *width += rng.between(1, 4 - *width as u64) as usize;
    }
}
