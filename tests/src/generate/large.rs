//! Cases at the limits of size: they take long to make, so they are rare.

use crate::piece::{Division, Event, Format, Kind, Piece, TextKind, Time, Track};
use crate::spelling::Manner;
use crate::write_file::write_file;
use crate::{FILE_MAX, TEXT_MAX};

use super::text_lines::plain_text;
use super::{piece, Rng};

pub fn file(rng: &mut Rng) -> Vec<u8> {
    let size = FILE_MAX + rng.pick(&[0, 1, 2, 500]) - usize::from(rng.one_in(4));
    match rng.below(4) {
        0 => vec![rng.byte(); size],
        1 => write_file(&many_tracks(65_535), Manner::Short).expect("as many as permitted"),
        _ => write_file(&one_long_text(size), Manner::Short).expect("a track of permitted length"),
    }
}

pub fn text(rng: &mut Rng) -> Vec<u8> {
    match rng.below(8) {
        0 => filled(rng),
        1 => plain_text(&many_tracks(65_535 + rng.index(2))),
        _ => {
            let over = rng.pick(&[0, 1, 2, 500]);
            plain_text(&one_long_text(FILE_MAX + over - usize::from(rng.one_in(4))))
        }
    }
}

/// A piece whose file is `size` bytes in manner 1, and one more in manner 0.
pub fn one_long_text(size: usize) -> Piece {
    let note = Kind::NoteOn { channel: 0, key: 60, velocity: 64 };
    // Header and track start 22, notes 4 and 3, the text's own 6, End_track 4.
    let text = Kind::Text(TextKind::Lyric, vec![b'a'; size - 22 - 7 - 6 - 4]);
    let kinds = [note.clone(), note, text, Kind::EndTrack];
    let events = kinds.into_iter().map(|kind| Event { time: Time::START, kind }).collect();
    Piece {
        format: Format::OneTrack,
        division: Division::Pulses(96),
        tracks: vec![Track { events }],
    }
}

pub fn many_tracks(count: usize) -> Piece {
    let end = Event { time: Time::START, kind: Kind::EndTrack };
    Piece {
        format: Format::Together,
        division: Division::Pulses(480),
        tracks: vec![Track { events: vec![end] }; count],
    }
}

/// A text filled up to the limit, or past it, by one comment.
fn filled(rng: &mut Rng) -> Vec<u8> {
    let text = plain_text(&piece(rng));
    let size = TEXT_MAX + rng.pick(&[0, 0, 1, 1, 2, 1_000]);
    let mut comment = vec![b'#'; size - text.len()];
    if rng.one_in(2) {
        *comment.last_mut().expect("room for a comment") = b'\n';
        [comment, text].concat()
    } else {
        [text, comment].concat()
    }
}
