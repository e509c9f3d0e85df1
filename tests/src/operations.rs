//! The operations over lent room. A refusal writes nothing; success leaves
//! what lies past the written length as it was.

use crate::piece::Piece;
use crate::read_file::{read_file, read_whole};
use crate::read_text::read_text;
use crate::refusal::{Answer, Number, Refusal};
use crate::spelling::Manner;
use crate::write_file::write_file;
use crate::write_text::write_text;
use crate::FILE_MAX;

/// Success has length 0: nothing is written.
pub fn check(file: &[u8]) -> Answer {
    match read_file(file) {
        Ok(_) => Answer::success(0),
        Err(refusal) => refusal.into(),
    }
}

pub fn file_to_text(file: &[u8], room: &mut [u8]) -> Answer {
    match read_file(file) {
        Ok(piece) => deliver(&write_text(&piece), room),
        Err(refusal) => refusal.into(),
    }
}

pub fn text_to_file(text: &[u8], manner: u32, room: &mut [u8]) -> Answer {
    let Some(manner) = Manner::from_number(manner) else {
        return Refusal { number: Number::Manner, place: 0 }.into();
    };
    match read_text(text) {
        Ok(piece) => deliver_file(&piece, manner, room),
        Err(refusal) => refusal.into(),
    }
}

pub fn tidy(file: &[u8], room: &mut [u8]) -> Answer {
    match read_file(file) {
        Ok(piece) => deliver_file(&piece, Manner::Short, room),
        Err(refusal) => refusal.into(),
    }
}

/// Fills the three lists with each track's End_track Time, event count and padding: the
/// bytes that its variable-length numbers take above the fewest.
pub fn list_tracks(
    file: &[u8],
    end_times: &mut [u32],
    event_counts: &mut [u32],
    padding: &mut [u32],
) -> Answer {
    let whole = match read_whole(file) {
        Ok(whole) => whole,
        Err(refusal) => return refusal.into(),
    };
    let tracks = &whole.piece.tracks;
    let count = tracks.len();
    if [&*end_times, event_counts, padding].iter().any(|list| list.len() < count) {
        return Answer::room_needed(count);
    }
    for (index, track) in tracks.iter().enumerate() {
        end_times[index] = track.end_time().0;
        event_counts[index] = track.events.len() as u32;
        padding[index] = whole.padding[index];
    }
    Answer::success(count)
}

/// The whole output of the program `midi2csv` for what it reads.
pub fn midi2csv(input: &[u8]) -> Vec<u8> {
    let mut room = vec![0; 65_536];
    let answer = if input.len() > 16_384 {
        Refusal { number: Number::FileTooLong, place: 0 }.into()
    } else {
        file_to_text(input, &mut room)
    };
    if answer.number != 0 {
        return format!("refused {} at {}\n", answer.number, answer.place).into_bytes();
    }
    room.truncate(answer.length);
    room
}

/// Hands over the file of a piece that was read or folded: 29, 14 or success.
pub(crate) fn deliver_file(piece: &Piece, manner: Manner, room: &mut [u8]) -> Answer {
    match write_file(piece, manner) {
        Some(file) if file.len() <= FILE_MAX => deliver(&file, room),
        // Such a piece has a layout: only its length can be at fault.
        _ => Refusal { number: Number::WrittenTooLong, place: 0 }.into(),
    }
}

pub(crate) fn deliver(made: &[u8], room: &mut [u8]) -> Answer {
    match room.get_mut(..made.len()) {
        Some(start) => {
            start.copy_from_slice(made);
            Answer::success(made.len())
        }
        None => Answer::room_needed(made.len()),
    }
}
