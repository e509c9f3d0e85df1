//! Wish 1 of document 02: the tracks of a piece folded into one, of format 0.

use crate::operations::deliver_file;
use crate::piece::{Event, Format, Kind, Piece, Time, Track};
use crate::read_file::{read_whole, Places, Whole};
use crate::refusal::{Answer, Number, Refusal};
use crate::spelling::Manner;

/// The most tracks that are folded, and the rows that `fold` has of its own.
pub const TRACKS_MOST: usize = 64;

/// Where a track stands; after a fold, at its End_track.
#[derive(Clone, Copy, Debug, PartialEq, Eq)]
pub struct Row {
    /// The first byte of the event's delta, counted from the file's first byte.
    pub place: usize,
    pub time: Time,
    /// The status in force, 0 for none.
    pub status: u8,
}

impl Row {
    pub const UNUSED: Row = Row { place: 0, time: Time::START, status: 0 };
}

/// As it is exported: with rows of its own, of which there are always enough.
pub fn fold(file: &[u8], room: &mut [u8]) -> Answer {
    fold_rows(file, room, &mut [Row::UNUSED; TRACKS_MOST])
}

/// A lent row for each track is changed by success, 29 and 14, and by no other refusal.
pub fn fold_rows(file: &[u8], room: &mut [u8], rows: &mut [Row]) -> Answer {
    let Whole { piece, places, .. } = match read_whole(file) {
        Ok(read) => read,
        Err(refusal) => return refusal.into(),
    };
    if let Some(refusal) = unfit(&piece, &places, rows.len()) {
        return refusal.into();
    }
    for (row, (track, places)) in rows.iter_mut().zip(piece.tracks.iter().zip(&places)) {
        let place = *places.last().expect("a track that was read has an End_track");
        *row = Row { place, time: track.end_time(), status: 0 };
    }
    deliver_file(&folded(piece), Manner::Short, room)
}

/// Why a piece that was read is not folded, if it is not.
fn unfit(piece: &Piece, places: &Places, rows: usize) -> Option<Refusal> {
    let count = piece.tracks.len();
    let refusal = |number, place| Some(Refusal { number, place });
    if piece.format == Format::InTurn {
        return refusal(Number::FormatTwo, 8);
    }
    if count > TRACKS_MOST {
        return refusal(Number::TooManyTracks, 10);
    }
    if rows < count {
        return refusal(Number::TooFewRows, 10);
    }
    if count == 1 {
        return None;
    }
    // In the file's order: all of track 1, then all of track 2, and so on.
    let events = piece.tracks.iter().flat_map(|track| &track.events);
    let (_, place) = events
        .zip(places.iter().flatten())
        .find(|(event, _)| matches!(event.kind, Kind::ChannelPrefix(_) | Kind::MidiPort(_)))?;
    refusal(Number::PrefixOrPort, *place)
}

/// The folded piece. It is sorted and not merged: a stable sort by Time leaves events
/// of equal Times as they lay, which is by track and then in their own order.
///
/// It has a layout: whatever event comes next, End_track too, the one before it in
/// its own track has come already, and the new step is no longer than theirs.
pub fn folded(piece: Piece) -> Piece {
    let end = piece.tracks.iter().map(Track::end_time).max().unwrap_or(Time::START);
    let all = piece.tracks.into_iter().flat_map(|track| track.events);
    let mut events: Vec<Event> = all.filter(|event| event.kind != Kind::EndTrack).collect();
    events.sort_by_key(|event| event.time);
    events.push(Event { time: end, kind: Kind::EndTrack });
    let tracks = vec![Track { events }];
    Piece { format: Format::OneTrack, division: piece.division, tracks }
}
