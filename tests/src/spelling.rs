//! Spellings: the choices a file leaves open in writing a piece.

use crate::number::fewest_bytes;
use crate::piece::{Delta, Event, Piece, Time, Track};
use crate::write_file::length_of;

/// The two manners of writing.
#[derive(Clone, Copy, Debug, PartialEq, Eq)]
pub enum Manner {
    /// Every status byte is written.
    Full,
    /// A status is left out wherever permitted.
    Short,
}

impl Manner {
    pub fn from_number(number: u32) -> Option<Manner> {
        match number {
            0 => Some(Manner::Full),
            1 => Some(Manner::Short),
            _ => None,
        }
    }
}

/// How one event is spelled. `length_bytes` says nothing of a channel event.
#[derive(Clone, Copy, Debug, PartialEq, Eq)]
pub struct EventSpelling {
    pub delta_bytes: usize,
    pub length_bytes: usize,
    pub status_left_out: bool,
}

/// A chunk that readers pass over: any but a track's.
#[derive(Clone, Debug, PartialEq, Eq)]
pub struct UnknownChunk {
    /// Not `MTrk`.
    pub tag: [u8; 4],
    pub data: Vec<u8>,
}

/// How a piece is spelled: one entry for each event of each track, and what the file has
/// besides its piece, of which both manners have nothing.
#[derive(Clone, Debug, PartialEq, Eq)]
pub struct Spelling {
    pub tracks: Vec<Vec<EventSpelling>>,
    /// The bytes of the header behind its division.
    pub header_extra: Vec<u8>,
    /// The unknown chunks before each track, and at last those behind the last track.
    pub unknown: Vec<Vec<UnknownChunk>>,
}

impl Spelling {
    /// Asks `choose` about each event, handing it the shortest permitted
    /// spelling; there is nothing besides the piece. Nothing is given if the piece has a
    /// step or a length over four bytes.
    pub fn choose(
        piece: &Piece,
        mut choose: impl FnMut(EventSpelling) -> EventSpelling,
    ) -> Option<Spelling> {
        let mut tracks = Vec::with_capacity(piece.tracks.len());
        for track in &piece.tracks {
            let mut before: Option<&Event> = None;
            let mut spelled = Vec::with_capacity(track.events.len());
            for event in &track.events {
                spelled.push(choose(shortest(event, before)?));
                before = Some(event);
            }
            tracks.push(spelled);
        }
        let unknown = vec![Vec::new(); piece.tracks.len() + 1];
        Some(Spelling { tracks, header_extra: Vec::new(), unknown })
    }

    /// Of each track, by how many bytes the numbers of its events are longer than they need
    /// be: what a listing tells of the layout.
    pub fn padding(&self, piece: &Piece) -> Option<Vec<u32>> {
        let fewest = Spelling::of_manner(piece, Manner::Full)?;
        let tracks = piece.tracks.iter().zip(&self.tracks).zip(&fewest.tracks);
        let padding =
            tracks.map(|((track, spelled), fewest)| track_padding(track, spelled, fewest));
        Some(padding.collect())
    }

    pub fn of_manner(piece: &Piece, manner: Manner) -> Option<Spelling> {
        Spelling::choose(piece, |shortest| EventSpelling {
            status_left_out: shortest.status_left_out && manner == Manner::Short,
            ..shortest
        })
    }
}

fn track_padding(track: &Track, spelled: &[EventSpelling], fewest: &[EventSpelling]) -> u32 {
    let mut padding = 0;
    for ((event, spelled), fewest) in track.events.iter().zip(spelled).zip(fewest) {
        padding += spelled.delta_bytes - fewest.delta_bytes;
        if length_of(&event.kind).is_some() {
            padding += spelled.length_bytes - fewest.length_bytes;
        }
    }
    padding as u32
}

/// The delta of `event` after the event `before` it in its track, if any.
pub fn delta_of(event: &Event, before: Option<&Event>) -> Option<Delta> {
    event.time.since(before.map_or(Time::START, |before| before.time))
}

/// Whether the status byte of `event` may be left out after `before`.
pub fn may_leave_out(event: &Event, before: Option<&Event>) -> bool {
    let status = event.kind.channel_status();
    status.is_some() && status == before.and_then(|before| before.kind.channel_status())
}

/// The shortest permitted spelling of `event` after `before`.
pub fn shortest(event: &Event, before: Option<&Event>) -> Option<EventSpelling> {
    let length = u32::try_from(length_of(&event.kind).unwrap_or(0)).ok()?;
    Some(EventSpelling {
        delta_bytes: fewest_bytes(delta_of(event, before)?.0)?,
        length_bytes: fewest_bytes(length)?,
        status_left_out: may_leave_out(event, before),
    })
}
