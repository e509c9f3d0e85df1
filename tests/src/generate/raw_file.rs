//! A file in parts, so that one part can be damaged and the rest stay good.

use crate::piece::{Piece, Track};
use crate::spelling::{EventSpelling, Spelling, UnknownChunk};
use crate::write_file::write_event;

use super::{piece, spelling, Rng};

/// A track or an unknown chunk.
pub struct RawChunk {
    pub tag: [u8; 4],
    /// Declared in place of the true length, if given.
    pub length: Option<u32>,
    /// Of a track the bytes of each event from its delta on, End_track's last; of an
    /// unknown chunk its data.
    pub parts: Vec<Vec<u8>>,
}

impl RawChunk {
    pub fn is_track(&self) -> bool {
        self.tag == *b"MTrk"
    }

    pub fn true_length(&self) -> usize {
        self.parts.iter().map(Vec::len).sum()
    }

    pub fn bytes(&self) -> Vec<u8> {
        let length = self.length.unwrap_or(self.true_length() as u32);
        [&self.tag[..], &length.to_be_bytes(), &self.parts.concat()].concat()
    }
}

impl From<UnknownChunk> for RawChunk {
    fn from(chunk: UnknownChunk) -> RawChunk {
        RawChunk { tag: chunk.tag, length: None, parts: vec![chunk.data] }
    }
}

pub struct RawFile {
    pub header: [u8; 14],
    /// The header's bytes behind its division.
    pub extra: Vec<u8>,
    pub chunks: Vec<RawChunk>,
    /// Bytes after the last chunk.
    pub tail: Vec<u8>,
}

impl RawFile {
    /// The parts of a random good file.
    pub fn good(rng: &mut Rng) -> RawFile {
        let piece = piece(rng);
        let spelling = spelling(rng, &piece);
        RawFile::of(&piece, spelling)
    }

    /// The parts of a layout.
    pub fn of(piece: &Piece, spelling: Spelling) -> RawFile {
        let mut header = *b"MThd\0\0\0\0\0\0\0\0\0\0";
        let length = 6 + spelling.header_extra.len() as u32;
        header[4..8].copy_from_slice(&length.to_be_bytes());
        header[8..10].copy_from_slice(&piece.format.number().to_be_bytes());
        header[10..12].copy_from_slice(&(piece.tracks.len() as u16).to_be_bytes());
        header[12..14].copy_from_slice(&piece.division.signed().to_be_bytes());
        let mut tracks = raw_tracks(piece, &spelling.tracks).into_iter();
        let chunks = spelling.unknown.into_iter().flat_map(|unknown| {
            unknown.into_iter().map(RawChunk::from).chain(tracks.next()).collect::<Vec<_>>()
        });
        let chunks = chunks.collect();
        RawFile { header, extra: spelling.header_extra, chunks, tail: Vec::new() }
    }

    pub fn bytes(&self) -> Vec<u8> {
        let chunks: Vec<u8> = self.chunks.iter().flat_map(RawChunk::bytes).collect();
        [&self.header[..], &self.extra, &chunks, &self.tail].concat()
    }

    /// Where a chunk begins, or the tail.
    pub fn place_of(&self, chunk: usize) -> usize {
        let before = self.chunks[..chunk].iter().map(|chunk| 8 + chunk.true_length());
        self.header.len() + self.extra.len() + before.sum::<usize>()
    }

    /// Which of the chunks are tracks.
    pub fn tracks(&self) -> Vec<usize> {
        (0..self.chunks.len()).filter(|index| self.chunks[*index].is_track()).collect()
    }

    pub fn any_track(&mut self, rng: &mut Rng) -> &mut RawChunk {
        let index = rng.pick(&self.tracks());
        &mut self.chunks[index]
    }

    /// Puts an event among those of some track, before its End_track.
    pub fn insert(&mut self, rng: &mut Rng, event: Vec<u8>) {
        let track = self.any_track(rng);
        let index = rng.index(track.parts.len());
        track.parts.insert(index, event);
    }
}

fn raw_tracks(piece: &Piece, spelled: &[Vec<EventSpelling>]) -> Vec<RawChunk> {
    piece.tracks.iter().zip(spelled).map(|(track, spelled)| raw_track(track, spelled)).collect()
}

fn raw_track(track: &Track, spelled: &[EventSpelling]) -> RawChunk {
    let mut parts = Vec::new();
    let mut before = None;
    for (event, spelling) in track.events.iter().zip(spelled) {
        let mut bytes = Vec::new();
        write_event(event, before, *spelling, &mut bytes).expect("a permitted spelling");
        parts.push(bytes);
        before = Some(event);
    }
    RawChunk { tag: *b"MTrk", length: None, parts }
}
