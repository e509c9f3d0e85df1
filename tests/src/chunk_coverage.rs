//! What the files of a run had besides their pieces, and how their headers and chunks were
//! refused. A run that compares files must have met all of it.

use std::ops::RangeInclusive;

use crate::tally::Tally;

/// Of a refused file. Too long means past the file's end.
const REFUSED: [&str; 14] = [
    "3 at 4", "header too long", "header too long by one byte", "none left, track due",
    "none left behind a chunk, track due", "track too long", "track too long by one byte",
    "chunk too long, track due", "chunk too long by one byte, track due",
    "chunk too long behind all tracks", "chunk too long by one byte behind all tracks",
    "13 fitting", "13 not fitting", "13 behind a chunk",
];

/// So many bytes left, too few for a chunk, where a track is due and behind all tracks.
const FEW_LEFT: RangeInclusive<usize> = 1..=7;

pub struct ChunkCoverage {
    pub tally: Tally,
}

impl Default for ChunkCoverage {
    fn default() -> ChunkCoverage {
        let names = ChunkCoverage::GOOD.iter().chain(&REFUSED).map(|name| name.to_string());
        let few = [true, false].into_iter();
        let few = few.flat_map(|due| FEW_LEFT.map(move |left| few_left(left, due)));
        ChunkCoverage { tally: Tally::of(names.chain(few)) }
    }
}

fn few_left(left: usize, track_due: bool) -> String {
    format!("{left} left, {}", if track_due { "track due" } else { "behind all tracks" })
}

/// A chunk as far as the file has it.
struct Chunk<'a> {
    tag: &'a [u8],
    data: &'a [u8],
}

impl Chunk<'_> {
    fn is_track(&self) -> bool {
        self.tag == b"MTrk"
    }
}

fn number_at(file: &[u8], at: usize) -> usize {
    file[at..at + 4].iter().fold(0, |value, byte| 256 * value + usize::from(*byte))
}

/// The chunks between the header and `end`, where one ends.
fn chunks_until(file: &[u8], end: usize) -> Vec<Chunk<'_>> {
    let (mut chunks, mut at) = (Vec::new(), 8 + number_at(file, 4));
    while at < end {
        let next = at + 8 + number_at(file, at + 4);
        chunks.push(Chunk { tag: &file[at..at + 4], data: &file[at + 8..next] });
        at = next;
    }
    chunks
}

fn holds_track(bytes: &[u8]) -> bool {
    bytes.windows(4).any(|part| part == b"MTrk")
}

impl ChunkCoverage {
    /// What an accepted file may have.
    pub const GOOD: [&'static str; 9] = [
        "long header", "MTrk in a long header", "chunk before the first track",
        "chunk between tracks", "chunk behind the last track", "second MThd", "MTrk in a chunk",
        "empty chunk", "several chunks in a row",
    ];

    /// A file and what both programs answered to it.
    pub fn add(&mut self, file: &[u8], number: u8, place: usize) {
        match (number, place) {
            (0, _) => self.add_good(file),
            (3, 4) => self.tally.met("3 at 4"),
            (2, 0) if file.len() >= 14 => {
                self.too_long("header", "", number_at(file, 4) + 8 - file.len());
            }
            (2, 1..) => self.add_cut(file, place),
            (13, _) => {
                let fits = number_at(file, place + 4) <= file.len() - place - 8;
                self.tally.met(if fits { "13 fitting" } else { "13 not fitting" });
                if chunks_until(file, place).last().is_some_and(|chunk| !chunk.is_track()) {
                    self.tally.met("13 behind a chunk");
                }
            }
            _ => {}
        }
    }

    fn add_good(&mut self, file: &[u8]) {
        let extra = &file[14..8 + number_at(file, 4)];
        self.tally.met_if("long header", !extra.is_empty());
        self.tally.met_if("MTrk in a long header", holds_track(extra));
        let chunks = chunks_until(file, file.len());
        let tracks: Vec<bool> = chunks.iter().map(Chunk::is_track).collect();
        let first = tracks.iter().position(|track| *track).unwrap_or(0);
        let last = tracks.iter().rposition(|track| *track).unwrap_or(0);
        self.tally.met_if("chunk before the first track", first > 0);
        self.tally.met_if("chunk between tracks", tracks[first..=last].contains(&false));
        self.tally.met_if("chunk behind the last track", last + 1 < chunks.len());
        self.tally
            .met_if("several chunks in a row", tracks.windows(2).any(|two| two == [false; 2]));
        let unknown = || chunks.iter().filter(|chunk| !chunk.is_track());
        self.tally.met_if("second MThd", unknown().any(|chunk| chunk.tag == b"MThd"));
        self.tally.met_if("MTrk in a chunk", unknown().any(|chunk| holds_track(chunk.data)));
        self.tally.met_if("empty chunk", unknown().any(|chunk| chunk.data.is_empty()));
    }

    /// 2 at the first byte of a chunk, or where one is due.
    fn add_cut(&mut self, file: &[u8], place: usize) {
        let before = chunks_until(file, place);
        let read = before.iter().filter(|chunk| chunk.is_track()).count();
        let due = read < usize::from(u16::from_be_bytes([file[10], file[11]]));
        let left = file.len() - place;
        if left == 0 {
            let behind = before.last().is_some_and(|chunk| !chunk.is_track());
            self.tally.met("none left, track due");
            self.tally.met_if("none left behind a chunk, track due", behind);
        } else if FEW_LEFT.contains(&left) {
            self.tally.met(&few_left(left, due));
        } else {
            let over = number_at(file, place + 4) + 8 - left;
            match (&file[place..place + 4], due) {
                (b"MTrk", _) => self.too_long("track", "", over),
                (_, true) => self.too_long("chunk", ", track due", over),
                (_, false) => self.too_long("chunk", " behind all tracks", over),
            }
        }
    }

    fn too_long(&mut self, what: &str, standing: &str, over: usize) {
        self.tally.met(&format!("{what} too long{standing}"));
        self.tally.met_if(&format!("{what} too long by one byte{standing}"), over == 1);
    }
}
