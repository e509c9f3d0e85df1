//! Files that are not tidy by very little: the manner 1 spelling with none, one or two of the
//! smallest changes that make it longer.

use std::ops::Range;

use super::source::{laid_out, short_file, Source};
use super::{tidied_in, Fault, Program};
use crate::generate::{piece, unknown_tag, Rng};
use crate::piece::{Event, Kind, Piece};
use crate::refusal::Answer;
use crate::spelling::{EventSpelling, Manner, Spelling, UnknownChunk};
use crate::tally::Tally;
use crate::write_file::length_of;

/// The sorts of changes, each of which must be met.
const SORTS: [&str; 14] = [
    "delta before a status left out", "delta before a status", "delta of a system exclusive event",
    "delta of a meta event", "delta of End_track", "length of a system exclusive event",
    "length of a meta event of any length", "length of a fixed meta event", "length of End_track",
    "status written", "header byte", "chunk before the first track", "chunk between tracks",
    "chunk behind the last track",
];

/// How many changes a file has, each of which must be met too.
const CHANGES: [&str; 3] = ["no change", "one change", "two changes"];

/// What a change makes longer; events by track and place.
#[derive(Clone, Copy)]
enum Change {
    Delta(usize, usize),
    Length(usize, usize),
    Status(usize, usize),
    Header,
    /// An empty one before this track, or behind the last one.
    Chunk(usize),
}

impl Change {
    fn bytes(self) -> usize {
        match self {
            Change::Chunk(_) => 8,
            _ => 1,
        }
    }

    fn make(self, rng: &mut Rng, spelling: &mut Spelling) {
        match self {
            Change::Delta(track, at) => spelling.tracks[track][at].delta_bytes += 1,
            Change::Length(track, at) => spelling.tracks[track][at].length_bytes += 1,
            Change::Status(track, at) => spelling.tracks[track][at].status_left_out = false,
            Change::Header => spelling.header_extra.push(rng.byte()),
            Change::Chunk(at) => {
                spelling.unknown[at].push(UnknownChunk { tag: unknown_tag(rng), data: Vec::new() })
            }
        }
    }
}

/// A place for each possible change, with the name of its sort.
fn changes(piece: &Piece, spelling: &Spelling) -> Vec<(&'static str, Change)> {
    let mut all = vec![("header byte", Change::Header)];
    let count = piece.tracks.len();
    all.push(("chunk before the first track", Change::Chunk(0)));
    all.extend((1..count).map(|at| ("chunk between tracks", Change::Chunk(at))));
    all.push(("chunk behind the last track", Change::Chunk(count)));
    for (track, spelled) in spelling.tracks.iter().enumerate() {
        for (at, spelled) in spelled.iter().enumerate() {
            let event = &piece.tracks[track].events[at];
            if spelled.delta_bytes < 4 {
                all.push((delta_sort(event, spelled), Change::Delta(track, at)));
            }
            if spelled.length_bytes < 4 && length_of(&event.kind).is_some() {
                all.push((length_sort(event), Change::Length(track, at)));
            }
            if spelled.status_left_out {
                all.push(("status written", Change::Status(track, at)));
            }
        }
    }
    all
}

fn delta_sort(event: &Event, spelled: &EventSpelling) -> &'static str {
    match event.kind {
        _ if spelled.status_left_out => "delta before a status left out",
        _ if event.kind.channel_status().is_some() => "delta before a status",
        Kind::SystemExclusive(_) | Kind::SystemExclusivePacket(_) => {
            "delta of a system exclusive event"
        }
        Kind::EndTrack => "delta of End_track",
        _ => "delta of a meta event",
    }
}

fn length_sort(event: &Event) -> &'static str {
    match event.kind {
        Kind::SystemExclusive(_) | Kind::SystemExclusivePacket(_) => {
            "length of a system exclusive event"
        }
        Kind::EndTrack => "length of End_track",
        Kind::Text(..) | Kind::SequencerSpecific(_) | Kind::UnknownMeta { .. } => {
            "length of a meta event of any length"
        }
        _ => "length of a fixed meta event",
    }
}

/// Some change of the sort, or none if the spelling has no place for one.
fn change_of(
    rng: &mut Rng,
    sort: &str,
    piece: &Piece,
    spelling: &Spelling,
) -> Option<(&'static str, Change)> {
    let mut of_sort = changes(piece, spelling);
    of_sort.retain(|(name, _)| *name == sort);
    (!of_sort.is_empty()).then(|| rng.pick(&of_sort))
}

/// A file with the sorts of its changes and by how many bytes they make it longer.
struct Changed {
    sorts: Vec<&'static str>,
    file: Vec<u8>,
    bytes: usize,
}

/// The manner 1 file with changes of these sorts, as far as it has a place for them.
fn changed(rng: &mut Rng, piece: &Piece, wanted: &[&str]) -> Changed {
    let short = Spelling::of_manner(piece, Manner::Short);
    let mut spelling = short.expect("a generated piece has spellings");
    let (mut sorts, mut bytes) = (Vec::new(), 0);
    for sort in wanted {
        if let Some((sort, change)) = change_of(rng, sort, piece, &spelling) {
            change.make(rng, &mut spelling);
            sorts.push(sort);
            bytes += change.bytes();
        }
    }
    Changed { sorts, file: laid_out(piece, &spelling), bytes }
}

/// The manner 1 file of a piece, one with a change of each sort that it has a place for, and
/// some with two.
fn files_near(rng: &mut Rng, piece: &Piece) -> Vec<Changed> {
    const PAIRS: usize = 4;
    let mut files = vec![changed(rng, piece, &[])];
    files.extend(SORTS.map(|sort| changed(rng, piece, &[sort])));
    for _ in 0..PAIRS {
        let two = [rng.pick(&SORTS), rng.pick(&SORTS)];
        files.push(changed(rng, piece, &two));
    }
    // Where there is no place for a change the file is one that is there already.
    let mut first = true;
    files.retain(|file| !file.sorts.is_empty() || std::mem::take(&mut first));
    files
}

pub fn near(program: &Program, seeds: Range<u64>) -> Source<'_> {
    let of = format!("seeds {seeds:?} with 0, 1 or 2 changes");
    let mut source = Source::of(program, "near", of);
    let mut tally = Tally::of(CHANGES.into_iter().chain(SORTS).map(str::to_owned));
    for seed in seeds {
        let rng = &mut Rng::new(seed);
        let piece = piece(rng);
        let short = short_file(&piece);
        for Changed { sorts, file, bytes } in files_near(rng, &piece) {
            tally.met(CHANGES[sorts.len()]);
            sorts.iter().for_each(|sort| tally.met(sort));
            let what = format!("seed {seed}, changes {sorts:?}");
            source.take(rng, &what, &file, &short);
            let (Answer { length, .. }, _) = tidied_in(program, rng, &file, 0);
            if length + bytes != file.len() {
                source.add(&what, [Fault::NotByTheChange]);
            }
        }
    }
    source.sorts = Some(tally);
    source
}
