//! Seeded inputs, the same for the same seed on every machine.
//!
//! - `file_case(seed)`: a file, good, damaged or random; aimed so that many
//!   seeds together meet every refusal number 1..13 but 4, which is not given, and all
//!   that `ChunkCoverage` knows of headers and chunks.
//! - `text_case(seed)`: a text likewise, for 21..29; `manner(rng)` gives 30.
//! - `aims()`: boundaries of texts, each with makers of texts and the answer due.
//! - `room(rng, needed)`: a size of lent room, now and then too small (14).
//! - `piece(rng)`, `spelling(rng, piece)`: good pieces, a third of them timed in frames, and
//!   permitted spellings, half of them with a longer header or unknown chunks;
//!   `pulse_piece(rng)`: timed in pulses.
//! - `good_file(rng)`, `plain_file(rng)`: good files, those of the second timed in pulses,
//!   without unknown chunks and with a header of 14 bytes.
//! - `varied_text(rng, piece)`: a text of the piece, spelled loosely.
//! - `many_tracks_case(seed)`: a file of many tracks and few Times, for the fold; many
//!   seeds together meet 0, 14, 31, 32 and 33.
//! - `benchmark_file()`, `small_benchmark_file()`: one file of nearly 1 MiB, one of
//!   nearly 64 KiB; `fold_benchmark_file(tracks)`, `chunks_round_track_file()`,
//!   `chunks_among_tracks_file()` and their small ones likewise.
//! - `limit_cases()`, `text_limit_cases()`, `fold_limit_cases()`: files, texts and files
//!   to be folded, at the limits of size and past them, by hand.
//! - `padded(rng)`: a piece and a spelling of it with padding of all sorts; `padded_case(seed)`:
//!   its file, good or damaged, so that many seeds together meet all that `PaddingCoverage`
//!   knows; `known_padding(seed)`, `padding_limits()`: files with the lists due.
//! - `unknown_tag(rng)`: a tag of a chunk that readers pass over.
//! - `mutated_copy(rng, file)`, `mutated_text(rng, text)`: with some bytes changed.
//! - `sung_file(rng)`, `sung_piece(rng)`: with many texts of the sorts that a sheet knows;
//!   `sheet_text_files()`: files of all short texts, of words and of long ones.
//! - `opened(sheet)`, `typed(rng, piece)`, `saved(rng, rows)`: cells, and the ways in
//!   which a spreadsheet saves them.
//! - `saved_case(seed)`, `damaged_table_case(seed)`, `random_table_case(seed)`: tables;
//!   `short_table(number)`: all short ones; `table_limit_cases()`: at the limits, by hand.

mod aims;
mod at_limit;
mod benchmark;
mod chunk_limits;
mod damaged_chunks;
mod damaged_file;
mod damaged_text;
mod divisions;
mod field_damage;
mod fold_limits;
mod large;
mod many_tracks;
mod padded;
mod padding_limits;
mod pieces;
mod raw_file;
mod rng;
mod saving;
mod sheet_texts;
mod table_limits;
mod tables;
mod text_limits;
mod text_lines;
mod unknown_chunks;

pub use aims::{aims, Aim, Aimed};
pub use at_limit::{limit_cases, LimitCase};
pub use benchmark::{
    benchmark_file, chunks_among_tracks_file, chunks_round_track_file, fold_benchmark_file,
    small_benchmark_file, small_chunks_among_tracks_file, small_chunks_round_track_file,
    small_fold_benchmark_file,
};
pub use damaged_file::mutated_copy;
pub use damaged_text::mutated_text;
pub use fold_limits::fold_limit_cases;
pub use many_tracks::{many_tracks_case, many_tracks_piece};
pub use padded::{known_padding, padded, padded_case, KnownLists};
pub use padding_limits::padding_limits;
pub use pieces::{kind_of, piece, plain_spelling, pulse_piece, spelling, KINDS};
pub use rng::Rng;
pub use saving::{opened, saved, saved_in, typed, Cell, Padding, Row, Way, Whole};
pub use sheet_texts::{sheet_text_files, sung_file, sung_piece};
pub use table_limits::{table_limit_cases, LimitTable};
pub use tables::{
    damaged_table, damaged_table_case, random_table_case, saved_case, saved_piece, short_table,
    short_tables,
};
pub use text_limits::{text_limit_cases, LimitText};
pub use text_lines::{plain_text, varied_text};
pub use unknown_chunks::unknown_tag;

use crate::piece::Piece;
use crate::spelling::{Manner, Spelling};
use crate::write_file::{layout, write_file};

/// One case in this many is a large one: near a limit, so slow to make.
const LARGE: u64 = 400;

/// A file for this seed.
pub fn file_case(seed: u64) -> Vec<u8> {
    let rng = &mut Rng::new(seed);
    if rng.one_in(LARGE) {
        return large::file(rng);
    }
    match rng.below(20) {
        0..=7 => good_file(rng),
        8..=15 => damaged_file::aimed(rng),
        16 => damaged_file::mutated(rng, damaged_file::aimed),
        17..=18 => damaged_file::mutated(rng, good_file),
        _ => damaged_file::random_bytes(rng),
    }
}

/// A text for this seed.
pub fn text_case(seed: u64) -> Vec<u8> {
    // Another stream than the file of the same seed.
    let rng = &mut Rng::new(!seed);
    if rng.one_in(LARGE) {
        return large::text(rng);
    }
    match rng.below(20) {
        0..=2 => plain_text(&piece(rng)),
        3..=7 => good_text(rng),
        8..=15 => damaged_text::aimed(rng),
        16 => damaged_text::mutated(rng, damaged_text::aimed),
        17..=18 => damaged_text::mutated(rng, good_text),
        _ => damaged_text::random_bytes(rng),
    }
}

/// A file that is accepted: a random piece in a random permitted spelling.
pub fn good_file(rng: &mut Rng) -> Vec<u8> {
    let piece = piece(rng);
    file_in(rng, &piece, spelling)
}

/// One timed in pulses, without unknown chunks, in a header of 14 bytes: for programs that
/// know no others.
pub fn plain_file(rng: &mut Rng) -> Vec<u8> {
    let piece = pulse_piece(rng);
    file_in(rng, &piece, plain_spelling)
}

fn file_in(rng: &mut Rng, piece: &Piece, spelled: fn(&mut Rng, &Piece) -> Spelling) -> Vec<u8> {
    let made = match rng.below(4) {
        0 => write_file(piece, Manner::Short),
        1 => write_file(piece, Manner::Full),
        _ => layout(piece, &spelled(rng, piece)),
    };
    made.expect("a generated piece has a layout")
}

/// A text that is accepted, loosely spelled.
pub fn good_text(rng: &mut Rng) -> Vec<u8> {
    let piece = piece(rng);
    varied_text(rng, &piece)
}

/// A manner, one time in eight neither 0 nor 1.
pub fn manner(rng: &mut Rng) -> u32 {
    if rng.one_in(8) {
        rng.pick(&[2, 3, 255, 256, 257, 1 << 16, u32::MAX])
    } else {
        rng.below(2) as u32
    }
}

/// A size of room for something of `needed` bytes: exact, larger or too small.
pub fn room(rng: &mut Rng, needed: usize) -> usize {
    match rng.below(8) {
        0 => 0,
        1 => needed.saturating_sub(1),
        2 => rng.below(needed as u64 + 1) as usize,
        3 | 4 => needed,
        _ => needed + rng.between(1, 64) as usize,
    }
}
