//! The second program: Standard MIDI Files to MIDICSV text and back, written
//! from the papers alone so that it can be held against the proved program.
//! `operations` holds the five operations of document 01, `fold` the first of document
//! 02, `sheet` and `table` the way through a spreadsheet, `generate` the seeded inputs,
//! and `compare` holds the one program against the other.

#[cfg(feature = "archive")]
pub mod archive;
pub mod chunk_coverage;
pub mod compare;
pub mod compare_lists;
pub mod coverage;
pub mod division_coverage;
pub mod every_division;
pub mod every_first_byte;
pub mod fast_text;
pub mod fold;
pub mod generate;
pub mod known;
pub mod nothing_smaller;
pub mod number;
pub mod operations;
pub mod outside;
pub mod padding_coverage;
pub mod piece;
pub mod read_file;
pub mod read_text;
pub mod refusal;
pub mod run;
pub mod sheet;
pub mod spelling;
pub mod table;
pub mod tally;
pub mod text_field;
pub mod text_record;
pub mod write_file;
pub mod write_text;

/// The longest file that is read or written, in bytes.
pub const FILE_MAX: usize = 1_048_576;
/// The longest text that is read, in bytes.
pub const TEXT_MAX: usize = 33_554_432;
/// The longest table that is read, in bytes.
pub const TABLE_MAX: usize = 268_435_456;
