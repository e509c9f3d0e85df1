//! The rows of the table: files, what is made of them, and who makes it.

use second::archive;
use second::fast_text;
use second::fold;
use second::generate::{
    chunks_among_tracks_file, chunks_round_track_file, small_chunks_among_tracks_file,
    small_chunks_round_track_file,
};
use second::operations;
use second::refusal::Answer;
use second::sheet;
use second::table;

use super::FILL;

/// A file, and what is made of it.
pub struct Inputs {
    pub file: Vec<u8>,
    /// In manner 1, as it comes back from its text too.
    pub tidied: Vec<u8>,
    pub text: Vec<u8>,
    /// Empty if the file is none to be folded.
    pub folded: Vec<u8>,
    pub sheet: Vec<u8>,
    /// What comes of the sheet if nobody changes it.
    pub sheet_text: Vec<u8>,
    /// The three lists of its tracks, one behind the other.
    pub lists: Vec<u8>,
}

impl Inputs {
    pub fn of(file: Vec<u8>) -> Inputs {
        let made = |room: usize, work: &dyn Fn(&mut [u8]) -> Answer| {
            let mut made = vec![FILL; room];
            let length = work(&mut made).length;
            made.truncate(length);
            made
        };
        let tidied = made(file.len(), &|room| operations::tidy(&file, room));
        let text = made(25 * file.len(), &|room| operations::file_to_text(&file, room));
        let folded = made(file.len(), &|room| fold::fold(&file, room));
        let sheet = made(sheet::room_enough(file.len()), &|room| sheet::file_to_sheet(&file, room));
        let sheet_text =
            made(table::room_enough(sheet.len()), &|room| table::sheet_to_text(&sheet, room));
        let tracks = operations::list_tracks(&file, &mut [], &mut [], &mut []).length;
        let lists =
            made(tracks * TRACK_LISTED, &|room| Answer::unpacked(second_lists(&file, room)));
        Inputs { file, tidied, text, folded, sheet, sheet_text, lists }
    }
}

/// A number of 32 bits in each of three lists.
const TRACK_LISTED: usize = 3 * 4;

fn second_lists(file: &[u8], room: &mut [u8]) -> u64 {
    in_lists(room, |[times, counts, padding]| {
        operations::list_tracks(file, times, counts, padding).packed()
    })
}

/// A listing with the room as its three lists; the answer has their length in bytes.
fn in_lists(room: &mut [u8], list: impl FnOnce([&mut [u32]; 3]) -> u64) -> u64 {
    // Safe: any four bytes are a number.
    let (before, numbers, _) = unsafe { room.align_to_mut::<u32>() };
    assert!(before.is_empty(), "rooms are aligned");
    let tracks = numbers.len() / 3;
    let (times, others) = numbers.split_at_mut(tracks);
    let (counts, padding) = others.split_at_mut(tracks);
    let answer = Answer::unpacked(list([times, counts, padding]));
    Answer { length: TRACK_LISTED * answer.length, ..answer }.packed()
}

/// What a contender makes of an input in its room; the packed answer.
pub type Work = fn(input: &mut [u8], room: &mut Vec<u8>) -> u64;

/// A row of the table: an operation, and who does it.
pub struct Task {
    pub name: &'static str,
    pub input: fn(&Inputs) -> &[u8],
    pub due: fn(&Inputs) -> &[u8],
    pub room: fn(&Inputs) -> usize,
    pub ours: Work,
    pub second: Work,
    pub fast: Option<Work>,
    /// The program that does it as a whole process.
    pub outside: Option<&'static str>,
}

pub const FILE_TO_TEXT: &str = "file to text, buffer 25n";
pub const TEXT_TO_FILE: &str = "text to file, short";
pub const FILE_TO_SHEET: &str = "file to sheet, buffer 23n";
pub const SHEET_TO_TEXT: &str = "sheet to text, buffer 2n+2";
pub const SHEET_TEXT_TO_FILE: &str = "text to file, of a sheet";

pub const TASKS: [Task; 9] = [
    // In so much room any file's text fits, and ours measures nothing first.
    Task { name: FILE_TO_TEXT, room: |inputs| 25 * inputs.file.len(), ..TO_TEXT },
    Task { name: "file to text, exact buffer", ..TO_TEXT },
    Task { name: TEXT_TO_FILE, outside: Some("csvmidi"), ..TO_FILE },
    Task {
        name: FILE_TO_SHEET,
        due: |inputs| &inputs.sheet,
        room: |inputs| sheet::room_enough(inputs.file.len()),
        ours: |file, room| archive::file_to_sheet(file, room),
        second: |file, room| sheet::file_to_sheet(file, room).packed(),
        ..TIDY
    },
    Task {
        name: SHEET_TO_TEXT,
        input: |inputs| &inputs.sheet,
        due: |inputs| &inputs.sheet_text,
        room: |inputs| table::room_enough(inputs.sheet.len()),
        ours: |saved, room| archive::sheet_to_text(saved, room),
        second: |saved, room| table::sheet_to_text(saved, room).packed(),
        ..TIDY
    },
    Task { name: SHEET_TEXT_TO_FILE, input: |inputs| &inputs.sheet_text, ..TO_FILE },
    CHECK,
    LIST,
    TIDY,
];

/// Each on files of so many tracks.
pub const FOLDS: [(usize, Task); 4] = [
    (1, Task { name: "fold, 1 track", ..FOLD }),
    (2, Task { name: "fold, 2 tracks", ..FOLD }),
    (16, Task { name: "fold, 16 tracks", ..FOLD }),
    (64, Task { name: "fold, 64 tracks", ..FOLD }),
];

/// Of a large file and of a small one.
pub type Makers = [fn() -> Vec<u8>; 2];

/// Each on files that are mostly unknown chunks.
pub const CHUNKS: [(Makers, Task); 5] = [
    (ROUND_TRACK, Task { name: "check, chunks round a track", ..CHECK }),
    (ROUND_TRACK, Task { name: "tidy, chunks round a track", ..TIDY }),
    (AMONG_TRACKS, Task { name: "check, chunks among tracks", ..CHECK }),
    (AMONG_TRACKS, Task { name: "list, chunks among tracks", ..LIST }),
    (AMONG_TRACKS, Task { name: "tidy, chunks among tracks", ..TIDY }),
];
const ROUND_TRACK: Makers = [chunks_round_track_file, small_chunks_round_track_file];
const AMONG_TRACKS: Makers = [chunks_among_tracks_file, small_chunks_among_tracks_file];

const CHECK: Task = Task {
    name: "check",
    due: |_| &[],
    room: |_| 0,
    ours: |file, _| archive::check(file),
    second: |file, _| operations::check(file).packed(),
    ..TIDY
};

const LIST: Task = Task {
    name: "list",
    due: |inputs| &inputs.lists,
    room: |inputs| inputs.lists.len(),
    ours: |file, room| in_lists(room, |lists| archive::list_tracks(file, lists)),
    second: |file, room| second_lists(file, room),
    ..TIDY
};

const FOLD: Task = Task {
    name: "fold",
    due: |inputs| &inputs.folded,
    room: |inputs| inputs.folded.len(),
    ours: |file, room| archive::fold(file, room),
    second: |file, room| fold::fold(file, room).packed(),
    ..TIDY
};

const TO_TEXT: Task = Task {
    name: "file to text",
    input: |inputs| &inputs.file,
    due: |inputs| &inputs.text,
    room: |inputs| inputs.text.len(),
    ours: |file, room| archive::file_to_text(file, room),
    second: |file, room| operations::file_to_text(file, room).packed(),
    fast: Some(|file, room| {
        let made = fast_text::file_to_text(file, room);
        made.map_or_else(Answer::from, |()| Answer::success(room.len())).packed()
    }),
    outside: Some("midicsv"),
};

const TO_FILE: Task = Task {
    name: "text to file",
    input: |inputs| &inputs.text,
    ours: |text, room| archive::text_to_file(text, 1, room),
    second: |text, room| operations::text_to_file(text, 1, room).packed(),
    ..TIDY
};

const TIDY: Task = Task {
    name: "tidy",
    input: |inputs| &inputs.file,
    due: |inputs| &inputs.tidied,
    room: |inputs| inputs.tidied.len(),
    ours: |file, room| archive::tidy(file, room),
    second: |file, room| operations::tidy(file, room).packed(),
    fast: None,
    outside: None,
};
