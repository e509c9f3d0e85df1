//! Wish 10's questions: that the second program stands them, and that each of them sees the
//! wrong programs which it is there for, by name.

use std::collections::BTreeSet;

use second::generate::Rng;
use second::nothing_smaller::{
    all, beside, cases, faults, generated, near, outside, Fault, Program, Source,
};
use second::operations::{check, tidy};
use second::piece::Piece;
use second::read_file::read_file;
use second::refusal::Answer;
use second::spelling::{EventSpelling, Manner, Spelling};
use second::write_file::{layout, write_file};

use Fault::{
    Accepted, InputChanged, Longer, NotByTheChange, NotMannerOne, NotTheOnlyLeast, OtherAnswer,
    OtherBytes, Refused, RoomChanged, RoomRefused, TwiceIsNotOnce,
};

type Tidy = fn(&mut [u8], &mut [u8]) -> u64;

const RIGHT: Program = Program { check: |file| check(file).packed(), tidy: right };

fn right(file: &mut [u8], room: &mut [u8]) -> u64 {
    tidy(file, room).packed()
}

#[test]
fn the_second_program_has_no_fault() {
    let counts = |source: Source| {
        assert!(source.report());
        assert!(source.found().is_empty());
        source.counts()
    };
    // Those that do not hang on the generator.
    assert_eq!(counts(outside(&RIGHT)), [108, 40, 68]);
    assert_eq!(counts(all(&RIGHT)), [54_896, 54_885, 11]);
    assert_eq!(counts(beside(&RIGHT)), [20_474, 421, 20_053]);
    let [files, longer, as_long] = counts(generated(&RIGHT, 0..500));
    assert!(files == 6 * 500 && longer > 3 * 500 && as_long >= 500);
    let [files, longer, as_long] = counts(near(&RIGHT, 0..100));
    assert!(files == longer + as_long && longer > 10 * 100 && as_long == 100);
    let [files, longer, as_long] = counts(cases(&RIGHT, 0..1_000));
    assert!(files == longer + as_long && longer > 100 && as_long > 100);
}

/// No fault is found, but some class of files or sort of changes was not met.
#[test]
fn what_was_never_met_is_missed() {
    let missed = |source: Source| source.found().is_empty() && !source.report();
    assert!(missed(generated(&RIGHT, 0..0)));
    assert!(missed(near(&RIGHT, 0..0)));
    // One file is as long or longer, or refused: each of these comes.
    let mut met = BTreeSet::new();
    for seed in 0..60 {
        let source = cases(&RIGHT, seed..seed + 1);
        met.insert(source.counts());
        assert!(missed(source), "seed {seed}");
    }
    assert_eq!(met, BTreeSet::from([[0, 0, 0], [1, 0, 1], [1, 1, 0]]));
    // No piece of these has a place for every change.
    for seed in 0..2 {
        assert!(missed(near(&RIGHT, seed..seed + 1)), "seed {seed}");
    }
    assert!(generated(&RIGHT, 0..1).report(), "both classes");
}

/// Hands over what was made, as a program does.
fn deliver(made: Option<Vec<u8>>, room: &mut [u8]) -> u64 {
    let made = made.expect("a file");
    match room.get_mut(..made.len()) {
        Some(start) => {
            start.copy_from_slice(&made);
            Answer::success(made.len()).packed()
        }
        None => Answer::room_needed(made.len()).packed(),
    }
}

/// A program that tidies to another file than the manner 1 file of the piece.
fn writing(file: &[u8], room: &mut [u8], made: fn(&Piece) -> Option<Vec<u8>>) -> u64 {
    match read_file(file) {
        Ok(piece) => deliver(made(&piece), room),
        Err(refusal) => Answer::from(refusal).packed(),
    }
}

/// The layout with a spelling of which the first event that can be spelled otherwise is.
fn respelled(piece: &Piece, change: fn(&mut EventSpelling) -> bool) -> Option<Vec<u8>> {
    let mut spelling = Spelling::of_manner(piece, Manner::Short)?;
    let _ = spelling.tracks.iter_mut().flatten().any(change);
    layout(piece, &spelling)
}

fn short(piece: &Piece) -> Vec<u8> {
    write_file(piece, Manner::Short).expect("a file")
}

fn is_tidy(file: &[u8]) -> bool {
    read_file(file).is_ok_and(|piece| short(&piece) == file)
}

/// By how many bytes a file is longer than it need be.
fn longer_by(file: &[u8]) -> usize {
    read_file(file).map_or(0, |piece| file.len() - short(&piece).len())
}

/// What every program is found at that writes more than is due.
const TOO_LONG: &[Fault] =
    &[OtherAnswer, Longer, RoomRefused, OtherBytes, NotMannerOne, NotByTheChange];
/// And one that leaves some files as they are: they are longer than need be, but not longer.
const NOT_TIDIED: &[Fault] = &[OtherAnswer, NotMannerOne, NotByTheChange];

/// Programs that write another file.
const WRITING: [(&str, Tidy, &[Fault]); 11] = [
    ("a status too many", |file, room| writing(file, room, a_status_too_many), TOO_LONG),
    ("a delta too wide", |file, room| writing(file, room, a_delta_too_wide), TOO_LONG),
    ("a length too wide", |file, room| writing(file, room, a_length_too_wide), TOO_LONG),
    (
        "a header byte too many",
        |file, room| {
            writing(file, room, |piece| {
                let mut spelling = Spelling::of_manner(piece, Manner::Short)?;
                spelling.header_extra.push(0);
                layout(piece, &spelling)
            })
        },
        TOO_LONG,
    ),
    (
        "manner 0",
        |file, room| writing(file, room, |piece| write_file(piece, Manner::Full)),
        TOO_LONG,
    ),
    (
        "format 2 for 1",
        |file, room| writing(file, room, |piece| altered(piece, |made| made[9] += made[9] & 1)),
        &[OtherBytes, NotMannerOne],
    ),
    (
        "another division each time",
        |file, room| writing(file, room, |piece| altered(piece, |made| made[13] ^= 1)),
        &[OtherBytes, NotMannerOne, TwiceIsNotOnce],
    ),
    (
        "the last byte left out",
        |file, room| {
            writing(file, room, |piece| altered(piece, |made| made.truncate(made.len() - 1)))
        },
        &[OtherAnswer, NotMannerOne, TwiceIsNotOnce, NotByTheChange],
    ),
    ("a byte too many stays", |file, room| keeping(file, room, 1), NOT_TIDIED),
    ("two bytes too many stay", |file, room| keeping(file, room, 2), NOT_TIDIED),
    ("an empty chunk stays", |file, room| keeping(file, room, 8), NOT_TIDIED),
];

fn a_status_too_many(piece: &Piece) -> Option<Vec<u8>> {
    respelled(piece, |event| std::mem::take(&mut event.status_left_out))
}

fn a_delta_too_wide(piece: &Piece) -> Option<Vec<u8>> {
    respelled(piece, |event| {
        let fits = event.delta_bytes < 4;
        event.delta_bytes += usize::from(fits);
        fits
    })
}

/// That of the first End_track, which has one.
fn a_length_too_wide(piece: &Piece) -> Option<Vec<u8>> {
    let mut spelling = Spelling::of_manner(piece, Manner::Short)?;
    spelling.tracks[0].last_mut()?.length_bytes += 1;
    layout(piece, &spelling)
}

/// The manner 1 file with other bytes.
fn altered(piece: &Piece, change: fn(&mut Vec<u8>)) -> Option<Vec<u8>> {
    let mut made = short(piece);
    change(&mut made);
    Some(made)
}

/// Leaves files as they are that are longer by so many bytes.
fn keeping(file: &mut [u8], room: &mut [u8], bytes: usize) -> u64 {
    match longer_by(file) {
        longer if longer == bytes => deliver(Some(file.to_vec()), room),
        _ => right(file, room),
    }
}

/// Programs that write the right file, but in the wrong way or not always.
const ANSWERING: [(&str, Tidy, &[Fault]); 9] = [
    (
        "needs one byte too many",
        |file, room| {
            let answer = right(file, room);
            answer + u64::from(answer >> 56 == 14)
        },
        &[OtherAnswer, Longer, NotByTheChange],
    ),
    ("another place", |file, room| right(file, room) + (1 << 28), &[OtherAnswer]),
    (
        "a room larger than the file is wanted",
        |file, room| match room.len() <= file.len() {
            true => right(file, &mut []),
            false => right(file, room),
        },
        &[OtherAnswer, RoomRefused],
    ),
    (
        "a room larger than the tidied file is wanted",
        |file, room| match read_file(file).map(|piece| short(&piece).len()) {
            Ok(needed) if room.len() <= needed => right(file, &mut []),
            _ => right(file, room),
        },
        &[OtherAnswer, RoomRefused],
    ),
    (
        "the byte behind the file changed",
        |file, room| {
            let answer = tidy(file, room);
            if answer.number == 0 {
                room.iter_mut().skip(answer.length).take(1).for_each(|byte| *byte ^= 1);
            }
            answer.packed()
        },
        &[RoomChanged],
    ),
    (
        "too small a room changed",
        |file, room| {
            let answer = tidy(file, room);
            if answer.number == 14 {
                room.iter_mut().take(1).for_each(|byte| *byte = b'M');
            }
            answer.packed()
        },
        &[RoomChanged],
    ),
    (
        "the file changed",
        |file, room| {
            let answer = right(file, room);
            file[0] ^= 1;
            answer
        },
        &[InputChanged],
    ),
    (
        "29 for what is not tidy",
        |file, room| match is_tidy(file) {
            true => right(file, room),
            false => Answer { number: 29, place: 0, length: 0 }.packed(),
        },
        &[Refused, OtherAnswer, NotByTheChange],
    ),
    (
        "what is tidy gets another format",
        tidy_to_another,
        &[OtherBytes, NotMannerOne, TwiceIsNotOnce],
    ),
];

/// A file that is tidy, and it alone, is tidied to something else.
fn tidy_to_another(file: &mut [u8], room: &mut [u8]) -> u64 {
    let answer = tidy(file, room);
    if answer.number == 0 && is_tidy(file) {
        room[9] ^= 2;
    }
    answer.packed()
}

fn found_of(sources: &[Source]) -> BTreeSet<Fault> {
    sources.iter().flat_map(Source::found).collect()
}

/// Each one is found at exactly what it does wrong.
#[test]
fn wrong_programs_are_seen() {
    for (what, tidy, due) in WRITING.into_iter().chain(ANSWERING) {
        let program = Program { tidy, ..RIGHT };
        let sources = [generated(&program, 0..40), near(&program, 0..12)];
        println!("{what}: {:?}", found_of(&sources));
        assert_eq!(found_of(&sources), due.iter().copied().collect(), "{what}");
        assert!(!sources.iter().any(Source::report), "{what}");
    }
}

/// Document 01's example with every status written, a byte of the header and a chunk more.
const EXAMPLE: &[u8] = b"MThd\0\0\0\x07\0\0\0\x01\0\x60\x05MTrk\0\0\0\x12\0\xFF\x03\x02\x41\x22\
    \0\x90\x3C\x40\x60\x90\x3C\0\0\xFF\x2F\0XFIH\0\0\0\0";
/// The length of its manner 1 file.
const NEEDED: usize = 39;

/// Programs wrong only of what is tidy, in one sort of room each: found only when the tidied
/// file is tidied again in that very room.
const AGAIN: [(&str, Tidy); 6] = [
    ("no room", |file, room| again(file, room, |_, room| room.is_empty())),
    ("one byte short", |file, room| again(file, room, |file, room| room.len() + 1 == file.len())),
    ("exact", |file, room| again(file, room, |file, room| room.len() == file.len())),
    ("as the first", |file, room| {
        again(file, room, |file, room| room.len() == EXAMPLE.len() && !room.starts_with(file))
    }),
    ("larger", |file, room| again(file, room, |_, room| room.len() > EXAMPLE.len())),
    ("what the first held", |file, room| {
        again(file, room, |file, room| room.len() == EXAMPLE.len() && room.starts_with(file))
    }),
];

fn again(file: &mut [u8], room: &mut [u8], wrong: fn(&[u8], &[u8]) -> bool) -> u64 {
    let wrong = is_tidy(file) && wrong(file, room);
    right(file, room) + (u64::from(wrong) << 28)
}

#[test]
fn every_room_is_lent_twice() {
    let due = short(&read_file(EXAMPLE).expect("a good file"));
    assert_eq!(due.len(), NEEDED);
    let found = |tidy| faults(&Program { tidy, ..RIGHT }, &mut Rng::new(0), EXAMPLE, &due);
    assert_eq!(found(right), BTreeSet::new());
    for (what, tidy) in AGAIN {
        assert_eq!(found(tidy), BTreeSet::from([TwiceIsNotOnce]), "{what}");
    }
    assert_eq!(found(tidy_to_another), BTreeSet::from([TwiceIsNotOnce]));
}

/// Numbers of three bytes written in four: data so long comes but seldom by chance.
#[test]
fn wrong_sizes_are_seen_in_all_spellings() {
    const WIDE: [(&str, Tidy); 2] = [
        ("deltas", |file, room| writing(file, room, |piece| wider(piece, 1, 0))),
        ("lengths", |file, room| writing(file, room, |piece| wider(piece, 0, 1))),
    ];
    let due = [OtherAnswer, Longer, RoomRefused, OtherBytes, NotMannerOne, NotTheOnlyLeast];
    for (what, tidy) in WIDE {
        let program = Program { tidy, ..RIGHT };
        assert_eq!(all(&program).found(), due, "{what}");
    }
}

/// With deltas and lengths of three bytes by so many wider.
fn wider(piece: &Piece, delta: usize, length: usize) -> Option<Vec<u8>> {
    let choose = |event: EventSpelling| EventSpelling {
        delta_bytes: event.delta_bytes + delta * usize::from(event.delta_bytes == 3),
        length_bytes: event.length_bytes + length * usize::from(event.length_bytes == 3),
        ..event
    };
    layout(piece, &Spelling::choose(piece, choose)?)
}

#[test]
fn wrong_verdicts_are_seen() {
    let all_good = Program { check: |_| 0, ..RIGHT };
    assert_eq!(cases(&all_good, 0..100).found(), [Accepted]);
    let all_tidied = Program {
        tidy: |file, room| match right(file, room) {
            answer if [0, 14].contains(&(answer >> 56)) => answer,
            _ => Answer::room_needed(26).packed(),
        },
        ..RIGHT
    };
    assert_eq!(cases(&all_tidied, 0..100).found(), [Accepted]);
    // A file as long as a tidy one, of other bytes, which is taken for a file of its piece.
    let half_a_format = Program {
        check: |file| {
            let mut file = file.to_vec();
            file.iter_mut().skip(8).take(1).for_each(|byte| *byte = 0);
            check(&file).packed()
        },
        ..RIGHT
    };
    assert_eq!(beside(&half_a_format).found(), [Accepted]);
    let tidy_only = Program { check: |file| u64::from(!is_tidy(file)) << 56, ..RIGHT };
    assert_eq!(generated(&tidy_only, 0..20).found(), [Refused]);
    let changing = Program {
        check: |file| {
            file[0] ^= 1;
            0
        },
        ..RIGHT
    };
    assert_eq!(generated(&changing, 0..20).found(), [InputChanged]);
}

/// Of outside files too, which are as found and in both manners.
#[test]
fn wrong_outside_files_are_seen() {
    for (what, tidy, _) in &WRITING[..5] {
        let program = Program { tidy: *tidy, ..RIGHT };
        let source = outside(&program);
        assert_eq!(source.found(), [OtherAnswer, Longer, RoomRefused, NotMannerOne], "{what}");
        assert!(!source.report(), "{what}");
    }
}
