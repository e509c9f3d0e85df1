//! The comparing itself: that it sees each fault which it is there for.

use second::compare::{Archive, Difference, Met, Operation, Room};
use second::generate::{file_case, text_case};
use second::operations::{file_to_text, text_to_file, tidy};

const GOOD: Operation = Operation::new(
    "tidy",
    |file, _, room| tidy(file, room),
    |file, _, room| tidy(file, room).packed(),
);

/// What is said of each difference over many files.
fn said(archive: Archive) -> Vec<&'static str> {
    let operation = Operation { archive, ..GOOD };
    let compared = (0..200).map(|seed| operation.compare(seed, &file_case(seed)));
    compared.filter_map(Result::err).map(|difference: Difference| difference.what).collect()
}

fn seen(what: &str, archive: Archive) {
    let said = said(archive);
    assert!(!said.is_empty() && said.iter().all(|word| *word == what), "{what}: {said:?}");
}

#[test]
fn equals_do_not_differ() {
    assert!(said(GOOD.archive).is_empty());
}

#[test]
fn each_part_of_an_answer_counts() {
    seen("answers", |file, _, room| tidy(file, room).packed() + 1);
    seen("answers", |file, _, room| tidy(file, room).packed() + (1 << 28));
    seen("answers", |file, _, room| tidy(file, room).packed() + (1 << 56));
}

/// Lent bytes that are not written must not be read either.
#[test]
fn an_answer_that_hangs_on_the_room_is_seen() {
    seen("answers", |file, _, room| {
        let held = room.last().copied().unwrap_or(0);
        tidy(file, room).packed() + u64::from(held < 128)
    });
}

#[test]
fn a_changed_input_is_seen() {
    seen("input written", |file, _, room| {
        let answer = tidy(file, room).packed();
        file.iter_mut().take(1).for_each(|byte| *byte ^= 1);
        answer
    });
}

#[test]
fn what_is_written_counts() {
    let what = "room or the bytes round it";
    // Wrong bytes, bytes past the length or in spite of a refusal, none at all.
    seen(what, |file, _, room| {
        let answer = tidy(file, room);
        room.iter_mut().take(answer.length).for_each(|byte| *byte ^= 1);
        answer.packed()
    });
    seen(what, |file, _, room| {
        let answer = tidy(file, room);
        room.iter_mut().skip(answer.length).for_each(|byte| *byte = 0);
        answer.packed()
    });
    seen(what, |file, _, room| tidy(file, &mut room.to_vec()).packed());
    // Rooms hold no one byte before the call that a writer could put there unseen.
    seen(what, |file, _, room| {
        let answer = tidy(file, room);
        room.iter_mut().skip(answer.length).for_each(|byte| *byte = 0xA5);
        answer.packed()
    });
    // A refusal seen only after some events were written.
    seen(what, |file, _, room| {
        let answer = tidy(file, room);
        if (1..=13).contains(&answer.number) {
            room.iter_mut().skip(64).for_each(|byte| *byte = 0);
        }
        answer.packed()
    });
}

#[test]
fn manner_and_room_reach_both() {
    let archive: Archive = |text, manner, room| text_to_file(text, manner, room).packed();
    let operation =
        Operation { manners: true, ..Operation::new("text_to_file", text_to_file, archive) };
    let met: Vec<Met> =
        (0..500).map(|seed| operation.compare(seed, &text_case(seed)).unwrap()).collect();
    for number in [0, 14, 30] {
        assert!(met.iter().any(|met| met.number == number), "{number} never met");
    }
    for room in Room::DUE {
        assert!(met.iter().any(|met| met.room == room), "{room:?} never met");
    }
}

/// A program that goes another way in a room that is always enough is compared
/// on both: on files that are written and on files that are refused.
#[test]
fn rooms_that_are_always_enough_are_met() {
    const TEXT: Operation = Operation {
        enough: |length| 25 * length,
        ..Operation::new(
            "file_to_text",
            |file, _, room| file_to_text(file, room),
            |file, _, room| file_to_text(file, room).packed(),
        )
    };
    let met: Vec<Met> =
        (0..500).map(|seed| TEXT.compare(seed, &file_case(seed)).unwrap()).collect();
    for room in Room::DUE.into_iter().chain([Room::Enough, Room::UnderEnough]) {
        assert!(met.iter().any(|met| met.room == room), "{room:?} never met");
    }
    for room in [Room::Enough, Room::UnderEnough] {
        let of_room = || met.iter().filter(|met| met.room == room);
        assert!(of_room().any(|met| met.number == 0), "{room:?} never written in");
        assert!(of_room().any(|met| met.number != 0), "{room:?} never refused in");
        assert!(of_room().all(|met| met.number != 14), "{room:?} too small");
    }
    let hasty = Operation {
        archive: |file, _, room| {
            let answer = file_to_text(file, room);
            if answer.number != 0 && 25 * file.len() <= room.len() {
                room.iter_mut().take(1).for_each(|byte| *byte = 0);
            }
            answer.packed()
        },
        ..TEXT
    };
    let differ = (0..500).filter(|seed| hasty.compare(*seed, &file_case(*seed)).is_err());
    assert!(differ.count() > 0, "a refusal that writes in such a room is not seen");
}
