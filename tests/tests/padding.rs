//! Wish 8: by how many bytes variable-length numbers are longer than they need be, as a
//! listing of the tracks tells it.

mod common;

use common::{chunk, ended, file_of, hex, one_track, tidied, to_text};
use second::generate::{
    file_case, known_padding, padded, padding_limits, piece, spelling, KnownLists, Rng,
};
use second::number::{read_variable, write_variable, Fault, Variable};
use second::operations::list_tracks;
use second::piece::Piece;
use second::read_file::read_file;
use second::refusal::Answer;
use second::spelling::{Manner, Spelling};
use second::write_file::{layout, write_file};

const UNTOUCHED: u32 = 0xA5A5_A5A5;
const END: &str = "00 FF 2F 00";

/// The three lists in just enough room.
fn listed(file: &[u8]) -> Result<[Vec<u32>; 3], Answer> {
    let asked = list_tracks(file, &mut [], &mut [], &mut []);
    if asked.number != 14 {
        return Err(asked);
    }
    let mut lists = [(); 3].map(|()| vec![UNTOUCHED; asked.length]);
    let [times, counts, padding] = &mut lists;
    assert_eq!(list_tracks(file, times, counts, padding), Answer::success(asked.length));
    Ok(lists)
}

fn padding_of(file: &[u8]) -> Vec<u32> {
    let [_, _, padding] = listed(file).expect("a good file");
    padding
}

#[test]
fn a_number_tells_its_padding() {
    for (bytes, value, padding) in [
        ("00", 0, 0),
        ("80 00", 0, 1),
        ("80 80 00", 0, 2),
        ("80 80 80 00", 0, 3),
        ("7F", 127, 0),
        ("80 7F", 127, 1),
        ("80 80 80 7F", 127, 3),
        ("81 00", 128, 0),
        ("80 81 00", 128, 1),
        ("80 80 81 00", 128, 2),
        ("FF 7F", 16_383, 0),
        ("80 FF 7F", 16_383, 1),
        ("80 80 FF 7F", 16_383, 2),
        ("81 80 00", 16_384, 0),
        ("80 81 80 00", 16_384, 1),
        ("80 FF FF 7F", 2_097_151, 1),
        ("81 80 80 00", 2_097_152, 0),
        ("FF FF FF 7F", 268_435_455, 0),
        // 80h further on is no padding.
        ("FF 80 7F", 2_080_895, 0),
        ("80 FF 80 00", 2_080_768, 1),
    ] {
        let bytes = hex(bytes);
        let due = Variable { value, width: bytes.len(), padding };
        assert_eq!(read_variable(&bytes), Ok(due), "{bytes:02X?}");
        // What comes behind does not count.
        assert_eq!(read_variable(&[&bytes[..], &[0x80, 0x80, 0]].concat()), Ok(due));
    }
    assert_eq!(read_variable(&hex("80 80 80 80")), Err(Fault::TooLong));
    assert_eq!(read_variable(&hex("80 80")), Err(Fault::Ends));
}

/// Every width that a number fits: so many bytes more than the fewest, and as many 80h.
#[test]
fn every_width_tells_its_padding() {
    for value in [0, 1, 127, 128, 16_383, 16_384, 2_097_151, 2_097_152, 268_435_455] {
        let fewest = 1 + [128, 16_384, 2_097_152].iter().filter(|least| value >= **least).count();
        for width in fewest..=4 {
            let mut bytes = Vec::new();
            write_variable(value, width, &mut bytes);
            let read = read_variable(&bytes).unwrap();
            assert_eq!(read, Variable { value, width, padding: width - fewest });
            assert_eq!(bytes.iter().take_while(|byte| **byte == 0x80).count(), read.padding);
        }
    }
}

/// One event, then End_track at delta 0; the padding of the track.
const EVENTS: [(&str, u32); 46] = [
    ("", 0),
    // A channel event has its delta only.
    ("00 90 3C 40", 0),
    ("80 00 90 3C 40", 1),
    ("80 80 00 80 3C 40", 2),
    ("80 80 80 00 A0 3C 40", 3),
    ("81 00 B0 07 40", 0),
    ("80 81 00 C0 05", 1),
    ("80 80 81 00 D0 05", 2),
    ("80 FF FF 7F E0 00 40", 1),
    // A status that is left out changes nothing.
    ("80 00 90 3C 40 80 60 3C 00", 2),
    ("00 90 3C 40 80 80 80 60 3C 00 80 00 3C 40", 4),
    // System exclusive: delta and length.
    ("00 F0 00", 0),
    ("00 F0 80 00", 1),
    ("80 00 F0 80 00", 2),
    ("80 80 80 00 F0 80 80 80 00", 6),
    ("00 F0 80 03 01 02 F7", 1),
    ("00 F7 80 80 02 F3 01", 2),
    ("80 05 F7 80 80 80 01 7F", 4),
    // Data that look like padding are none.
    ("00 F0 04 80 80 80 00", 0),
    ("00 F7 02 80 00", 0),
    ("00 FF 01 03 80 80 00", 0),
    // Texts, one of each kind.
    ("00 FF 01 80 00", 1),
    ("00 FF 02 80 80 01 41", 2),
    ("80 00 FF 03 80 80 80 02 41 42", 4),
    ("00 FF 04 80 00", 1),
    ("00 FF 05 80 02 6C 61", 1),
    ("80 80 00 FF 06 00", 2),
    ("00 FF 07 80 80 00", 2),
    // Fixed metas: their length counts too.
    ("00 FF 00 80 02 00 05", 1),
    ("00 FF 20 80 80 01 03", 2),
    ("00 FF 21 80 80 80 01 03", 3),
    ("80 00 FF 51 80 03 07 A1 20", 2),
    ("00 FF 54 80 80 05 60 00 03 00 00", 2),
    ("80 00 FF 58 80 80 80 04 04 02 18 08", 4),
    ("00 FF 59 80 02 FD 01", 1),
    ("80 00 FF 51 03 07 A1 20", 1),
    // Values that look like padding are none.
    ("00 FF 51 03 80 80 80", 0),
    ("00 FF 00 02 80 00", 0),
    ("00 FF 20 01 80", 0),
    // The others.
    ("00 FF 7F 80 00", 1),
    ("80 00 FF 7F 80 80 80 01 80", 4),
    ("00 FF 60 80 80 00", 2),
    ("80 80 80 00 FF 0A 80 01 80", 4),
    // Several events: the sum, not the last or the greatest.
    ("80 00 C0 01 80 80 00 C0 02", 3),
    ("80 80 80 00 F0 00 00 FF 01 80 00 00 C0 01", 4),
    ("80 00 FF 01 80 00 80 00 F7 80 00 80 00 FF 58 80 04 04 02 18 08", 6),
];

#[test]
fn events_tell_their_padding() {
    for (body, due) in EVENTS {
        assert_eq!(padding_of(&ended(body)), [due], "{body}");
        // With End_track's own, by delta, by length and by both.
        for (end, more) in [
            ("80 00 FF 2F 00", 1),
            ("80 80 80 05 FF 2F 00", 3),
            ("00 FF 2F 80 00", 1),
            ("00 FF 2F 80 80 80 00", 3),
            ("80 81 00 FF 2F 80 80 00", 3),
        ] {
            assert_eq!(padding_of(&one_track(&format!("{body} {end}"))), [due + more], "{body}");
        }
    }
}

/// A long length that needs two or three bytes.
#[test]
fn long_lengths_tell_their_padding() {
    for (length, data, padding) in [
        ("81 00", 128, 0),
        ("80 81 00", 128, 1),
        ("80 80 FF 7F", 16_383, 2),
        ("81 80 00", 16_384, 0),
        ("80 81 80 00", 16_384, 1),
    ] {
        for first in ["F0", "F7", "FF 05", "FF 7F", "FF 44"] {
            let mut body = hex(&format!("00 {first} {length}"));
            body.extend(vec![0x80; data]);
            body.extend(hex(END));
            assert_eq!(padding_of(&file_of(0, &[body])), [padding], "{first} {length}");
        }
    }
}

/// Each track has its own, and nothing goes on into the next one.
#[test]
fn tracks_tell_their_own_padding() {
    let bodies = ["80 00 C0 05 00 FF 2F 80 00", END, "80 80 80 00 FF 2F 80 80 80 00", END].map(hex);
    for format in [1, 2] {
        let due = [vec![0; 4], vec![2, 1, 1, 1], vec![2, 0, 6, 0]];
        assert_eq!(listed(&file_of(format, &bodies)), Ok(due));
    }
    let turned: Vec<Vec<u8>> = bodies.iter().rev().cloned().collect();
    assert_eq!(padding_of(&file_of(1, &turned)), [0, 6, 0, 2]);
    // A track that ends in a padded event is not the next one's.
    let bodies = ["00 C0 05 80 80 80 00 FF 2F 00", "00 C0 05 80 00 05 00 FF 2F 00"].map(hex);
    assert_eq!(padding_of(&file_of(1, &bodies)), [3, 1]);
}

/// Neither the length of a chunk nor what is passed over is a variable-length number.
#[test]
fn what_is_passed_over_is_no_padding() {
    let tracks = [chunk(&hex("80 00 FF 2F 00")), chunk(&hex("00 FF 2F 80 80 00"))];
    let unknown = [b"XFIH\0\0\0\x0A", &hex("80 80 80 00 F0 80 80 80 00 80")[..]].concat();
    let empty = b"MThd\0\0\0\0".to_vec();
    let header = |extra: &[u8]| {
        let length = (6 + extra.len() as u32).to_be_bytes();
        [b"MThd", &length[..], &hex("0001 0002 0060"), extra].concat()
    };
    for extra in [&[][..], &hex("80 80 80 00"), b"MTrk\0\0\0\x04\0\xFF\x2F\0"] {
        for chunks in [vec![], unknown.clone(), [&empty[..], &unknown, &empty].concat()] {
            let parts = [&header(extra)[..], &chunks, &tracks[0], &chunks, &tracks[1], &chunks];
            assert_eq!(padding_of(&parts.concat()), [1, 2], "{extra:?} {chunks:?}");
        }
    }
    // A chunk's length of 128, 00 00 00 80, has a byte 80h too.
    let body = [&hex("00 FF 01 78")[..], &[0x80; 120], &hex(END)].concat();
    assert_eq!(padding_of(&file_of(0, &[body])), [0]);
}

/// 14 for any of three short lists, with the track count; all three stay.
#[test]
fn each_list_must_have_room() {
    let bodies = ["80 00 FF 2F 00", "05 FF 2F 80 80 00", "00 C0 01 00 FF 2F 00"].map(hex);
    let file = file_of(1, &bodies);
    let due = [[0, 5, 0], [1, 1, 2], [1, 2, 0]];
    for lengths in (0..6 * 6 * 6).map(|number| [number / 36, number / 6 % 6, number % 6]) {
        let mut lists = lengths.map(|length| vec![UNTOUCHED; length]);
        let [times, counts, padding] = &mut lists;
        let answer = list_tracks(&file, times, counts, padding);
        if lengths.iter().any(|length| *length < 3) {
            assert_eq!(answer, Answer { number: 14, place: 0, length: 3 }, "{lengths:?}");
            assert!(lists.concat().iter().all(|number| *number == UNTOUCHED), "{lengths:?}");
        } else {
            assert_eq!(answer, Answer { number: 0, place: 0, length: 3 }, "{lengths:?}");
            for (list, due) in lists.iter().zip(due) {
                assert_eq!(list[..3], due, "{lengths:?}");
                assert!(list[3..].iter().all(|number| *number == UNTOUCHED), "{lengths:?}");
            }
        }
    }
}

/// A fault behind padding: the same refusal as without, and nothing is told.
#[test]
fn refusals_leave_every_list() {
    for (body, number, place) in [
        ("80 00 C0 05 80 80 80 80 00", 5, 4),
        ("80 00 C0 05 80", 6, 4),
        ("80 00 F0 80 05 01", 6, 0),
        ("80 00 C0 05 80 00 05", 6, 7),
        ("80 00 C0 05 80 00 F4", 8, 4),
        ("80 00 05", 8, 0),
        ("80 00 C0 80", 9, 0),
        ("00 FF 51 80 02 00 01", 10, 0),
        ("80 00 FF 2F 80 01 00", 10, 0),
        ("80 00 FF 51 80 03 00 00 00", 11, 0),
        ("80 00 FF 2F 80 00 80 00", 12, 6),
    ] {
        // In the second track, behind one that is good and padded.
        let file = file_of(1, &[hex("80 80 00 FF 2F 00"), hex(body)]);
        let due = Answer { number, place: 14 + 14 + 8 + place, length: 0 };
        for length in [0, 1, 2, 9] {
            let mut lists = [(); 3].map(|()| vec![UNTOUCHED; length]);
            let [times, counts, padding] = &mut lists;
            assert_eq!(list_tracks(&file, times, counts, padding), due, "{body}");
            assert!(lists.concat().iter().all(|number| *number == UNTOUCHED), "{body}");
        }
    }
}

const PIECES: u64 = 4_000;

/// What a listing tells is what was chosen in spelling, track by track; and the piece has
/// no padding in either manner.
#[test]
fn the_padding_is_that_of_the_spelling() {
    let (mut none, mut some) = (0, 0);
    for seed in 0..PIECES {
        let KnownLists { file, due, .. } = known_padding(seed);
        let lists = listed(&file);
        assert_eq!(lists, due.map_err(|_| unreachable!()), "seed {seed}");
        let [_, _, padding] = lists.unwrap();
        *if padding.iter().all(|bytes| *bytes == 0) { &mut none } else { &mut some } += 1;
        unpadded(seed, &read_file(&file).unwrap(), padding.len());
        assert!(padding_of(&tidied(&file).unwrap()).iter().all(|bytes| *bytes == 0));
    }
    println!("{some} padded, {none} not, seeds 0..{PIECES}");
    assert!(some > PIECES / 2 && none > PIECES / 8);
}

/// The spellings of the other tests too.
#[test]
fn the_padding_is_that_of_any_spelling() {
    for seed in 0..PIECES {
        let rng = &mut Rng::new(seed);
        let piece = piece(rng);
        let spelling = spelling(rng, &piece);
        let file = layout(&piece, &spelling).unwrap();
        let padding = padding_of(&file);
        assert_eq!(Some(&padding), spelling.padding(&piece).as_ref(), "seed {seed}");
        unpadded(seed, &piece, padding.len());
        // Those bytes and the statuses written are all that it has above manner 1.
        let (short, full) = (Manner::Short, Manner::Full);
        let plain = Spelling { tracks: spelling.tracks.clone(), ..shortest(&piece) };
        let [short, full] = [short, full].map(|manner| write_file(&piece, manner).unwrap().len());
        let bytes = layout(&piece, &plain).unwrap().len() - padding.iter().sum::<u32>() as usize;
        assert!((short..=full).contains(&bytes), "seed {seed}");
    }
}

fn shortest(piece: &Piece) -> Spelling {
    Spelling::of_manner(piece, Manner::Short).unwrap()
}

fn unpadded(seed: u64, piece: &Piece, tracks: usize) {
    for manner in [Manner::Full, Manner::Short] {
        let file = write_file(piece, manner).unwrap();
        assert_eq!(padding_of(&file), vec![0; tracks], "seed {seed}, {manner:?}");
    }
}

/// What is padded is no matter of the piece: Times, counts and text are the same.
#[test]
fn padding_changes_nothing_else() {
    for seed in 0..PIECES {
        let (piece, spelling) = padded(&mut Rng::new(seed));
        let file = layout(&piece, &spelling).unwrap();
        let plain = write_file(&piece, Manner::Full).unwrap();
        let [times, counts, _] = listed(&file).unwrap();
        assert_eq!(listed(&plain), Ok([times, counts, vec![0; piece.tracks.len()]]));
        assert_eq!(to_text(&file), to_text(&plain), "seed {seed}");
    }
}

/// One more 80h before any number of a track is one more of its padding.
#[test]
fn a_byte_more_is_told() {
    let mut tried = 0;
    for seed in 0..1_000 {
        let rng = &mut Rng::new(seed);
        let (piece, mut spelling) = padded(rng);
        let before = spelling.padding(&piece).unwrap();
        let track = rng.index(piece.tracks.len());
        let event = rng.index(spelling.tracks[track].len());
        let spelled = &mut spelling.tracks[track][event];
        if spelled.delta_bytes == 4 {
            continue;
        }
        spelled.delta_bytes += 1;
        let mut due = before;
        due[track] += 1;
        assert_eq!(padding_of(&layout(&piece, &spelling).unwrap()), due, "seed {seed}");
        tried += 1;
    }
    assert!(tried > 500, "{tried}");
}

/// Near the limit of size, by hand.
#[test]
fn limits_are_as_said() {
    for KnownLists { what, file, due } in padding_limits() {
        let refused = |(number, place)| Answer { number, place, length: 0 };
        assert_eq!(listed(&file), due.map_err(refused), "{what}");
    }
}

/// A listing refuses what a check refuses, padded or not.
#[test]
fn a_listing_refuses_what_a_check_refuses() {
    for seed in 0..PIECES {
        let file = file_case(seed);
        let checked = second::operations::check(&file);
        match listed(&file) {
            Ok(_) => assert_eq!(checked, Answer::success(0), "seed {seed}"),
            Err(answer) => assert_eq!(checked, answer, "seed {seed}"),
        }
    }
}
