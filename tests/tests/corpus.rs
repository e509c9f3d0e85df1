//! Files that nobody of this project wrote, against what Debian's midicsv, csvmidi and
//! mido make of them (stored by make-expectations).

mod common;

use common::{folded, tidied, to_file, to_text};
use second::operations::{check, list_tracks};
use second::outside::{
    expected, expected_back, expected_fold, has_film_division, outside_files as files,
};
use second::piece::Division;
use second::read_file::read_file;
use second::refusal::Answer;

#[test]
fn all_files_are_there_and_good() {
    let files = files();
    assert_eq!(files.len(), 36);
    assert_eq!(files.iter().filter(|(name, _)| has_film_division(name)).count(), 3);
    files.iter().for_each(|(name, file)| assert_eq!(check(file), Answer::success(0), "{name}"));
}

/// Their names tell frames and ticks; but for these they are a file that csvmidi wrote, and
/// so come back as they were in manner 1.
#[test]
fn film_divisions_are_those_of_the_names() {
    let of_csvmidi = expected("gen-csvmidi__own_allkinds", "short.mid");
    let film = files().into_iter().filter(|(name, _)| has_film_division(name));
    let divisions = film.map(|(name, file)| {
        assert_eq!(file[..12], of_csvmidi[..12], "{name}");
        assert_eq!(file[14..], of_csvmidi[14..], "{name}");
        assert_eq!(expected_back(&name, "short.mid"), file, "{name}");
        (name, read_file(&file).unwrap().division)
    });
    let frames = |rate, ticks| Division::Frames { rate, ticks };
    let due = [("25x40", frames(25, 40)), ("29x4", frames(29, 4)), ("30x80", frames(30, 80))];
    let due = due.map(|(word, division)| (format!("gen-csvmidi__own_smpte{word}"), division));
    assert_eq!(divisions.collect::<Vec<_>>(), due);
}

#[test]
fn texts_are_those_of_midicsv() {
    for (name, file) in &files() {
        let text = to_text(file).unwrap();
        assert!(text == expected(name, "csv"), "{name}");
        assert!(text.len() <= 25 * file.len(), "{name}");
    }
}

#[test]
fn files_are_those_of_csvmidi() {
    for (name, file) in &files() {
        let text = expected(name, "csv");
        let short = expected_back(name, "short.mid");
        assert!(to_file(&text, 1).unwrap() == short, "{name}, manner 1");
        assert!(to_file(&text, 0).unwrap() == expected_back(name, "full.mid"), "{name}, manner 0");
        assert!(tidied(file).unwrap() == short, "{name}, tidied");
    }
}

/// Byte for byte, although mido knows nothing of manners: it too leaves out a status
/// wherever it may.
#[test]
fn folds_are_those_of_mido() {
    let mut tracks = Vec::new();
    for (name, file) in files() {
        let due = expected_fold(&name);
        assert!(folded(&file) == due, "{name}");
        if due.is_ok() {
            tracks.push(read_file(&file).unwrap().tracks.len());
        }
    }
    assert_eq!(tracks.len(), 29);
    assert!(tracks.iter().filter(|count| **count > 1).count() == 26, "{tracks:?}");
}

#[test]
fn both_manners_read_back_as_the_same_piece() {
    for (name, file) in &files() {
        let piece = read_file(file).unwrap();
        for ending in ["short.mid", "full.mid"] {
            let back = read_file(&expected_back(name, ending));
            assert!(back.as_ref() == Ok(&piece), "{name}.{ending}");
        }
        let (mut times, mut counts, mut padding) = ([0; 64], [0; 64], [9; 64]);
        let answer = list_tracks(file, &mut times, &mut counts, &mut padding);
        assert_eq!(answer, Answer::success(piece.tracks.len()), "{name}");
        for (index, track) in piece.tracks.iter().enumerate() {
            assert_eq!(times[index], track.events.last().unwrap().time.0, "{name}");
            assert_eq!(counts[index] as usize, track.events.len(), "{name}");
            // None of the programs that they are of pads.
            assert_eq!(padding[index], 0, "{name}");
        }
    }
}
