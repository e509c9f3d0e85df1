//! Both round trips and their neighbours on seeded random pieces.

mod common;

use common::{tidied, to_file, to_text};
use second::generate::{file_case, piece, plain_text, spelling, text_case, varied_text, Rng};
use second::operations::{check, list_tracks};
use second::piece::{Division, Event, Kind, Piece, Time};
use second::read_file::read_file;
use second::read_text::read_text;
use second::refusal::Answer;
use second::spelling::{Manner, Spelling};
use second::write_file::{layout, write_file};
use second::write_text::write_text;

const PIECES: u64 = 4_000;
const CASES: u64 = 6_000;

#[test]
fn any_layout_reads_back_as_its_piece() {
    for seed in 0..PIECES {
        let rng = &mut Rng::new(seed);
        let piece = piece(rng);
        let spelling = spelling(rng, &piece);
        let file = layout(&piece, &spelling).expect("a permitted spelling");
        assert!(read_file(&file).as_ref() == Ok(&piece), "seed {seed}");
        assert_eq!(check(&file), Answer::success(0), "seed {seed}");
    }
    println!("{PIECES} pieces, seeds 0..{PIECES}");
}

#[test]
fn file_to_text_to_file_in_both_manners() {
    for seed in 0..PIECES {
        let rng = &mut Rng::new(seed);
        let piece = piece(rng);
        let file = layout(&piece, &spelling(rng, &piece)).unwrap();
        let short = write_file(&piece, Manner::Short).unwrap();
        let full = write_file(&piece, Manner::Full).unwrap();
        let text = to_text(&file).unwrap();
        assert!(text == plain_text(&piece), "seed {seed}: text");
        assert!(text.len() <= 25 * file.len(), "seed {seed}: 25 times");
        assert!(to_file(&text, 1).as_ref() == Ok(&short), "seed {seed}: manner 1");
        assert!(to_file(&text, 0).as_ref() == Ok(&full), "seed {seed}: manner 0");
        for written in [&short, &full] {
            assert!(to_text(written).as_ref() == Ok(&text), "seed {seed}: text again");
        }
        assert!(tidied(&file).as_ref() == Ok(&short), "seed {seed}: tidy");
        assert!(tidied(&short).as_ref() == Ok(&short), "seed {seed}: tidy twice");
        assert!(short.len() <= full.len() && short.len() <= file.len(), "seed {seed}: shortest");
    }
    println!("{PIECES} pieces, seeds 0..{PIECES}");
}

#[test]
fn text_to_file_to_text() {
    for seed in 0..PIECES {
        let rng = &mut Rng::new(seed);
        let piece = piece(rng);
        let loose = varied_text(rng, &piece);
        assert!(read_text(&loose).as_ref() == Ok(&piece), "seed {seed}: read");
        for manner in [0, 1] {
            let file = to_file(&loose, manner).unwrap();
            assert!(to_text(&file).as_ref() == Ok(&plain_text(&piece)), "seed {seed}: {manner}");
        }
    }
    println!("{PIECES} pieces, seeds 0..{PIECES}");
}

#[test]
fn listed_tracks_are_those_of_the_piece() {
    for seed in 0..PIECES {
        let piece = piece(&mut Rng::new(seed));
        let file = write_file(&piece, Manner::Short).unwrap();
        let (mut times, mut counts, mut padding) = (vec![5; 30], vec![6; 30], vec![7; 30]);
        let count = piece.tracks.len();
        let answer = list_tracks(&file, &mut times, &mut counts, &mut padding);
        assert_eq!(answer, Answer::success(count));
        for (index, track) in piece.tracks.iter().enumerate() {
            assert_eq!(times[index], track.events.last().unwrap().time.0, "seed {seed}");
            assert_eq!(counts[index] as usize, track.events.len(), "seed {seed}");
        }
        assert!(times[count..].iter().all(|time| *time == 5), "seed {seed}: past the length");
        assert!(counts[count..].iter().all(|count| *count == 6), "seed {seed}: past the length");
        assert!(padding[..count].iter().all(|bytes| *bytes == 0), "seed {seed}: padding");
        assert!(padding[count..].iter().all(|bytes| *bytes == 7), "seed {seed}: past the length");
    }
}

/// Whatever is accepted, aimed or mutated into being, goes round as well.
#[test]
fn accepted_cases_go_round() {
    let (mut files, mut texts) = (0, 0);
    for seed in 0..CASES {
        let file = file_case(seed);
        if let Ok(piece) = read_file(&file) {
            files += 1;
            assert!(piece.keeps_rules(), "file {seed}");
            let text = write_text(&piece);
            assert!(text.len() <= 25 * file.len(), "file {seed}");
            assert!(read_text(&text) == Ok(piece), "file {seed}");
        }
        if let Ok(piece) = read_text(&text_case(seed)) {
            texts += 1;
            let file = write_file(&piece, Manner::Full);
            let file = file.unwrap_or_else(|| panic!("text {seed} has no file"));
            assert!(file.len() > second::FILE_MAX || read_file(&file) == Ok(piece), "text {seed}");
        }
    }
    println!("{files} files and {texts} texts of {CASES} each, seeds 0..{CASES}");
    assert!(files > CASES / 4 && texts > CASES / 4, "too few are accepted");
}

#[test]
fn no_layout_with_a_spelling_that_is_not_permitted() {
    let mut tried = 0;
    for seed in 0..1_000 {
        let rng = &mut Rng::new(seed);
        let piece = piece(rng);
        let good = Spelling::of_manner(&piece, Manner::Short).unwrap();
        let track = rng.index(piece.tracks.len());
        let at = rng.index(piece.tracks[track].events.len());
        let damage = rng.below(4);
        let mut bad = good.clone();
        let event = &mut bad.tracks[track][at];
        match damage {
            0 => event.delta_bytes -= 1,
            1 => event.delta_bytes = 5,
            2 if piece.tracks[track].events[at].kind.channel_status().is_none() => {
                event.length_bytes -= 1
            }
            _ if !event.status_left_out => event.status_left_out = true,
            _ => continue,
        }
        tried += 1;
        assert_eq!(layout(&piece, &bad), None, "seed {seed}");
        assert!(layout(&piece, &good).is_some(), "seed {seed}");
    }
    assert!(tried > 500, "only {tried} tried");
}

#[test]
fn no_layout_for_a_piece_that_breaks_a_rule() {
    let good = |seed| piece(&mut Rng::new(seed));
    let breaks: [fn(&mut Piece); 16] = [
        |piece| piece.tracks.clear(),
        |piece| piece.tracks[0].events.clear(),
        |piece| drop(piece.tracks[0].events.pop()),
        |piece| piece.tracks[0].events.insert(0, end_at(0)),
        |piece| piece.tracks[0].events.push(end_at(u32::MAX)),
        |piece| piece.tracks[0].events.insert(0, tempo_at(0, 0)),
        |piece| piece.tracks[0].events.insert(0, tempo_at(0, 16_777_216)),
        |piece| piece.division = Division::Pulses(0),
        // Those of 25 frames of 40 ticks.
        |piece| piece.division = Division::Pulses(0xE728),
        |piece| piece.division = Division::Pulses(32_768),
        |piece| piece.division = Division::Frames { rate: 25, ticks: 0 },
        |piece| piece.division = Division::Frames { rate: 26, ticks: 40 },
        |piece| piece.division = Division::Frames { rate: 0, ticks: 40 },
        |piece| piece.division = Division::Frames { rate: 231, ticks: 40 },
        |piece| piece.division = Division::Frames { rate: 128, ticks: 1 },
        |piece| {
            piece.tracks[0].events.insert(0, tempo_at(4_000_000_000, 1));
            piece.tracks[0].events.insert(0, tempo_at(4_000_000_001, 1));
        },
    ];
    for (index, change) in breaks.iter().enumerate() {
        for seed in 0..20 {
            let mut piece = good(seed);
            change(&mut piece);
            assert_eq!(write_file(&piece, Manner::Short), None, "break {index}, seed {seed}");
        }
    }
    let mut far = good(1);
    far.tracks[0].events = vec![end_at(268_435_456)];
    assert_eq!(write_file(&far, Manner::Short), None);
    far.tracks[0].events = vec![end_at(268_435_455)];
    assert!(write_file(&far, Manner::Short).is_some());
}

fn end_at(time: u32) -> Event {
    Event { time: Time(time), kind: Kind::EndTrack }
}

fn tempo_at(time: u32, tempo: u32) -> Event {
    Event { time: Time(time), kind: Kind::Tempo(tempo) }
}
