//! second check|to-text|to-midi|tidy|fold|list|to-sheet|from-sheet [-x] [IN [OUT]]

use std::fs::File;
use std::io::{self, Read, Write};
use std::process::ExitCode;

use second::fold::fold;
use second::operations::{check, file_to_text, list_tracks, text_to_file, tidy};
use second::refusal::Answer;
use second::sheet::file_to_sheet;
use second::table::sheet_to_text;

const VERBS: [&str; 8] =
    ["check", "to-text", "to-midi", "tidy", "fold", "list", "to-sheet", "from-sheet"];
const USAGE: &str = "\
usage: second check|to-text|to-midi|tidy|fold|list|to-sheet|from-sheet [-x] [IN [OUT]]
  -x  to-midi, from-sheet: write every status byte (manner 0)
  -   or nothing: the standard stream";

fn main() -> ExitCode {
    let mut words: Vec<String> = std::env::args().skip(1).collect();
    let full = words.iter().position(|word| word == "-x");
    if let Some(index) = full {
        words.remove(index);
    }
    let verb = words.first().map_or("", String::as_str);
    let option = words.iter().any(|word| word.len() > 1 && word.starts_with('-'));
    if !VERBS.contains(&verb) || words.len() > 3 || option {
        eprintln!("{USAGE}");
        return ExitCode::from(2);
    }
    let input = words.get(1).map_or("-", String::as_str);
    let output = words.get(2).map_or("-", String::as_str);
    match run(verb, u32::from(full.is_none()), input, output) {
        Ok(None) => ExitCode::SUCCESS,
        Ok(Some(refusal)) => {
            let unit = if refusal.place_is_line() { "line" } else { "byte" };
            eprintln!("{input}: refused {} at {unit} {}", refusal.number, refusal.place);
            ExitCode::from(1)
        }
        Err(error) => {
            eprintln!("{error}");
            ExitCode::from(2)
        }
    }
}

/// The refusal, if there is one; only without one is anything written.
fn run(verb: &str, manner: u32, input: &str, output: &str) -> io::Result<Option<Answer>> {
    let bytes = read(input)?;
    let made = match verb {
        "check" => {
            let answer = check(&bytes);
            return Ok((answer.number != 0).then_some(answer));
        }
        "to-text" => with_room(|room| file_to_text(&bytes, room)),
        "to-midi" => with_room(|room| text_to_file(&bytes, manner, room)),
        "tidy" => with_room(|room| tidy(&bytes, room)),
        "fold" => with_room(|room| fold(&bytes, room)),
        "to-sheet" => with_room(|room| file_to_sheet(&bytes, room)),
        "from-sheet" => with_room(|room| sheet_to_text(&bytes, room))
            .and_then(|text| with_room(|room| text_to_file(&text, manner, room))),
        _ => list(&bytes),
    };
    match made {
        Ok(made) => write(output, &made).map(|_| None),
        Err(refusal) => Ok(Some(refusal)),
    }
}

/// Asks with no room how much is needed, then again with as much.
fn with_room(operation: impl Fn(&mut [u8]) -> Answer) -> Result<Vec<u8>, Answer> {
    let asked = operation(&mut []);
    if ![0, 14].contains(&asked.number) {
        return Err(asked);
    }
    let mut room = vec![0; asked.length];
    operation(&mut room);
    Ok(room)
}

/// One line for each track: its number, End_track Time, event count and padding.
fn list(file: &[u8]) -> Result<Vec<u8>, Answer> {
    let [mut times, mut counts, mut padding] = [(); 3].map(|()| vec![0; 65_535]);
    let answer = list_tracks(file, &mut times, &mut counts, &mut padding);
    if answer.number != 0 {
        return Err(answer);
    }
    let line = |index: usize| {
        format!("{}, {}, {}, {}\n", index + 1, times[index], counts[index], padding[index])
    };
    Ok((0..answer.length).flat_map(|index| line(index).into_bytes()).collect())
}

fn named(name: &str, error: io::Error) -> io::Error {
    io::Error::new(error.kind(), format!("{name}: {error}"))
}

fn read(name: &str) -> io::Result<Vec<u8>> {
    let mut bytes = Vec::new();
    let done = match name {
        "-" => io::stdin().read_to_end(&mut bytes),
        _ => File::open(name).and_then(|mut file| file.read_to_end(&mut bytes)),
    };
    done.map(|_| bytes).map_err(|error| named(name, error))
}

fn write(name: &str, bytes: &[u8]) -> io::Result<()> {
    match name {
        "-" => io::stdout().write_all(bytes),
        _ => std::fs::write(name, bytes),
    }
    .map_err(|error| named(name, error))
}
