//! The program `second` itself: streams, files, exit numbers, messages.

mod common;

use std::fs;
use std::io::Write;
use std::path::PathBuf;
use std::process::{Command, Output, Stdio};

use common::{ended, file_of, hex, one_track, to_file, to_sheet, to_text};

fn run(words: &[&str], input: &[u8]) -> Output {
    let mut child = Command::new(env!("CARGO_BIN_EXE_second"))
        .args(words)
        .stdin(Stdio::piped())
        .stdout(Stdio::piped())
        .stderr(Stdio::piped())
        .spawn()
        .unwrap();
    // The program may end before it has read all, as on wrong usage.
    let _ = child.stdin.take().unwrap().write_all(input);
    child.wait_with_output().unwrap()
}

/// Exit number, standard output, standard error.
fn told(words: &[&str], input: &[u8]) -> (i32, Vec<u8>, String) {
    let output = run(words, input);
    let error = String::from_utf8_lossy(&output.stderr).into_owned();
    (output.status.code().unwrap(), output.stdout, error)
}

fn scratch(name: &str) -> PathBuf {
    let folder = PathBuf::from(env!("CARGO_TARGET_TMPDIR"));
    fs::create_dir_all(&folder).unwrap();
    folder.join(name)
}

#[test]
fn streams() {
    let file = ended("00 90 3C 40 60 90 3C 00");
    let text = to_text(&file).unwrap();
    let good = |made: &[u8]| (0, made.to_vec(), String::new());
    assert_eq!(told(&["check"], &file), good(b""));
    assert_eq!(told(&["to-text"], &file), good(&text));
    assert_eq!(told(&["to-text", "-", "-"], &file), good(&text));
    assert_eq!(told(&["to-midi"], &text), good(&to_file(&text, 1).unwrap()));
    assert_eq!(told(&["to-midi", "-x"], &text), good(&file));
    assert_eq!(told(&["tidy"], &file), good(&to_file(&text, 1).unwrap()));
    assert_eq!(told(&["list"], &file), good(b"1, 96, 3, 0\n"));
    assert_eq!(told(&["fold"], &file), good(&to_file(&text, 1).unwrap()));
    let sheet = to_sheet(&file).unwrap();
    assert_eq!(told(&["to-sheet"], &file), good(&sheet));
    assert_eq!(told(&["from-sheet"], &sheet), good(&to_file(&text, 1).unwrap()));
    assert_eq!(told(&["from-sheet", "-x", "-", "-"], &sheet), good(&file));
    let padded = file_of(1, &[hex("80 00 C0 05 80 60 FF 2F 00"), hex("00 FF 2F 80 80 00")]);
    assert_eq!(told(&["list"], &padded), good(b"1, 96, 2, 2\n2, 0, 1, 2\n"));
    let two = file_of(1, &[hex("00 FF 2F 00"), hex("60 FF 2F 00")]);
    assert_eq!(told(&["fold", "-", "-"], &two), good(&one_track("60 FF 2F 00")));
}

/// Every verb on a file timed in 25 frames of 40 ticks, and on one of 26 frames.
#[test]
fn film_divisions() {
    let mut file = ended("00 90 3C 40 60 90 3C 00");
    file[12..14].copy_from_slice(&hex("E7 28"));
    let short = [
        &hex("4D546864 00000006 0000 0001 E728 4D54726B 0000000B")[..],
        &hex("00 90 3C 40 60 3C 00 00 FF 2F 00"),
    ]
    .concat();
    let text = b"0, 0, Header, 0, 1, -6360\n1, 0, Start_track\n1, 0, Note_on_c, 0, 60, 64\n\
        1, 96, Note_on_c, 0, 60, 0\n1, 96, End_track\n0, 0, End_of_file\n";
    let sheet = String::from_utf8_lossy(text).replace(", ", ",");
    let good = |made: &[u8]| (0, made.to_vec(), String::new());
    assert_eq!(told(&["check"], &file), good(b""));
    assert_eq!(told(&["to-text"], &file), good(text));
    assert_eq!(told(&["to-midi"], text), good(&short));
    assert_eq!(told(&["to-midi", "-x"], text), good(&file));
    assert_eq!(told(&["tidy"], &file), good(&short));
    assert_eq!(told(&["fold"], &file), good(&short));
    assert_eq!(told(&["list"], &file), good(b"1, 96, 3, 0\n"));
    assert_eq!(told(&["to-sheet"], &file), good(sheet.as_bytes()));
    assert_eq!(told(&["from-sheet", "-x"], sheet.as_bytes()), good(&file));
    file[12] = 0xE6;
    for verb in ["check", "to-text", "tidy", "fold", "list", "to-sheet"] {
        let message = "-: refused 3 at byte 12\n".to_owned();
        assert_eq!(told(&[verb], &file), (1, vec![], message), "{verb}");
    }
    let bad = sheet.replace("-6360", "59176");
    for verb in ["to-midi", "from-sheet"] {
        let message = "-: refused 25 at line 1\n".to_owned();
        assert_eq!(told(&[verb], bad.as_bytes()), (1, vec![], message), "{verb}");
    }
}

#[test]
fn files_and_messages() {
    let (bad, out) = (scratch("bad.mid"), scratch("out.csv"));
    fs::write(&bad, one_track("00 90 3C 40 60 3C 00 00 FF 2F 00 00")).unwrap();
    fs::write(&out, "old").unwrap();
    let (bad, out) = (bad.to_str().unwrap(), out.to_str().unwrap());
    let message = format!("{bad}: refused 12 at byte 33\n");
    assert_eq!(told(&["to-text", bad, out], &[]), (1, vec![], message.clone()));
    assert_eq!(fs::read(out).unwrap(), b"old");
    for verb in ["check", "tidy", "list", "fold", "to-sheet"] {
        assert_eq!(told(&[verb, bad], &[]), (1, vec![], message.clone()));
    }
    let ports = file_of(1, &[hex("00 FF 2F 00"), hex("00 FF 21 01 00 00 FF 2F 00")]);
    let byte = "-: refused 33 at byte 34\n".to_owned();
    assert_eq!(told(&["fold"], &ports), (1, vec![], byte));
    let line = "-: refused 22 at line 2\n".to_owned();
    assert_eq!(told(&["to-midi"], b"# text\n+"), (1, vec![], line.clone()));
    assert_eq!(told(&["from-sheet"], b"# text\n+"), (1, vec![], line));
    let none = "-: refused 28 at line 1\n".to_owned();
    assert_eq!(told(&["from-sheet"], b""), (1, vec![], none));
    let good = scratch("good.mid");
    fs::write(&good, hex("4D546864 00000006 0000 0001 0060 4D54726B 00000004 00FF2F00")).unwrap();
    assert_eq!(told(&["to-text", good.to_str().unwrap(), out], &[]), (0, vec![], String::new()));
    assert!(fs::read(out).unwrap().starts_with(b"0, 0, Header, 0, 1, 96\n"));
}

#[test]
fn wrong_usage_and_missing_files() {
    for words in [&[][..], &["play"], &["check", "a", "b", "c"], &["check", "--what"]] {
        let (exit, made, error) = told(words, &[]);
        assert_eq!((exit, made.len()), (2, 0), "{words:?}");
        assert!(error.starts_with("usage: "), "{words:?}: {error}");
    }
    let (exit, _, error) = told(&["check", "/no/such/file"], &[]);
    assert_eq!(exit, 2);
    assert!(error.starts_with("/no/such/file: "), "{error}");
}
