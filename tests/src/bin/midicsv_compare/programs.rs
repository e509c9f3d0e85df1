//! The programs themselves, run with limits on processor time, memory and output, and without
//! address randomisation: midicsv reads memory that it has not filled, and what stands there
//! should be the same at every run.

use std::fs::{self, File};
use std::os::unix::process::ExitStatusExt;
use std::path::{Path, PathBuf};
use std::process::{Command, ExitStatus, Stdio};

/// Seconds of processor; bytes of one written file; bytes of memory.
const LIMITS: [&str; 4] = ["--core=0", "--cpu=5:6", "--fsize=67108864", "--as=8589934592"];
/// The signals of Linux that these limits end a program with.
const BY_A_LIMIT: [i32; 3] = [9, 24, 25];

#[derive(Clone, Copy, PartialEq, Eq)]
pub enum Given {
    File,
    Text,
}

#[derive(Clone, Copy, PartialEq, Eq, Debug)]
pub enum Outcome {
    /// Exit 0 and nothing on standard error.
    Silent,
    /// Exit 0 with something on standard error.
    Warned,
    /// Another exit status.
    Refused,
    /// Ended by a signal.
    Crashed,
    /// Ended by a limit.
    Endless,
}

pub struct Run {
    pub outcome: Outcome,
    pub written: Option<Vec<u8>>,
}

/// What the three did with one file, or with one text.
pub struct Compared {
    pub theirs: Run,
    /// The other one of theirs, on what was made silently.
    pub back: Option<Outcome>,
    pub ours: Run,
}

pub struct Programs {
    tool: PathBuf,
    folder: PathBuf,
}

impl Programs {
    /// Or what is missing.
    pub fn new(tool: &str) -> Result<Programs, String> {
        let tool = fs::canonicalize(tool).map_err(|error| format!("{tool}: {error}"))?;
        for program in ["midicsv", "csvmidi"] {
            let said = Command::new(program).arg("-u").output();
            let said = said.map_err(|error| format!("{program}: {error}"))?.stderr;
            if !String::from_utf8_lossy(&said).contains("Version 1.1 (January 2008)") {
                return Err(format!("{program} is not that of the package midicsv 1.1"));
            }
        }
        // In memory where there is such a folder: texts without end are written there.
        let memory = Path::new("/dev/shm");
        let base = if memory.is_dir() { memory.to_path_buf() } else { std::env::temp_dir() };
        let folder = base.join(format!("midicsv_compare.{}", std::process::id()));
        fs::create_dir(&folder).map_err(|error| format!("{}: {error}", folder.display()))?;
        Ok(Programs { tool, folder })
    }

    pub fn compare(&self, given: Given, input: &[u8]) -> Compared {
        let (theirs, other, ours) = match given {
            Given::File => ("midicsv", "csvmidi", "to-text"),
            Given::Text => ("csvmidi", "midicsv", "to-midi"),
        };
        let input_path = self.path("in");
        fs::write(&input_path, input).expect("the input is written");
        let made = self.path("theirs");
        let theirs = self.run(&[theirs], &input_path, &made);
        let back = (theirs.outcome == Outcome::Silent && given == Given::File)
            .then(|| self.run(&[other], &made, &self.path("back")).outcome);
        let tool = self.tool.to_str().expect("a plain path");
        let ours = self.run(&[tool, ours], &input_path, &self.path("ours"));
        Compared { theirs, back, ours }
    }

    fn path(&self, name: &str) -> PathBuf {
        self.folder.join(name)
    }

    fn run(&self, program: &[&str], input: &Path, output: &Path) -> Run {
        let _ = fs::remove_file(output);
        let errors = self.path("errors");
        let status = Command::new("prlimit")
            .args(LIMITS)
            .args(["setarch", "-R"])
            .args(program)
            .args([input, output])
            .stdin(Stdio::null())
            .stdout(Stdio::null())
            .stderr(File::create(&errors).expect("a file for standard error"))
            .status()
            .expect("prlimit and setarch (util-linux) are there");
        let silent = fs::metadata(&errors).expect("standard error").len() == 0;
        let outcome = outcome(status, silent);
        // What is cut off by a limit is long, and nobody looks at it.
        let written = if outcome == Outcome::Endless { None } else { fs::read(output).ok() };
        Run { outcome, written }
    }
}

impl Drop for Programs {
    fn drop(&mut self) {
        let _ = fs::remove_dir_all(&self.folder);
    }
}

fn outcome(status: ExitStatus, silent: bool) -> Outcome {
    match (status.code(), status.signal()) {
        (Some(0), _) if silent => Outcome::Silent,
        (Some(0), _) => Outcome::Warned,
        (Some(_), _) => Outcome::Refused,
        (None, Some(signal)) if BY_A_LIMIT.contains(&signal) => Outcome::Endless,
        (None, _) => Outcome::Crashed,
    }
}
