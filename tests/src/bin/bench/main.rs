//! bench: one table of times, the proved archive's beside those of the second
//! program, of the converter made for speed (`fast_text`) and, where they are
//! installed, of midicsv and csvmidi. Medians of ten in one run.

mod tasks;

use std::env;
use std::fs;
use std::hint::black_box;
use std::path::{Path, PathBuf};
use std::process::{self, Command};
use std::thread;
use std::time::{Duration, Instant};

use second::generate::{
    benchmark_file, fold_benchmark_file, small_benchmark_file, small_fold_benchmark_file,
};
use second::refusal::Answer;

use tasks::{
    Inputs, Task, Work, CHUNKS, FILE_TO_SHEET, FILE_TO_TEXT, FOLDS, SHEET_TEXT_TO_FILE,
    SHEET_TO_TEXT, TASKS, TEXT_TO_FILE,
};

const ROUNDS: usize = 10;
/// Calls on a small input that are timed together: they take about as long as one on
/// the large input, so the clock and the machine disturb both alike.
const SMALL_CALLS: u32 = 16;
/// What rooms hold before they are timed: their pages are there, and what is not
/// written shows.
const FILL: u8 = 0xA5;

fn main() {
    let before = load();
    let (large, small) = (Inputs::of(benchmark_file()), Inputs::of(small_benchmark_file()));
    let mut rows: Vec<Row> = TASKS.iter().map(|task| Row::of(task, &large, &small)).collect();
    rows.extend(FOLDS.iter().map(|(tracks, task)| {
        let large = Inputs::of(fold_benchmark_file(*tracks));
        Row::of(task, &large, &Inputs::of(small_fold_benchmark_file(*tracks)))
    }));
    rows.extend(
        CHUNKS.iter().map(|([large, small], task)| {
            Row::of(task, &Inputs::of(large()), &Inputs::of(small()))
        }),
    );
    // Nothing is timed before all have been seen to make the same.
    for contender in rows.iter_mut().flat_map(Row::contenders) {
        contender.timed();
    }
    for _ in 0..ROUNDS {
        // Interleaved, so that a busy moment of the machine meets all.
        for contender in rows.iter_mut().flat_map(Row::contenders) {
            let time = contender.timed();
            contender.times.push(time);
        }
    }
    print_table(&rows);
    print_notes(&large, &small);
    print_ways(&rows);
    println!("Load {before} before, {} after; {}.", load(), machine());
    for row in &rows {
        match row.task.outside {
            Some(program) if row.outside.is_none() => {
                println!("{program} is not installed: {} not timed beside it.", row.task.name);
            }
            _ => {}
        }
    }
}

/// The contenders at one task.
struct Row {
    task: &'static Task,
    bytes: usize,
    ours: Contender,
    small: Contender,
    second: Contender,
    fast: Option<Contender>,
    outside: Option<Contender>,
}

impl Row {
    fn of(task: &'static Task, large: &Inputs, small: &Inputs) -> Row {
        let contender = |work: Work, inputs| Contender {
            work: Box::new(work),
            input: (task.input)(inputs).to_vec(),
            room: vec![FILL; (task.room)(inputs)],
            due: (task.due)(inputs).to_vec(),
            calls: 1,
            times: Vec::new(),
        };
        let (input, due) = ((task.input)(large), (task.due)(large));
        let outside = task.outside.and_then(|program| Outside::find(program, input, due));
        Row {
            task,
            bytes: input.len(),
            ours: contender(task.ours, large),
            small: Contender { calls: SMALL_CALLS, ..contender(task.ours, small) },
            second: contender(task.second, large),
            fast: task.fast.map(|work| contender(work, large)),
            outside: outside.map(Contender::process),
        }
    }

    fn contenders(&mut self) -> impl Iterator<Item = &mut Contender> {
        let Row { ours, small, second, fast, outside, .. } = self;
        [ours, small, second].into_iter().chain(fast).chain(outside)
    }

    fn cells(&self) -> Vec<String> {
        let ours = self.ours.median();
        let mut cells = vec![self.task.name.to_owned(), self.bytes.to_string(), milliseconds(ours)];
        for other in [Some(&self.second), self.fast.as_ref(), self.outside.as_ref()] {
            let time = other.map(Contender::median);
            cells.push(time.map_or_else(String::new, milliseconds));
            cells.push(time.map_or_else(String::new, |time| ratio(ours, time)));
        }
        cells.push(ratio(ours, self.small.median()));
        cells
    }
}

struct Contender {
    work: Box<dyn Fn(&mut [u8], &mut Vec<u8>) -> u64>,
    input: Vec<u8>,
    room: Vec<u8>,
    due: Vec<u8>,
    /// So many calls are timed together, and the mean is taken.
    calls: u32,
    times: Vec<Duration>,
}

impl Contender {
    /// What it makes was held against what is due when it was found.
    fn process(outside: Outside) -> Contender {
        Contender {
            work: Box::new(move |_, _| outside.run(Path::new("/dev/null"))),
            input: Vec::new(),
            room: Vec::new(),
            due: Vec::new(),
            calls: 1,
            times: Vec::new(),
        }
    }

    /// The time of one call, which must make what is due.
    fn timed(&mut self) -> Duration {
        let mut answer = 0;
        self.room.fill(FILL);
        let started = Instant::now();
        for _ in 0..self.calls {
            answer = (self.work)(black_box(&mut self.input), black_box(&mut self.room));
            black_box(answer);
        }
        let time = started.elapsed() / self.calls;
        assert_eq!(Answer::unpacked(answer), Answer::success(self.due.len()));
        assert!(self.room.starts_with(&self.due), "all make the same");
        time
    }

    fn median(&self) -> Duration {
        let mut times = self.times.clone();
        times.sort();
        (times[ROUNDS / 2 - 1] + times[ROUNDS / 2]) / 2
    }
}

/// The program midicsv or csvmidi, and where its input is stored.
struct Outside {
    program: &'static str,
    folder: PathBuf,
}

impl Outside {
    /// If it is installed; what it makes of the input must be the same.
    fn find(program: &'static str, input: &[u8], due: &[u8]) -> Option<Outside> {
        // Two rows may ask for the same program.
        let folder = (0..)
            .map(|i| env::temp_dir().join(format!("noferkash-bench-{}-{i}", process::id())))
            .find(|folder| !folder.exists())?;
        fs::create_dir(&folder).expect("a new folder for the program's files");
        let outside = Outside { program, folder };
        fs::write(outside.input(), input).expect("the program's input written");
        let output = outside.folder.join("output");
        Command::new(program).args([outside.input(), output.clone()]).status().ok()?;
        let made = fs::read(output).expect("the program's output");
        assert!(made == due, "{program} makes the same");
        Some(outside)
    }

    fn input(&self) -> PathBuf {
        self.folder.join("input")
    }

    /// From the start of the process to its end; 0 if it went well.
    fn run(&self, output: &Path) -> u64 {
        let status = Command::new(self.program).arg(self.input()).arg(output).status();
        u64::from(!status.is_ok_and(|status| status.success()))
    }
}

impl Drop for Outside {
    fn drop(&mut self) {
        // What is left there does no harm.
        let _ = fs::remove_dir_all(&self.folder);
    }
}

/// In Markdown, with cells of one width, so that it reads well as it stands.
fn print_table(rows: &[Row]) {
    let head = [
        "", "bytes", "ours", "second", "ratio", "fast_text", "ratio", "midicsv", "ratio", "growth",
    ];
    let mut lines = vec![head.map(str::to_owned).to_vec()];
    lines.extend(rows.iter().map(Row::cells));
    let width = |column: usize| lines.iter().map(|cells| cells[column].len()).max().unwrap_or(0);
    let widths: Vec<usize> = (0..head.len()).map(width).collect();
    for (index, cells) in lines.iter().enumerate() {
        let name = format!("| {:<1$} |", cells[0], widths[0]);
        let numbers = cells.iter().zip(&widths).skip(1);
        let numbers: String = numbers.map(|(cell, width)| format!(" {cell:>width$} |")).collect();
        println!("{name}{numbers}");
        if index == 0 {
            let dashes = widths.iter().skip(1).map(|width| format!("{}:|", "-".repeat(width + 1)));
            println!("|{}|{}", "-".repeat(widths[0] + 2), dashes.collect::<String>());
        }
    }
}

fn print_notes(large: &Inputs, small: &Inputs) {
    let times = |of: fn(&Inputs) -> &[u8]| of(large).len() as f64 / of(small).len() as f64;
    println!(
        "\n\
         Milliseconds, medians of {ROUNDS} by the wall clock. Ratio: ours by the other's. midicsv\n\
         (csvmidi in the row of text to file) is a whole process. Growth: ours by ours on a file\n\
         of {} bytes, {:.2} times smaller, or on its text of {} bytes, {:.2} times smaller, or on\n\
         its sheet, {:.2} times smaller; of a fold, on a file of as many tracks, 16 times smaller;\n\
         of the files of empty unknown chunks, on one like it, 16 times smaller.",
        small.file.len(),
        times(|inputs| &inputs.file),
        small.text.len(),
        times(|inputs| &inputs.text),
        times(|inputs| &inputs.sheet),
    );
}

/// The way through a spreadsheet beside the way through a text, ours, forth and back.
fn print_ways(rows: &[Row]) {
    let sum = |names: &[&str]| -> Duration {
        let rows = rows.iter().filter(|row| names.contains(&row.task.name));
        rows.map(|row| row.ours.median()).sum()
    };
    let sheet_way = sum(&[FILE_TO_SHEET, SHEET_TO_TEXT, SHEET_TEXT_TO_FILE]);
    let text_way = sum(&[FILE_TO_TEXT, TEXT_TO_FILE]);
    println!(
        "sheet way / text way: (file to sheet + sheet to text + text to file of that text) / \
         (file to text + text to file) = {} / {} = {} (limit 1.5)",
        milliseconds(sheet_way),
        milliseconds(text_way),
        ratio(sheet_way, text_way),
    );
}

fn milliseconds(time: Duration) -> String {
    format!("{:.2}", time.as_secs_f64() * 1e3)
}

fn ratio(ours: Duration, other: Duration) -> String {
    format!("{:.2}", ours.as_secs_f64() / other.as_secs_f64())
}

/// The load of the last minute, where the system tells it.
fn load() -> String {
    let loads = fs::read_to_string("/proc/loadavg").unwrap_or_default();
    loads.split(' ').next().filter(|load| !load.is_empty()).unwrap_or("unknown").to_owned()
}

fn machine() -> String {
    let told = fs::read_to_string("/proc/cpuinfo").unwrap_or_default();
    let model = told.lines().find_map(|line| line.strip_prefix("model name")?.split(": ").nth(1));
    let cores = thread::available_parallelism().map_or(0, usize::from);
    format!("{}, {cores} cores", model.unwrap_or("unknown processor"))
}
