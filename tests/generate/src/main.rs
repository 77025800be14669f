//! Makes questions and plan files from a seed, for `tests/compare` and
//! `bench/run`. The same seed gives the same output on every machine.

mod damage;
mod files;
mod fit;
mod marks;
mod measured;
mod measured_cycles;
mod measured_parked;
mod measured_started;
mod plans;
mod questions;
mod random;
mod refusals;
mod starts;
mod sweep;
mod workloads;
mod written;

use std::io::{self, BufRead, BufWriter, Read, Write};
use std::path::Path;
use std::process::ExitCode;

use sweep::Swept;

const USAGE: &str = "usage: generate questions | stored | small | runs SEED COUNT [FIRST]
       generate files SEED COUNT DIR
       generate measured DIR
       generate sweep [NUMBER]
       generate lines
       generate written < ANSWERS
       generate marks < QUESTIONS
       generate listed < FILE";

/// Question `number` under a seed.
type Stream = fn(u64, u64) -> Vec<u8>;

fn main() -> ExitCode {
    let words: Vec<String> = std::env::args().skip(1).collect();
    let words: Vec<&str> = words.iter().map(String::as_str).collect();
    match run(&words) {
        Some(Ok(())) => ExitCode::SUCCESS,
        Some(Err(error)) => {
            eprintln!("generate: {error}");
            ExitCode::FAILURE
        }
        None => {
            eprintln!("{USAGE}");
            ExitCode::from(2)
        }
    }
}

/// `None` stands for words that are not in the usage.
fn run(words: &[&str]) -> Option<io::Result<()>> {
    match words {
        ["files", seed, count, folder] => {
            let (seed, count) = (seed.parse().ok()?, count.parse().ok()?);
            Some(write_files(seed, count, Path::new(folder)))
        }
        ["measured", folder] => Some(measured::write_files(Path::new(folder))),
        ["sweep"] => Some(write_sweep(&sweep::all())),
        ["sweep", number] => {
            let number: usize = number.parse().ok()?;
            let asked = sweep::all().into_iter().nth(number.checked_sub(1)?)?;
            Some(write_sweep(&[asked]))
        }
        ["lines"] => Some(write_lines()),
        ["written"] => Some(write_written()),
        ["marks"] => Some(write_marks(marks::lines)),
        ["listed"] => Some(write_marks(marks::listed)),
        [mode, seed, count, first @ ..] => {
            let stream: Stream = match *mode {
                "questions" => questions::mixed,
                "stored" => questions::stored,
                "small" => questions::small,
                "runs" => questions::for_runs,
                _ => return None,
            };
            let first = match first {
                [] => 1,
                [first] => first.parse().ok()?,
                _ => return None,
            };
            let (seed, count) = (seed.parse().ok()?, count.parse().ok()?);
            Some(write_stream(stream, seed, first, count))
        }
        _ => None,
    }
}

/// Questions `first` to `first + count - 1`; each depends on the seed and its
/// own number alone.
fn write_stream(stream: Stream, seed: u64, first: u64, count: u64) -> io::Result<()> {
    let mut output = BufWriter::new(io::stdout().lock());
    for number in (first..).take(count as usize) {
        output.write_all(&stream(seed, number))?;
    }
    output.flush()
}

fn write_sweep(swept: &[Swept]) -> io::Result<()> {
    let mut output = BufWriter::new(io::stdout().lock());
    for file in swept {
        output.write_all(&file.question())?;
    }
    output.flush()
}

/// For each file of the sweep the answer of a writer that wrote it.
fn write_lines() -> io::Result<()> {
    let mut output = BufWriter::new(io::stdout().lock());
    for file in sweep::all() {
        writeln!(output, "{}", file.written())?;
    }
    output.flush()
}

/// A question to the writer for each file that a reader accepted.
fn write_written() -> io::Result<()> {
    let mut output = BufWriter::new(io::stdout().lock());
    for line in io::stdin().lock().lines() {
        if let Some(question) = written::question(&line?) {
            output.write_all(&question)?;
        }
    }
    output.flush()
}

/// A line for each question of a stream, or for each workload of a file.
fn write_marks(lines: fn(&[u8]) -> Vec<String>) -> io::Result<()> {
    let mut input = Vec::new();
    io::stdin().lock().read_to_end(&mut input)?;
    let mut output = BufWriter::new(io::stdout().lock());
    for line in lines(&input) {
        writeln!(output, "{line}")?;
    }
    output.flush()
}

/// Files `1.plan`, `2.plan` and so on.
fn write_files(seed: u64, count: u64, folder: &Path) -> io::Result<()> {
    std::fs::create_dir_all(folder)?;
    for number in 1..=count {
        let bytes = files::numbered(seed, number);
        std::fs::write(folder.join(format!("{number}.plan")), bytes)?;
    }
    Ok(())
}
