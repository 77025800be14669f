//! Makes lawful runs for answered span questions and finds whether one
//! outlasts its span: `runs SEED QUESTIONS ANSWERS`. The questions are a
//! stream of `generate runs`; the answers are the lines a program gave.

mod makers;
#[path = "../../generate/src/random.rs"]
#[allow(dead_code)]
mod random;
mod run;
mod search;
mod task;

use std::process::ExitCode;

use random::Random;
use run::{Period, Run};
use search::Search;
use task::Task;

/// Random runs made for each task.
const RANDOM_RUNS: usize = 8;
/// Tasks shown in the table.
const SHOWN: usize = 10;
/// Findings that are printed; the others are counted.
const PRINTED: usize = 5;

const MAKERS: [&str; 6] = ["greedy", "lazy", "sparing", "spread", "random", "search"];

/// The longest run that each maker made; `None`: it made none.
type Longest = [Option<usize>; MAKERS.len()];

/// Tasks of some kind: how many, for how many of these all runs were searched,
/// and for how many a run reached the span.
#[derive(Default)]
struct Examined {
    tasks: usize,
    searched: usize,
    reached: usize,
}

impl Examined {
    fn add(&mut self, searched: bool, reached: bool) {
        self.tasks += 1;
        self.searched += usize::from(searched);
        self.reached += usize::from(reached);
    }

    fn print(&self, kind: &str) {
        println!(
            "{} spans {kind}: {} searched, {} reached",
            self.tasks, self.searched, self.reached
        );
    }
}

#[derive(Default)]
struct Tally {
    asked: usize,
    runs: usize,
    too_long: usize,
    full: usize,
    unfinished: usize,
    unlawful: usize,
    all: Examined,
    /// Those on repeating plans whose span has more periods than one cycle.
    past_cycle: Examined,
    /// Those with parked periods in the span.
    parked: Examined,
    /// Those with a start above 0, and of these the ones on repeating plans
    /// whose span goes on after the first cycle's end.
    started: Examined,
    started_past_end: Examined,
    /// Runs that compute in a parked period, and runs with one of stall alone.
    parked_computing: usize,
    parked_stall: usize,
    /// The largest number of full cycles in a span.
    cycles: usize,
    rows: Vec<String>,
}

impl Tally {
    fn examine(&mut self, number: usize, task: &Task, random: &mut Random) {
        let mut longest: Longest = [None; MAKERS.len()];
        for (maker, run) in runs(task, random) {
            self.judge(number, task, MAKERS[maker], &run);
            longest[maker] = longest[maker].max(Some(run.len()));
        }
        let searched = longest[MAKERS.len() - 1].is_some();
        let reached = longest.iter().max() >= Some(&Some(task.span));
        self.all.add(searched, reached);
        if task.span > task.total_periods() {
            self.past_cycle.add(searched, reached);
        }
        if task.parked_periods() > 0 {
            self.parked.add(searched, reached);
        }
        if task.start > 0 {
            self.started.add(searched, reached);
            if task.span > task.first_cycle() {
                self.started_past_end.add(searched, reached);
            }
        }
        self.cycles = self.cycles.max(task.span / task.total_periods());
        // Where the greedy run lasts as long, the stall makes no difference.
        if self.rows.len() < SHOWN && longest[0] < Some(task.span) {
            self.rows.push(row(number, task, &longest));
        }
    }

    fn judge(&mut self, number: usize, task: &Task, maker: &str, run: &Run) {
        self.runs += 1;
        let full = run::is_full_span(task, run);
        self.full += usize::from(full);
        self.parked_computing += usize::from(run::computes_parked(task, run));
        self.parked_stall += usize::from(!run.iter().all(Period::has_work));
        let finding = if let Some(rule) = run::broken_rule(task, run) {
            self.unlawful += 1;
            format!("is not lawful: {rule}")
        } else if !run::is_within(task, run) {
            self.too_long += 1;
            format!("has {} periods, the span {}", run.len(), task.span)
        } else if full && !run::is_done(task, run) {
            self.unfinished += 1;
            format!(
                "fills all {} periods of the span and has work left",
                task.span
            )
        } else {
            return;
        };
        if self.findings() <= PRINTED {
            println!("question {number}: a {maker} run {finding}");
        }
    }

    fn findings(&self) -> usize {
        self.too_long + self.unfinished + self.unlawful
    }

    fn print(&self) {
        let columns =
            "question | cores | Q | T | repeats | start | computing | requests | span | parked";
        println!("| {columns} | {} |", MAKERS.join(" | "));
        println!("|{}", "---|".repeat(10 + MAKERS.len()));
        for row in &self.rows {
            println!("{row}");
        }
        self.print_sums();
    }

    fn print_sums(&self) {
        println!(
            "{} questions, {} with a span, {} of these searched over all runs",
            self.asked, self.all.tasks, self.all.searched
        );
        println!(
            "{} lawful runs, {} of them full over the span; the span was reached for {} of {}",
            self.runs - self.unlawful,
            self.full,
            self.all.reached,
            self.all.tasks
        );
        self.past_cycle.print("past one cycle");
        println!("{} full cycles in a span at most", self.cycles);
        self.parked.print("with parked periods");
        println!(
            "in parked periods {} runs compute, and {} runs only stall",
            self.parked_computing, self.parked_stall
        );
        self.started.print("with a start above 0");
        self.started_past_end
            .print("with a start above 0 that end in a later cycle");
        println!(
            "{} runs too long, {} full with work left, {} not lawful",
            self.too_long, self.unfinished, self.unlawful
        );
    }
}

/// Runs of every maker, each with the maker's place in `MAKERS`.
fn runs(task: &Task, random: &mut Random) -> Vec<(usize, Run)> {
    let mut runs = vec![
        (0, makers::greedy(task)),
        (1, makers::lazy(task)),
        (2, makers::sparing(task)),
        (3, makers::spread(task)),
    ];
    for _ in 0..RANDOM_RUNS {
        runs.push((4, makers::random(task, random)));
    }
    if let Some(search) = Search::new(task) {
        runs.push((5, search.longest()));
        let full = search.full_with_least_work(task.span);
        runs.extend(full.map(|run| (5, run)));
    }
    runs
}

fn row(number: usize, task: &Task, longest: &Longest) -> String {
    let periods = task.total_periods();
    let repeats = if task.repeating { "yes" } else { "no" };
    let mut row = format!(
        "| {number} | {} | {} | {periods} | {repeats} | {} | {} | {} | {} | {} |",
        task.cores,
        task.slots,
        task.start,
        task.computing,
        task.requests,
        task.span,
        task.parked_periods()
    );
    for made in longest {
        row += &made.map_or(" - |".to_string(), |made| format!(" {made} |"));
    }
    row
}

/// The kind and the body of each record.
fn records(mut bytes: &[u8]) -> Vec<(u8, &[u8])> {
    let mut records = Vec::new();
    while let [kind, low, high, rest @ ..] = bytes {
        let length = usize::from(u16::from_le_bytes([*low, *high]));
        if rest.len() < length {
            break;
        }
        records.push((*kind, &rest[..length]));
        bytes = &rest[length..];
    }
    records
}

fn examined(seed: u64, questions: &[u8], answers: &str) -> Result<Tally, String> {
    let mut tally = Tally::default();
    let records = records(questions);
    let lines: Vec<&str> = answers.lines().collect();
    if records.len() != lines.len() {
        let (asked, answered) = (records.len(), lines.len());
        return Err(format!("{asked} questions, {answered} answers"));
    }
    for (at, (&(kind, body), line)) in records.iter().zip(lines).enumerate() {
        tally.asked += 1;
        if let Some(task) = Task::new(kind, body, line)? {
            let mut random = Random::new(seed, at as u64);
            tally.examine(at + 1, &task, &mut random);
        }
    }
    Ok(tally)
}

fn read_and_examine(words: &[String]) -> Result<Tally, String> {
    let [seed, questions, answers] = words else {
        return Err("usage: runs SEED QUESTIONS ANSWERS".to_string());
    };
    let seed = seed.parse().map_err(|_| "a seed that is no number")?;
    let questions = std::fs::read(questions).map_err(|error| error.to_string())?;
    let answers = std::fs::read_to_string(answers).map_err(|error| error.to_string())?;
    examined(seed, &questions, &answers)
}

fn main() -> ExitCode {
    let words: Vec<String> = std::env::args().skip(1).collect();
    match read_and_examine(&words) {
        Ok(tally) => {
            tally.print();
            ExitCode::from(u8::from(tally.findings() > 0))
        }
        Err(error) => {
            eprintln!("runs: {error}");
            ExitCode::from(2)
        }
    }
}
