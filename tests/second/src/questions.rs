//! The question stream: records in, one line of text out for each. A record is
//! its kind (one byte), the length of its body (two) and the body; numbers are
//! little-endian, their bytes are counted here, and the lists fill the rest:
//!
//! 1. raw: cores 1, core 1, Q 4, mark 1, rate 4, budgets 2 each.
//! 2. corners: cores 1, core 1, Q 4, mark 1, room 1, budgets 2 each.
//! 3. placement: cores 1, core 1, Q 4, mark 1, requests 4, W 2, start 2, room 1,
//!    intervals 1, lengths 2 each, budgets 2 each.
//! 4. span: cores 1, core 1, Q 4, mark 1, computing 4, requests 4, horizon 2,
//!    start 2, room 1, intervals 1, lengths 2 each, budgets 2 each.
//! 5. read: the rooms of six places 2 each, the file.
//! 6. write: cores 1, Q 4, mark 1, room 2, intervals 1, the counts of budgets
//!    and of the four lists 2 each, lengths 2 each, budgets 2 each, cores 1
//!    each, computing 4 each, requests 4 each, horizons 2 each.
//!
//! A line is the kind's word, the refusal or 0, the results, and after ` :` the
//! whole of each lent place. The results of `read` are the offset, cores, Q,
//! mark, intervals and workloads.

use std::fmt::{Display, Write as _};
use std::io::{self, BufReader, BufWriter, ErrorKind, Read, Write};

use crate::brute;
use crate::curve;
use crate::placement;
use crate::plan::{demand, GivenPlan, Head, Refusal};
use crate::planfile::{self, four_bytes, two_bytes, PlanFile, RefusedFile};
use crate::span;

/// How questions of kind 3 and 4 are answered.
#[derive(Clone, Copy, PartialEq, Eq)]
pub enum Method {
    BySlope,
    BySearch,
}

/// What a lent place holds in each of its numbers before the question.
const UNWRITTEN: u8 = 7;

/// Answers all whole records of the stream.
pub fn run(method: Method, input: impl Read, output: impl Write) -> io::Result<()> {
    let mut input = BufReader::new(input);
    let mut output = BufWriter::new(output);
    while let Some((kind, body)) = next_record(&mut input)? {
        writeln!(output, "{}", line(method, kind, &body))?;
        if input.buffer().is_empty() {
            output.flush()?;
        }
    }
    output.flush()
}

/// The kind and the body of the next record, if the stream has all of it.
fn next_record(input: &mut impl Read) -> io::Result<Option<(u8, Vec<u8>)>> {
    let mut head = [0; 3];
    if !read_whole(input, &mut head)? {
        return Ok(None);
    }
    let mut body = vec![0; usize::from(two_bytes(&head, 1))];
    let whole = read_whole(input, &mut body)?;
    Ok(whole.then_some((head[0], body)))
}

fn read_whole(input: &mut impl Read, bytes: &mut [u8]) -> io::Result<bool> {
    match input.read_exact(bytes) {
        Ok(()) => Ok(true),
        Err(error) if error.kind() == ErrorKind::UnexpectedEof => Ok(false),
        Err(error) => Err(error),
    }
}

/// The answer to one record. A record of no known kind, or with a body that
/// is no question of its kind, gives `malformed`.
pub fn line(method: Method, kind: u8, body: &[u8]) -> String {
    let mut body = Body(body);
    let line = match kind {
        1 => raw_line(&mut body),
        2 => corners_line(&mut body),
        3 => placement_line(method, &mut body),
        4 => span_line(method, &mut body),
        5 => read_line(&mut body),
        6 => write_line(&mut body),
        _ => None,
    };
    line.unwrap_or_else(|| "malformed".to_string())
}

/// The part of a record's body that has not been taken yet.
struct Body<'a>(&'a [u8]);

impl<'a> Body<'a> {
    fn take(&mut self, count: usize) -> Option<&'a [u8]> {
        if self.0.len() < count {
            return None;
        }
        let (taken, left) = self.0.split_at(count);
        self.0 = left;
        Some(taken)
    }

    fn one(&mut self) -> Option<u8> {
        self.take(1).map(|bytes| bytes[0])
    }

    fn two(&mut self) -> Option<u16> {
        self.take(2).map(|bytes| two_bytes(bytes, 0))
    }

    fn four(&mut self) -> Option<u32> {
        self.take(4).map(|bytes| four_bytes(bytes, 0))
    }

    fn list_of_two(&mut self, count: usize) -> Option<Vec<u16>> {
        (0..count).map(|_| self.two()).collect()
    }

    fn list_of_four(&mut self, count: usize) -> Option<Vec<u32>> {
        (0..count).map(|_| self.four()).collect()
    }

    /// Q and the mark, which follow the cores: 0 is a plain plan, all else a
    /// repeating one.
    fn rest_of_head(&mut self, cores: u8) -> Option<Head> {
        Some(Head {
            cores,
            slots_per_period: self.four()?,
            repeating: self.one()? != 0,
        })
    }

    /// The head of a plan with the core under analysis, which stands after
    /// the cores.
    fn head_and_core(&mut self) -> Option<(Head, u8)> {
        let cores = self.one()?;
        let core = self.one()?;
        Some((self.rest_of_head(cores)?, core))
    }

    /// All that is left, in numbers of two bytes.
    fn rest_of_two(&mut self) -> Option<Vec<u16>> {
        let count = self.0.len() / 2;
        let numbers = self.list_of_two(count)?;
        self.0.is_empty().then_some(numbers)
    }
}

/// The first word, the refusal's number or 0, and the results.
fn begun<const COUNT: usize>(word: &str, answer: Result<[u64; COUNT], Refusal>) -> String {
    let refusal = answer.err().map_or(0, Refusal::number);
    let mut line = format!("{word} {refusal}");
    for result in answer.unwrap_or([0; COUNT]) {
        line += &format!(" {result}");
    }
    line
}

/// Adds all the numbers of a lent place to a line.
fn add_place<Number: Display>(line: &mut String, place: &[Number]) {
    line.push_str(" :");
    for number in place {
        write!(line, " {number}").expect("a line takes all text");
    }
}

fn lent<Number: From<u8> + Clone>(room: usize) -> Vec<Number> {
    vec![Number::from(UNWRITTEN); room]
}

fn raw_line(body: &mut Body) -> Option<String> {
    let (head, core) = body.head_and_core()?;
    let rate = body.four()?;
    let budgets = body.rest_of_two()?;
    let answer = curve::raw_question(head, &budgets, core, rate);
    Some(begun("raw", answer.map(|stall| [u64::from(stall)])))
}

fn corners_line(body: &mut Body) -> Option<String> {
    let (head, core) = body.head_and_core()?;
    let mut place = lent(usize::from(body.one()?));
    let budgets = body.rest_of_two()?;
    let answer = curve::corners_question(head, &budgets, core, &mut place);
    let mut line = begun("corners", answer.map(|count| [count as u64]));
    add_place(&mut line, &place);
    Some(line)
}

fn placement_line(method: Method, body: &mut Body) -> Option<String> {
    let (head, core) = body.head_and_core()?;
    let requests = body.four()?;
    let span = body.two()?;
    let start = body.two()?;
    let mut place = lent(usize::from(body.one()?));
    let intervals = usize::from(body.one()?);
    let lengths = body.list_of_two(intervals)?;
    let budgets = body.rest_of_two()?;
    let plan = GivenPlan {
        head,
        lengths: &lengths,
        budgets: &budgets,
    };
    let question = placement::Question {
        plan,
        core,
        requests,
        span,
        start,
    };
    let answer = match method {
        Method::BySlope => question.answer(&mut place),
        Method::BySearch => match brute::placement(&question, &mut place) {
            Some(answer) => answer,
            None => return Some("skip".to_string()),
        },
    };
    let mut line = begun("placement", answer.map(|stall| [stall]));
    add_place(&mut line, &place);
    Some(line)
}

fn span_line(method: Method, body: &mut Body) -> Option<String> {
    let (head, core) = body.head_and_core()?;
    let computing = body.four()?;
    let requests = body.four()?;
    let horizon = body.two()?;
    let start = body.two()?;
    let mut place = lent(usize::from(body.one()?));
    let intervals = usize::from(body.one()?);
    let lengths = body.list_of_two(intervals)?;
    let budgets = body.rest_of_two()?;
    let question = span::Question {
        plan: GivenPlan {
            head,
            lengths: &lengths,
            budgets: &budgets,
        },
        core,
        computing,
        requests,
        horizon,
        start,
    };
    Some(answer_span(method, &question, &mut place))
}

fn answer_span(method: Method, question: &span::Question, place: &mut [u32]) -> String {
    let answer = match method {
        Method::BySlope => question.answer(place),
        Method::BySearch => match brute::span(question, place) {
            Some(answer) => answer,
            None => return "skip".to_string(),
        },
    };
    let results =
        |found: span::Answer| [u64::from(found.span), found.stall, u64::from(found.rounds)];
    let mut line = begun("span", answer.map(results));
    add_place(&mut line, place);
    line
}

/// The six lent places of the reader.
struct Places {
    lengths: Vec<u16>,
    budgets: Vec<u16>,
    workload_cores: Vec<u8>,
    computing: Vec<u32>,
    requests: Vec<u32>,
    horizons: Vec<u16>,
}

impl Places {
    fn take(body: &mut Body) -> Option<Self> {
        Some(Places {
            lengths: lent(usize::from(body.two()?)),
            budgets: lent(usize::from(body.two()?)),
            workload_cores: lent(usize::from(body.two()?)),
            computing: lent(usize::from(body.two()?)),
            requests: lent(usize::from(body.two()?)),
            horizons: lent(usize::from(body.two()?)),
        })
    }

    fn have_room(&self, file: &PlanFile) -> bool {
        self.lengths.len() >= file.lengths.len()
            && self.budgets.len() >= file.budgets.len()
            && self.workload_cores.len() >= file.workload_cores.len()
            && self.computing.len() >= file.computing.len()
            && self.requests.len() >= file.requests.len()
            && self.horizons.len() >= file.horizons.len()
    }

    fn write(&mut self, file: &PlanFile) {
        write_front(&mut self.lengths, &file.lengths);
        write_front(&mut self.budgets, &file.budgets);
        write_front(&mut self.workload_cores, &file.workload_cores);
        write_front(&mut self.computing, &file.computing);
        write_front(&mut self.requests, &file.requests);
        write_front(&mut self.horizons, &file.horizons);
    }

    fn add(&self, line: &mut String) {
        add_place(line, &self.lengths);
        add_place(line, &self.budgets);
        add_place(line, &self.workload_cores);
        add_place(line, &self.computing);
        add_place(line, &self.requests);
        add_place(line, &self.horizons);
    }
}

fn write_front<Number: Copy>(place: &mut [Number], numbers: &[Number]) {
    place[..numbers.len()].copy_from_slice(numbers);
}

/// Reads a file into the places; 11 comes last, with offset 0.
fn read_into(places: &mut Places, bytes: &[u8]) -> Result<PlanFile, RefusedFile> {
    let file = planfile::read(bytes)?;
    let room = demand(places.have_room(&file), Refusal::NoRoom);
    room.map_err(|refusal| RefusedFile { refusal, offset: 0 })?;
    places.write(&file);
    Ok(file)
}

fn read_line(body: &mut Body) -> Option<String> {
    let mut places = Places::take(body)?;
    let mut line = match read_into(&mut places, body.0) {
        Ok(file) => format!(
            "read 0 0 {} {} {} {} {}",
            file.head.cores,
            file.head.slots_per_period,
            u8::from(file.head.repeating),
            file.lengths.len(),
            file.workload_cores.len()
        ),
        Err(RefusedFile { refusal, offset }) => {
            format!("read {} {offset} 0 0 0 0 0", refusal.number())
        }
    };
    places.add(&mut line);
    Some(line)
}

fn write_line(body: &mut Body) -> Option<String> {
    let cores = body.one()?;
    let head = body.rest_of_head(cores)?;
    let mut place: Vec<u8> = lent(usize::from(body.two()?));
    let intervals = usize::from(body.one()?);
    let counts = body.list_of_two(5)?;
    let counts: Vec<usize> = counts.into_iter().map(usize::from).collect();
    let file = PlanFile {
        head,
        lengths: body.list_of_two(intervals)?,
        budgets: body.list_of_two(counts[0])?,
        workload_cores: body.take(counts[1])?.to_vec(),
        computing: body.list_of_four(counts[2])?,
        requests: body.list_of_four(counts[3])?,
        horizons: body.list_of_two(counts[4])?,
    };
    if !body.0.is_empty() {
        return None;
    }
    let answer = planfile::write(&file).and_then(|bytes| {
        demand(place.len() >= bytes.len(), Refusal::NoRoom)?;
        write_front(&mut place, &bytes);
        Ok([bytes.len() as u64])
    });
    let mut line = begun("write", answer);
    add_place(&mut line, &place);
    Some(line)
}
