//! The numbers 01 works by hand, the listing, and what follows from them; then
//! the numbers worked for plans that repeat (request 2026-01) and for a core
//! that is parked (2026-02). Those for tasks that start later (2026-03) are in
//! `started`.

mod started;

use crate::brute::Cycle;
use crate::curve::{corners, corners_question, raw_question, Corner};
use crate::listing::listing;
use crate::placement;
use crate::plan::{GivenPlan, Head, Refusal};
use crate::planfile::{self, PlanFile};
use crate::questions::{line, Method};
use crate::shares::Part;
use crate::span::{self, Answer};

const BUDGETS: [u16; 4] = [2, 2, 5, 7];
const PLAIN: Head = Head {
    cores: 4,
    slots_per_period: 16,
    repeating: false,
};

fn raw_curve(core: u8) -> Vec<u32> {
    let budget = u32::from(BUDGETS[usize::from(core) - 1]);
    (0..=budget)
        .map(|rate| raw_question(PLAIN, &BUDGETS, core, rate).unwrap())
        .collect()
}

fn corner_rates(core: u8) -> Vec<u32> {
    let mut place = [7; 9];
    let count = corners_question(PLAIN, &BUDGETS, core, &mut place).unwrap();
    assert!(place[count..].iter().all(|&number| number == 7));
    place[..count].to_vec()
}

#[test]
fn curves_p1_to_p3() {
    assert_eq!(raw_curve(1), [0, 3, 14]);
    assert_eq!(corner_rates(1), [0, 2]);
    assert_eq!(raw_curve(3), [0, 3, 6, 7, 8, 11]);
    assert_eq!(corner_rates(3), [0, 2, 5]);
    assert_eq!(raw_curve(4), [0, 3, 6, 7, 8, 9, 9, 9]);
    assert_eq!(corner_rates(4), [0, 2, 5, 7]);
}

/// Span, stall and rounds on one interval of 20 periods.
fn asked(core: u8, computing: u32, requests: u32, horizon: u16) -> Result<Answer, Refusal> {
    let question = span::Question {
        plan: GivenPlan {
            head: PLAIN,
            lengths: &[20],
            budgets: &BUDGETS,
        },
        core,
        computing,
        requests,
        horizon,
        start: 0,
    };
    let mut place = [7];
    let answer = question.answer(&mut place);
    let written = if answer.is_ok() { requests } else { 7 };
    assert_eq!(place, [written]);
    answer
}

fn found(span: u32, stall: u64, rounds: u32) -> Result<Answer, Refusal> {
    Ok(Answer {
        span,
        stall,
        rounds,
    })
}

#[test]
fn spans_p4_to_p8() {
    assert_eq!(asked(3, 40, 35, 20), found(10, 85, 3));
    assert_eq!(asked(3, 40, 35, 10), found(10, 85, 3));
    assert_eq!(asked(3, 40, 35, 9), Err(Refusal::NoSpan));
    assert_eq!(asked(3, 17, 0, 20), found(2, 0, 1));
    assert_eq!(asked(3, 16, 0, 20), found(1, 0, 1));
    assert_eq!(asked(3, 1, 4, 20), found(1, 10, 1));
    assert_eq!(asked(3, 1, 5, 20), found(2, 14, 2));
    assert_eq!(asked(1, 1, 1, 20), found(1, 7, 1));
    assert_eq!(asked(1, 1, 2, 20), found(2, 14, 2));
}

#[test]
fn span_p9() {
    let question = span::Question {
        plan: GivenPlan {
            head: Head { cores: 1, ..PLAIN },
            lengths: &[20],
            budgets: &[16],
        },
        core: 1,
        computing: 10,
        requests: 22,
        horizon: 20,
        start: 0,
    };
    let answer = question.answer(&mut [7]).unwrap();
    assert_eq!((answer.span, answer.stall), (2, 0));
}

const LISTED_FILE: [u8; 74] = [
    6, 0, 1, 0, 4, 0, 16, 0, 2, 0, // plan
    12, 0, 2, 0, 15, 0, 1, 0, 2, 0, 2, 0, 5, 0, 7, 0, // interval 1
    12, 0, 2, 0, 15, 0, 4, 0, 4, 0, 4, 0, 4, 0, 4, 0, // interval 2
    12, 0, 3, 0, 3, 0, 10, 0, 0, 0, 10, 0, 0, 0, 5, 0, // workload 1
    12, 0, 3, 0, 3, 0, 10, 0, 0, 0, 10, 0, 0, 0, 3, 0, // workload 2
];

#[test]
fn listing_p10() {
    let lines = "plan 4 16 2 5\n\
                 1 span 4 stall 30 rounds 3 requests 2 8\n\
                 2 refused 12\n\
                 end 2\n";
    assert_eq!(listing(&LISTED_FILE), lines);
    assert_eq!(listing(&[]), "file refused 20 at 0\n");
    assert_eq!(listing(&LISTED_FILE[..26]), "file refused 20 at 26\n");
    assert_eq!(listing(&LISTED_FILE[..73]), "file refused 20 at 58\n");
}

#[test]
fn refused_budgets() {
    let raw = raw_question(PLAIN, &[2, 2, 5, 6], 1, 0);
    assert_eq!(raw, Err(Refusal::BudgetSum));
}

#[test]
fn example_of_004_section_6() {
    let question = placement::Question {
        plan: GivenPlan {
            head: PLAIN,
            lengths: &[5, 3, 7],
            budgets: &[2, 2, 5, 7, 2, 3, 7, 4, 5, 5, 1, 5],
        },
        core: 3,
        requests: 25,
        span: 6,
        start: 0,
    };
    let mut place = [7; 4];
    assert_eq!(question.answer(&mut place), Ok(58));
    assert_eq!(place, [22, 3, 0, 7]);
}

/// 01's own description of the corners, for the first of three cores.
fn check_corners(budgets: [u16; 3]) {
    let given = GivenPlan {
        head: Head {
            cores: 3,
            slots_per_period: budgets.iter().map(|&budget| u32::from(budget)).sum(),
            repeating: false,
        },
        lengths: &[1],
        budgets: &budgets,
    };
    let seen = given.judge().ok().unwrap().seen_from(1).ok().unwrap();
    let kept = corners(&seen, 0);
    assert_eq!((kept[0].rate, kept[0].stall), (0, seen.raw_stall(0, 0)));
    assert_eq!(kept[kept.len() - 1].rate, u32::from(budgets[0]));
    let rise = |pair: &[Corner]| pair[1].stall - pair[0].stall;
    let run = |pair: &[Corner]| pair[1].rate - pair[0].rate;
    for three in kept.windows(3) {
        let (before, after) = (&three[..2], &three[1..]);
        assert!(rise(before) * run(after) > rise(after) * run(before));
    }
    for pair in kept.windows(2) {
        assert_eq!(pair[1].stall, seen.raw_stall(0, pair[1].rate));
        for rate in pair[0].rate..=pair[1].rate {
            let gained = seen.raw_stall(0, rate) - pair[0].stall;
            assert!(gained * run(pair) <= rise(pair) * (rate - pair[0].rate));
        }
    }
}

#[test]
fn corners_of_all_small_budgets() {
    for slots in 1..=24 {
        for own in 0..=slots {
            for other in 0..=slots - own {
                check_corners([own, other, slots - own - other]);
            }
        }
    }
}

#[test]
fn longest_file() {
    let mut file = PlanFile {
        head: Head { cores: 8, ..PLAIN },
        lengths: vec![1; 64],
        budgets: vec![2; 64 * 8],
        workload_cores: vec![1; 256],
        computing: vec![1; 256],
        requests: vec![0; 256],
        horizons: vec![1; 256],
    };
    let bytes = planfile::write(&file).unwrap();
    assert_eq!(bytes.len(), 5_642);
    assert!(listing(&bytes).ends_with("\nend 256\n"));
    let mut longer = bytes.clone();
    longer.extend(&bytes[5_642 - 16..]);
    assert_eq!(listing(&longer), "file refused 25 at 5642\n");
    longer.truncate(5_645);
    assert_eq!(listing(&longer), "file refused 20 at 5642\n");
    file.horizons.push(1);
    assert_eq!(planfile::write(&file).err(), Some(Refusal::Workloads));
}

/// The mark of a plan in a question.
const MARK: u8 = 1;

/// The listing's plan: 1 period of 2 2 5 7, then 4 periods of 4 4 4 4.
const LISTED_LENGTHS: [u16; 2] = [1, 4];
const LISTED_BUDGETS: [u16; 8] = [2, 2, 5, 7, 4, 4, 4, 4];

fn in_bytes(numbers: &[u16]) -> Vec<u8> {
    let bytes = numbers.iter().flat_map(|number| number.to_le_bytes());
    bytes.collect()
}

/// The line that both ways to it give for one record.
fn both_ways(kind: u8, body: &[u8]) -> String {
    let by_slope = line(Method::BySlope, kind, body);
    assert_eq!(line(Method::BySearch, kind, body), by_slope);
    by_slope
}

/// A plan with Q = 16, the core under analysis and the start.
#[derive(Clone, Copy)]
struct Asked<'a> {
    mark: u8,
    core: u8,
    start: u16,
    lengths: &'a [u16],
    budgets: &'a [u16],
}

impl Asked<'_> {
    /// Span, stall, rounds and placement.
    fn span(&self, computing: u32, requests: u32, horizon: u16) -> String {
        let mut values = computing.to_le_bytes().to_vec();
        values.extend(requests.to_le_bytes());
        both_ways(4, &self.body(&values, horizon))
    }

    /// Stall and placement at a given span.
    fn placement(&self, requests: u32, span: u16) -> String {
        both_ways(3, &self.body(&requests.to_le_bytes(), span))
    }

    fn body(&self, values: &[u8], periods: u16) -> Vec<u8> {
        let cores = self.budgets.len() / self.lengths.len();
        let mut body = vec![cores as u8, self.core, 16, 0, 0, 0, self.mark];
        body.extend(values);
        body.extend(in_bytes(&[periods, self.start]));
        body.extend([self.lengths.len() as u8; 2]);
        body.extend(in_bytes(self.lengths));
        body.extend(in_bytes(self.budgets));
        body
    }
}

/// Core 3 of the listing's plan.
fn listed(mark: u8) -> Asked<'static> {
    Asked {
        mark,
        core: 3,
        start: 0,
        lengths: &LISTED_LENGTHS,
        budgets: &LISTED_BUDGETS,
    }
}

#[test]
fn repeating_spans() {
    for mark in [0, MARK, 255] {
        assert_eq!(listed(mark).span(10, 10, 5), "span 0 4 30 3 : 2 8");
        assert_eq!(listed(mark).span(10, 10, 3), "span 12 0 0 0 : 7 7");
        assert_eq!(listed(mark).span(10, 10, 0), "span 10 0 0 0 : 7 7");
    }
    for horizon in [12, 13, 65_535] {
        let line = listed(MARK).span(40, 35, horizon);
        assert_eq!(line, "span 0 12 105 4 : 6 29");
    }
    assert_eq!(listed(MARK).span(40, 35, 11), "span 12 0 0 0 : 7 7");
    for horizon in [6, 11, 65_535] {
        assert_eq!(listed(0).span(40, 35, horizon), "span 10 0 0 0 : 7 7");
    }
    let line = listed(MARK).span(100, 100, 65_535);
    assert_eq!(line, "span 0 32 300 4 : 14 86");
}

#[test]
fn repeating_placements() {
    let placed = |mark, span| listed(mark).placement(25, span);
    assert_eq!(placed(MARK, 12), "placement 0 75 : 6 19");
    assert_eq!(placed(MARK, 65_535), "placement 0 75 : 25 0");
    assert_eq!(placed(MARK, 0), "placement 10 0 : 7 7");
    assert_eq!(placed(0, 6), "placement 10 0 : 7 7");
    for span in 1..=5 {
        assert_eq!(placed(MARK, span), placed(0, span));
    }
}

/// The shares of a span that both ways to them give.
fn both_shares(lengths: &[u16], start: u16, span: u16) -> Vec<u64> {
    let mut shares = vec![7; lengths.len()];
    Part::new(lengths, start).divide(u32::from(span), &mut shares);
    let counted = Cycle::new(lengths).shares(lengths.len(), start, u64::from(span));
    assert_eq!(counted, shares);
    shares
}

/// The rule of request 2026-01: the length for each full cycle, and the part of
/// the last one.
fn shares_without_start(lengths: &[u16], span: u16) -> Vec<u64> {
    let cycle: u16 = lengths.iter().sum();
    let mut left = span % cycle;
    let mut shares = Vec::new();
    for &length in lengths {
        let part = left.min(length);
        shares.push(u64::from(span / cycle * length + part));
        left -= part;
    }
    shares
}

#[test]
fn repeating_shares() {
    for (span, shares) in [(10, [2, 8]), (11, [3, 8]), (12, [3, 9])] {
        assert_eq!(both_shares(&LISTED_LENGTHS, 0, span), shares);
    }
    for span in (1..=2_000).chain(65_500..=65_535) {
        let shares = both_shares(&LISTED_LENGTHS, 0, span);
        assert_eq!(shares, shares_without_start(&LISTED_LENGTHS, span));
    }
}

/// P4 and P5 again, on a cycle of one period.
#[test]
fn repeating_period() {
    let period = Asked {
        lengths: &[1],
        budgets: &BUDGETS,
        ..listed(MARK)
    };
    assert_eq!(period.span(40, 35, 20), "span 0 10 85 3 : 35");
    assert_eq!(period.span(40, 35, 10), "span 0 10 85 3 : 35");
    assert_eq!(period.span(40, 35, 9), "span 12 0 0 0 : 7");
}

#[test]
fn one_interval_questions_do_not_read_the_mark() {
    for mark in [0, MARK] {
        let mut raw = vec![4, 3, 16, 0, 0, 0, mark, 4, 0, 0, 0];
        raw.extend(in_bytes(&BUDGETS));
        assert_eq!(both_ways(1, &raw), "raw 0 8");
        let mut corners = vec![4, 3, 16, 0, 0, 0, mark, 4];
        corners.extend(in_bytes(&BUDGETS));
        assert_eq!(both_ways(2, &corners), "corners 0 3 : 0 2 5 7");
    }
}

/// The answer of the writer, without its place, for one interval of one period
/// and these numbers of workload cores and other workload values.
fn written(mark: u8, room: u16, budgets: &[u16], [cores, others]: [u16; 2]) -> String {
    let mut body = vec![4, 16, 0, 0, 0, mark];
    body.extend(room.to_le_bytes());
    body.push(1);
    body.extend(in_bytes(&[4, cores, others, others, others, 1]));
    body.extend(in_bytes(budgets));
    body.extend(vec![1; usize::from(cores) + 10 * usize::from(others)]);
    let line = both_ways(6, &body);
    line.split(" :").next().unwrap_or_default().to_string()
}

#[test]
fn repeating_plan_is_not_written() {
    assert_eq!(written(0, 42, &BUDGETS, [1, 1]), "write 0 42");
    assert_eq!(written(0, 41, &BUDGETS, [1, 1]), "write 11 0");
    assert_eq!(written(0, 0, &BUDGETS, [1, 0]), "write 25 0");
    for mark in [MARK, 255] {
        assert_eq!(written(mark, 42, &BUDGETS, [1, 1]), "write 23 0");
        assert_eq!(written(mark, 0, &BUDGETS, [1, 0]), "write 23 0");
        assert_eq!(written(mark, 42, &[2, 2, 5, 6], [1, 1]), "write 5 0");
    }
}

#[test]
fn read_plan_is_plain() {
    let read = |file: &[u8]| {
        let rooms = in_bytes(&[2, 8, 2, 2, 2, 2]);
        let line = both_ways(5, &[&rooms, file].concat());
        line.split(" :").next().unwrap_or_default().to_string()
    };
    assert_eq!(read(&LISTED_FILE), "read 0 0 4 16 0 2 2");
    let mut marked = LISTED_FILE;
    marked[5] = MARK;
    assert_eq!(read(&marked), "read 23 0 0 0 0 0 0");
}

/// 2 periods of 0 4 6 6, 3 of 2 2 5 7 and 1 of 0 5 5 6: core 1 is parked in
/// the first interval and in the last.
const PARKED_LENGTHS: [u16; 3] = [2, 3, 1];
const PARKED_BUDGETS: [u16; 12] = [0, 4, 6, 6, 2, 2, 5, 7, 0, 5, 5, 6];

fn parked(mark: u8) -> Asked<'static> {
    Asked {
        mark,
        core: 1,
        start: 0,
        lengths: &PARKED_LENGTHS,
        budgets: &PARKED_BUDGETS,
    }
}

#[test]
fn parked_curve() {
    let budgets = &PARKED_BUDGETS[..4];
    let raw = |core, rate| raw_question(PLAIN, budgets, core, rate);
    assert_eq!(raw(1, 0), Ok(16));
    assert_eq!(raw(1, 1), Err(Refusal::RateAboveBudget));
    assert_eq!(raw(2, 0), Ok(0));
    let mut place = [7; 3];
    let count = corners_question(PLAIN, budgets, 1, &mut place);
    assert_eq!((count, place), (Ok(1), [0, 7, 7]));
    let count = corners_question(PLAIN, budgets, 1, &mut []);
    assert_eq!(count, Err(Refusal::NoRoom));
    let count = corners_question(PLAIN, budgets, 2, &mut place);
    assert_eq!((count, place), (Ok(2), [0, 4, 7]));
}

#[test]
fn parked_spans() {
    let span = |computing, requests| parked(0).span(computing, requests, 6);
    assert_eq!(span(1, 0), "span 0 3 32 3 : 0 0 0");
    assert_eq!(span(17, 0), "span 0 4 32 2 : 0 0 0");
    assert_eq!(span(1, 2), "span 0 4 46 4 : 0 2 0");
    assert_eq!(span(10, 1), "span 0 4 39 4 : 0 1 0");
    assert_eq!(span(1, 6), "span 12 0 0 0 : 7 7 7");
    assert_eq!(parked(0).span(1, 0, 3), "span 0 3 32 3 : 0 0 0");
    assert_eq!(parked(0).span(1, 0, 2), "span 12 0 0 0 : 7 7 7");
}

#[test]
fn parked_placements() {
    let placed = |span| parked(0).placement(2, span);
    assert_eq!(placed(1), "placement 0 16 : 0 0 0");
    assert_eq!(placed(2), "placement 0 32 : 0 0 0");
    assert_eq!(placed(3), "placement 0 46 : 0 2 0");
    assert_eq!(placed(5), "placement 0 46 : 0 2 0");
    assert_eq!(placed(6), "placement 0 62 : 0 2 0");
    assert_eq!(parked(0).placement(0, 6), "placement 0 48 : 0 0 0");
}

#[test]
fn parked_in_every_cycle() {
    let line = parked(MARK).span(20, 4, 65_535);
    assert_eq!(line, "span 0 9 108 6 : 0 4 0");
}

#[test]
fn parked_everywhere() {
    let plan = Asked {
        mark: 0,
        core: 1,
        start: 0,
        lengths: &[5],
        budgets: &[0, 16],
    };
    assert_eq!(plan.span(1, 0, 5), "span 12 0 0 0 : 7");
    assert_eq!(plan.placement(3, 5), "placement 0 80 : 0");
}

#[test]
fn parked_listing() {
    let file = PlanFile {
        head: PLAIN,
        lengths: PARKED_LENGTHS.to_vec(),
        budgets: PARKED_BUDGETS.to_vec(),
        workload_cores: vec![1, 1, 2],
        computing: vec![1, 1, 1],
        requests: vec![2, 6, 0],
        horizons: vec![6, 6, 6],
    };
    let lines = "plan 4 16 3 6\n\
                 1 span 4 stall 46 rounds 4 requests 0 2 0\n\
                 2 refused 12\n\
                 3 span 1 stall 0 rounds 1 requests 0 0 0\n\
                 end 3\n";
    assert_eq!(listing(&planfile::write(&file).unwrap()), lines);
}
