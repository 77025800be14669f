//! What `tests/compare` counts of the questions in a stream, and of the workloads
//! in a plan file, taken from their records.

use crate::files::{HEAD, INTERVAL};
use crate::plans::{CorePlan, Plan};
use crate::questions::{CORNERS, PLACEMENT, RAW, SPAN};

/// What is said of a core that is not parked.
const NOT_PARKED: &str = "none 0 0 000";

/// A line for each whole record: the mark of its plan, 0 or 1; T; the given
/// span or the horizon; the start, and where it lies (`place_of_start`, none in
/// a plan that is refused or ends before); where the core is parked
/// (`parked_words`). What a question does not have is 0; the one-interval
/// questions have T = 1.
pub fn lines(mut stream: &[u8]) -> Vec<String> {
    let mut lines = Vec::new();
    while let [kind, low, high, rest @ ..] = stream {
        let length = usize::from(u16::from_le_bytes([*low, *high]));
        if rest.len() < length {
            break;
        }
        lines.push(line(*kind, &rest[..length]));
        stream = &rest[length..];
    }
    lines
}

fn line(kind: u8, body: &[u8]) -> String {
    let (times, lengths, budgets) = match kind {
        RAW => ([0; 2], vec![1], in_twos(&body[11..])),
        CORNERS => ([0; 2], vec![1], in_twos(&body[8..])),
        PLACEMENT => times_and_lists(&body[11..]),
        SPAN => times_and_lists(&body[15..]),
        _ => return format!("0 0 0 0 none {NOT_PARKED}"),
    };
    let plan = Plan {
        cores: body[0],
        slots_per_period: 0,
        mark: body[6],
        lengths,
        budgets,
    };
    plan_line(plan, body[1], times)
}

/// The given span or the horizon with the start, the lengths and the budgets.
/// The record has the room and the number of intervals between them.
fn times_and_lists(body: &[u8]) -> ([u16; 2], Vec<u16>, Vec<u16>) {
    let (before, lists) = body.split_at(6);
    let times = in_twos(before);
    let mut lengths = in_twos(lists);
    let budgets = lengths.split_off(usize::from(before[5]));
    ([times[0], times[1]], lengths, budgets)
}

fn in_twos(bytes: &[u8]) -> Vec<u16> {
    let pairs = bytes.chunks_exact(2);
    let numbers = pairs.map(|pair| u16::from_le_bytes([pair[0], pair[1]]));
    numbers.collect()
}

fn plan_line(plan: Plan, core: u8, [periods, start]: [u16; 2]) -> String {
    let repeating = u8::from(plan.mark != 0);
    let total = plan.total_periods();
    let lawful = (1..=plan.cores).contains(&core)
        && plan.lengths.iter().all(|&length| length > 0)
        && plan.budgets.len() == plan.lengths.len() * usize::from(plan.cores)
        && u64::from(start) < total;
    let (mut place, mut parked) = ("none", NOT_PARKED.to_string());
    if lawful {
        let seen = CorePlan::plain(plan, core).starting(u64::from(start));
        place = place_of_start(&seen);
        parked = parked_words(&seen, u64::from(periods));
    }
    format!("{repeating} {total} {periods} {start} {place} {parked}")
}

/// Is the start at the border of two intervals, or inside one?
fn place_of_start(seen: &CorePlan) -> &'static str {
    let before = seen.periods_before(seen.interval_of(seen.start));
    match before == seen.start {
        true => "border",
        false => "inside",
    }
}

/// The intervals in which the core is parked: none, every, or which of first,
/// middle and last. The first parked period from the start on, and that of the
/// plan, each counted from 1, or 0 where there is none. Of the last two periods
/// of the span and the one behind it, whether the core is parked there.
fn parked_words(seen: &CorePlan, span: u64) -> String {
    let parked = seen.parked_intervals();
    let [first, ..] = parked[..] else {
        return NOT_PARKED.to_string();
    };
    let last = seen.plan.lengths.len() - 1;
    let kinds = parked.iter().map(|&interval| match interval {
        _ if parked.len() == last + 1 => "every",
        0 => "first",
        _ if interval == last => "last",
        _ => "middle",
    });
    let mut kinds: Vec<&str> = kinds.collect();
    kinds.dedup();
    let ends = [span.saturating_sub(1), span, span + 1]
        .map(|period| u8::from(is_parked_in(seen, period)).to_string());
    format!(
        "{} {} {} {}",
        kinds.join("+"),
        first_parked(seen),
        seen.periods_before(first) + 1,
        ends.concat()
    )
}

/// The first parked period, counted from 1 at the start; 0 if all of them are
/// before the start of a plain plan.
fn first_parked(seen: &CorePlan) -> u64 {
    let begins = seen.parked_intervals().into_iter().map(|interval| {
        let begin = seen.periods_before(interval);
        let end = begin + u64::from(seen.plan.lengths[interval]);
        match end > seen.start {
            true => begin.max(seen.start),
            false => begin + seen.total_periods(),
        }
    });
    let met = begins.filter(|&begin| begin < seen.total_periods() || seen.is_repeating());
    met.min().map_or(0, |begin| begin - seen.start + 1)
}

/// Is the core parked in a period, counted from 1 at the start? A plain plan
/// ends.
fn is_parked_in(seen: &CorePlan, period: u64) -> bool {
    if period == 0 || (period > seen.reach && !seen.is_repeating()) {
        return false;
    }
    let (before, with_it) = (seen.shares(period - 1), seen.shares(period));
    let mut parked = seen.parked_intervals().into_iter();
    parked.any(|interval| before[interval] < with_it[interval])
}

/// A line of the same kind for each workload of a sound plan file.
pub fn listed(mut file: &[u8]) -> Vec<String> {
    let mut plan = Plan {
        cores: 0,
        slots_per_period: 0,
        mark: 0,
        lengths: Vec::new(),
        budgets: Vec::new(),
    };
    let mut lines = Vec::new();
    while let [low, high, kind, _, rest @ ..] = file {
        let length = usize::from(u16::from_le_bytes([*low, *high]));
        let (body, behind) = rest.split_at(length);
        match u16::from(*kind) {
            HEAD => plan.cores = body[0],
            INTERVAL => add_interval(&mut plan, body),
            _ => {
                let times = [in_twos(&body[10..])[0], 0];
                lines.push(plan_line(plan.clone(), body[0], times));
            }
        }
        file = behind;
    }
    lines
}

fn add_interval(plan: &mut Plan, body: &[u8]) {
    let numbers = in_twos(&body[2..]);
    let mut listed = numbers[1..].iter().copied();
    plan.lengths.push(numbers[0]);
    for core in 0..plan.cores {
        let budget = match body[0] >> core & 1 {
            0 => None,
            _ => listed.next(),
        };
        plan.budgets.push(budget.unwrap_or(0));
    }
}
