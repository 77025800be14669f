//! Workloads for a sound plan, aimed at the borders of the answers.

use crate::fit::Curves;
use crate::plans::{parts, CorePlan, MOST_OF_A_WORKLOAD};
use crate::random::Random;

#[derive(Clone, Copy)]
pub struct Workload {
    pub core: u8,
    pub computing: u32,
    pub requests: u32,
    pub horizon: u16,
}

fn workload(seen: &CorePlan, computing: u64, requests: u64, horizon: u64) -> Workload {
    Workload {
        core: seen.core,
        computing: computing.clamp(1, MOST_OF_A_WORKLOAD) as u32,
        requests: requests.min(MOST_OF_A_WORKLOAD) as u32,
        horizon: horizon.clamp(1, seen.reach) as u16,
    }
}

/// A span of 1 to as far as the plan reaches, from the start.
pub fn some_span(random: &mut Random, seen: &CorePlan) -> u64 {
    match seen.is_repeating() {
        true => span_of_cycles(random, seen),
        false => end_in_cycle(random, seen, seen.start) - seen.start,
    }
}

/// At the end of some cycle or beside it, the first one among them, at a border
/// of some cycle, as far as can be, at whole cycles from the start, at T and one
/// more, or any.
fn span_of_cycles(random: &mut Random, seen: &CorePlan) -> u64 {
    let (start, total) = (seen.start, seen.total_periods());
    let most_cycles = (start + seen.reach).div_ceil(total);
    let cycles = match random.one_in(2) {
        true => random.any_size(1, most_cycles),
        false => random.between(1, most_cycles),
    };
    let before = (cycles - 1) * total;
    let end = match random.below(11) {
        0 => cycles * total - 1,
        1 => cycles * total,
        2 => cycles * total + 1,
        3 | 4 if cycles == 1 => end_in_cycle(random, seen, start),
        3 | 4 => before + end_in_cycle(random, seen, 0),
        5 => start + seen.reach,
        6 => start + total,
        7 => start + total + 1,
        8 => start + cycles * total,
        9 => start + random.between(1, seen.reach),
        _ => start + random.any_size(1, seen.reach),
    };
    end.saturating_sub(start).clamp(1, seen.reach)
}

/// The end of a span within one cycle, later than some period of it: the first
/// and the last there can be, the borders of intervals and beside them, or any.
fn end_in_cycle(random: &mut Random, seen: &CorePlan, from: u64) -> u64 {
    let total = seen.total_periods();
    let border = some_border(random, seen, from);
    let end = match random.below(7) {
        0 => from + 1,
        1 => total,
        2 => border,
        3 => border + 1,
        4 => border.max(1) - 1,
        5 => random.between(from + 1, total),
        _ => random.any_size(from + 1, total),
    };
    end.clamp(from + 1, total)
}

/// The periods before the end of an interval, or before the begin of one in
/// which the core is parked; not of those that end before some period.
fn some_border(random: &mut Random, seen: &CorePlan, from: u64) -> u64 {
    let first = seen.interval_of(from);
    let intervals = seen.plan.lengths.len();
    let mut ended = random.between(first as u64 + 1, intervals as u64) as usize;
    let mut parked = seen.parked_intervals();
    parked.retain(|&interval| interval >= first);
    if !parked.is_empty() && random.one_in(2) {
        ended = random.pick(&parked) + random.below(2) as usize;
    }
    seen.periods_before(ended)
}

/// Requests for a span: none, all that fit and one more, whole corners in
/// every interval, or any number.
pub fn some_requests(random: &mut Random, seen: &CorePlan, span: u64) -> u64 {
    let capacity = seen.capacity(span);
    let requests = match random.below(8) {
        0 => 0,
        1 => capacity,
        2 => capacity + 1,
        3 | 4 => at_corners(random, seen, span),
        5 => random.any_size(0, MOST_OF_A_WORKLOAD),
        6 => random.any_size(0, capacity),
        _ => random.between(0, capacity),
    };
    requests.min(MOST_OF_A_WORKLOAD)
}

fn at_corners(random: &mut Random, seen: &CorePlan, span: u64) -> u64 {
    let shares = seen.shares(span);
    let curves = Curves::new(seen);
    let mut requests = 0;
    for (corners, share) in curves.0.iter().zip(shares) {
        requests += share * random.pick(corners).0;
    }
    requests + random.pick(&[0, 0, 1])
}

/// A workload whose values are within their bounds.
pub fn aimed(random: &mut Random, seen: &CorePlan) -> Workload {
    if seen.is_parked() && random.one_in(4) {
        return waiting(random, seen);
    }
    if !seen.is_repeating() {
        return of_any_kind(random, seen);
    }
    let mut drawn = match random.one_in(6) {
        true => going_round(random, seen),
        false => of_any_kind(random, seen),
    };
    if random.one_in(6) {
        drawn.horizon = some_span(random, seen) as u16;
    }
    drawn
}

/// Little work that waits while the core is parked: each of these periods costs
/// a round, or few of them do.
fn waiting(random: &mut Random, seen: &CorePlan) -> Workload {
    let slots = u64::from(seen.plan.slots_per_period);
    let requests = random.below(4).min(seen.capacity(seen.reach));
    let horizon = match random.one_in(2) {
        true => seen.reach,
        false => some_span(random, seen),
    };
    workload(seen, random.any_size(1, 2 * slots), requests, horizon)
}

fn of_any_kind(random: &mut Random, seen: &CorePlan) -> Workload {
    let slots = u64::from(seen.plan.slots_per_period);
    match random.below(14) {
        0 => {
            let computing = random.any_size(1, MOST_OF_A_WORKLOAD);
            let requests = random.any_size(0, MOST_OF_A_WORKLOAD);
            let inside = random.between(1, seen.reach);
            let horizon = random.pick(&[1, seen.reach, inside]);
            workload(seen, computing, requests, horizon)
        }
        1 => at_limits(random, seen),
        2 => {
            let span = some_span(random, seen);
            let computing = span * slots + random.below(2);
            workload(seen, computing, 0, span + random.below(2))
        }
        3 => {
            let span = far_span(random, seen);
            let requests = seen.capacity(span) + random.below(2);
            workload(seen, random.any_size(1, slots), requests, seen.reach)
        }
        4 => {
            let span = far_span(random, seen);
            let requests = some_requests(random, seen, span);
            workload(seen, random.any_size(1, slots), requests, seen.reach)
        }
        5..=7 => mostly_stall(random, seen),
        _ => just_fitting(random, seen),
    }
}

/// To the plan's end, in any of its cycles, or any number of whole cycles.
fn far_span(random: &mut Random, seen: &CorePlan) -> u64 {
    let total = seen.total_periods();
    match seen.is_repeating() {
        true => total * random.any_size(1, seen.reach / total) - random.pick(&[0, seen.start]),
        false => seen.reach,
    }
}

/// A span as long as the plan reaches, or not much shorter: with a short cycle
/// the work goes round thousands of times.
fn going_round(random: &mut Random, seen: &CorePlan) -> Workload {
    let span = seen.reach - random.any_size(0, seen.reach / 50);
    fitting(random, seen, span)
}

/// The same with so many requests.
pub fn going_round_with(random: &mut Random, seen: &CorePlan, requests: u64) -> Workload {
    let span = seen.reach - random.any_size(0, seen.reach / 50);
    fitting_with(random, seen, span, requests.min(seen.capacity(span)))
}

fn at_limits(random: &mut Random, seen: &CorePlan) -> Workload {
    let computing = random.pick(&[1, MOST_OF_A_WORKLOAD, MOST_OF_A_WORKLOAD - 1]);
    // Both together just past four bytes.
    let past = (1 << 32) + random.any_size(0, 65_536) - computing;
    let requests = random.pick(&[0, 0, 1, MOST_OF_A_WORKLOAD, past, past]);
    let horizon = random.pick(&[1, seen.reach, seen.reach]);
    workload(seen, computing, requests, horizon)
}

/// Little computing and many requests, so that a search has many rounds.
fn mostly_stall(random: &mut Random, seen: &CorePlan) -> Workload {
    let span = match seen.is_repeating() {
        true => random.any_size(1, seen.reach),
        false => random.between(1, seen.reach),
    };
    let requests = random.between(0, seen.capacity(span));
    let slots = u64::from(seen.plan.slots_per_period);
    workload(seen, random.any_size(1, slots), requests, seen.reach)
}

/// Computing that leaves no slot of some span over, or one slot more or less;
/// the horizon at that span or beside it.
pub fn just_fitting(random: &mut Random, seen: &CorePlan) -> Workload {
    let span = some_span(random, seen);
    fitting(random, seen, span)
}

fn fitting(random: &mut Random, seen: &CorePlan, span: u64) -> Workload {
    let requests = some_requests(random, seen, span).min(seen.capacity(span));
    fitting_with(random, seen, span, requests)
}

/// So many requests, or fewer if they do not fit.
fn fitting_with(random: &mut Random, seen: &CorePlan, span: u64, mut requests: u64) -> Workload {
    let slots = span * u64::from(seen.plan.slots_per_period);
    let fewer = random.pick(&[1, 8, 64]);
    let curves = Curves::new(seen);
    let computing = loop {
        let needed = requests + curves.greatest_stall(seen, span, requests);
        if needed < slots || requests == 0 {
            break slots - needed;
        }
        requests -= requests.div_ceil(fewer);
    };
    let computing = (computing + random.pick(&[1, 1, 1, 2, 0])).saturating_sub(1);
    let horizon = random.pick(&[span - 1, span, span, span + 1, seen.reach]);
    workload(seen, computing, requests, horizon)
}

/// For a core with a budget of 1, or parked: a search of very many rounds.
pub fn of_many_rounds(random: &mut Random, seen: &CorePlan) -> Workload {
    let capacity = seen.capacity(seen.reach);
    let requests = random.between(capacity / 3, capacity);
    workload(seen, random.any_size(1, 100_000), requests, seen.reach)
}

/// A workload whose search is short: few requests.
pub fn light(random: &mut Random, seen: &CorePlan) -> Workload {
    let computing = random.any_size(1, MOST_OF_A_WORKLOAD);
    let requests = random.any_size(0, 40);
    let horizon = random.any_size(1, seen.reach);
    workload(seen, computing, requests, horizon)
}

/// No fewer than the ways to place the requests as far as the plan reaches.
pub fn placements(seen: &CorePlan, requests: u32) -> u64 {
    let shares = seen.shares(seen.reach).into_iter().enumerate();
    let ways = shares.map(|(interval, share)| {
        let most = share * seen.own_budget(interval);
        most.min(u64::from(requests)) + 1
    });
    ways.fold(1, u64::saturating_mul)
}

/// Values that the reader takes and the span question may refuse.
pub fn unjudged(random: &mut Random, seen: &CorePlan) -> Workload {
    let mut drawn = light(random, seen);
    let total = seen.total_periods();
    match random.below(6) {
        0 => drawn.core = random.pick(&[0, seen.plan.cores + 1, 255]),
        1 => drawn.core = random.between(1, u64::from(seen.plan.cores)) as u8,
        2 => drawn.computing = random.pick(&[0, MOST_OF_A_WORKLOAD as u32 + 1, u32::MAX]),
        3 => drawn.requests = random.pick(&[MOST_OF_A_WORKLOAD as u32 + 1, u32::MAX]),
        4 => drawn.horizon = random.pick(&[0, (total + 1).min(65_535) as u16, 65_535]),
        _ => {
            let both = parts(random, 5_000, 2);
            drawn = workload(seen, both[0], both[1] / 50, 1);
        }
    }
    drawn
}
