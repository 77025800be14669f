//! Tasks that start later: a start for a sound plan, and the faults of it.

use crate::plans::{CorePlan, MOST_PERIODS};
use crate::random::Random;

/// In one of so many plans the workload starts with the plan; in the others it
/// may do so too.
const AT_0_ONE_IN: u64 = 3;

/// The plan with a start, which is above 0 in some two of five.
pub fn some(random: &mut Random, seen: CorePlan) -> CorePlan {
    if random.one_in(AT_0_ONE_IN) {
        return seen;
    }
    let start = some_start(random, &seen);
    seen.starting(start)
}

/// A start below T: 1, the first or the last period of an interval, its middle,
/// the period behind it, the plan's last period, or any. If the core is parked
/// somewhere, the interval is mostly such a one.
fn some_start(random: &mut Random, seen: &CorePlan) -> u64 {
    let total = seen.total_periods();
    let last = total - 1;
    let mut interval = random.below(seen.plan.lengths.len() as u64) as usize;
    let parked = seen.parked_intervals();
    if !parked.is_empty() && !random.one_in(4) {
        interval = random.pick(&parked);
    }
    let before = seen.periods_before(interval);
    let length = u64::from(seen.plan.lengths[interval]);
    let start = match random.below(12) {
        0 => 1,
        1 => before,
        2 => before + length - 1,
        3 | 4 => before + length / 2,
        5..=8 => (before + length) % total,
        9 => last,
        10 => random.any_size(0, last),
        _ => random.between(0, last),
    };
    start.min(last)
}

/// The plan with a start for a search of very many rounds. A plain plan has to
/// have most of its periods left.
pub fn early(random: &mut Random, seen: CorePlan) -> CorePlan {
    if seen.is_repeating() {
        return some(random, seen);
    }
    let start = random.any_size(0, seen.total_periods() / 4);
    match random.one_in(2) {
        true => seen.starting(start),
        false => seen,
    }
}

/// A start that is not below T.
pub fn past(random: &mut Random, total_periods: u64) -> u16 {
    let start = random.pick(&[total_periods, total_periods, total_periods + 1, 65_535]);
    start.min(MOST_PERIODS) as u16
}

/// A horizon or a given span that is refused 10 on a plain plan: 0, past the
/// plan's end by one period or more, also where it is at most T, or past T.
pub fn past_end(random: &mut Random, total_periods: u64, start: u16) -> u16 {
    let past = total_periods.saturating_sub(u64::from(start)) + 1;
    let within = random.between(past.min(total_periods), total_periods);
    let span = random.pick(&[0, past, past, past, within, total_periods + 1, 65_535]);
    span.min(MOST_PERIODS) as u16
}
