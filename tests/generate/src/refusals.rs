//! Faults put into a sound plan, each to provoke one refusal.

use crate::plans::{Plan, MOST_PERIODS};
use crate::random::Random;

/// Puts in a fault for one of the refusals 1 to 5.
pub fn spoil_plan(random: &mut Random, plan: &mut Plan, refusal: u8) {
    match refusal {
        1 => plan.cores = random.pick(&[0, 9, 10, 255, plan.cores | 16]),
        2 => spoil_slots(random, plan),
        3 => spoil_counts(random, plan),
        4 => spoil_periods(random, plan),
        _ => spoil_sum(random, plan),
    }
}

/// 0, or past the largest; sometimes with budgets that do sum to it.
fn spoil_slots(random: &mut Random, plan: &mut Plan) {
    let slots = plan.slots_per_period;
    plan.slots_per_period = random.pick(&[0, 65_536, slots | 65_536, u32::MAX]);
    if random.one_in(2) && plan.cores >= 2 {
        plan.slots_per_period = 65_536;
        let cores = usize::from(plan.cores);
        for budgets in plan.budgets.chunks_exact_mut(cores) {
            budgets.fill(0);
            budgets[0] = 65_535;
            budgets[1] = 1;
        }
    }
}

/// No interval, 65 of them or more, or a wrong number of budgets.
fn spoil_counts(random: &mut Random, plan: &mut Plan) {
    let cores = usize::from(plan.cores);
    match random.below(7) {
        0 => plan.lengths.clear(),
        1 => {
            plan.lengths.clear();
            plan.budgets.clear();
        }
        2 => lengthen(plan, cores, 65),
        3 => lengthen(plan, cores, random.pick(&[66, 100, 255])),
        4 => drop(plan.budgets.pop()),
        5 => plan.budgets.push(random.below(5) as u16),
        _ => plan
            .budgets
            .truncate(random.below(plan.budgets.len() as u64 + 1) as usize / 2),
    }
}

/// Repeats the last interval up to a number of intervals.
fn lengthen(plan: &mut Plan, cores: usize, intervals: usize) {
    let lawful = (1..=8).contains(&cores);
    if plan.lengths.is_empty() || !lawful || plan.budgets.len() < cores {
        return;
    }
    let last = plan.budgets[plan.budgets.len() - cores..].to_vec();
    while plan.lengths.len() < intervals {
        plan.lengths.push(1);
        plan.budgets.extend(&last);
    }
}

/// An interval of 0 periods, or a total past the largest.
fn spoil_periods(random: &mut Random, plan: &mut Plan) {
    if plan.lengths.is_empty() {
        return;
    }
    let at = random.below(plan.lengths.len() as u64) as usize;
    let total: u64 = plan.lengths.iter().map(|&length| u64::from(length)).sum();
    let others = total - u64::from(plan.lengths[at]);
    plan.lengths[at] = match random.below(4) {
        0 | 1 => 0,
        2 => (MOST_PERIODS + 1 - others.min(MOST_PERIODS)).min(65_535) as u16,
        _ => 65_535,
    };
}

/// A budget one off, or so far off that the sum agrees in its low 16 bits.
fn spoil_sum(random: &mut Random, plan: &mut Plan) {
    if plan.budgets.is_empty() {
        return;
    }
    let at = random.below(plan.budgets.len() as u64) as usize;
    let budget = plan.budgets[at];
    plan.budgets[at] = match random.below(3) {
        0 if budget > 0 => budget - 1,
        1 => random.below(65_536) as u16,
        _ => budget.saturating_add(1),
    };
    let cores = usize::from(plan.cores);
    if random.one_in(4) && (2..=8).contains(&cores) && plan.budgets.len() >= cores {
        let first = at / cores * cores;
        let sum = |budgets: &[u16]| budgets.iter().map(|&budget| u64::from(budget)).sum::<u64>();
        if first + cores <= plan.budgets.len() {
            let wanted = u64::from(plan.slots_per_period) + 65_536;
            plan.budgets[first] = 65_535;
            plan.budgets[first + 1] = 0;
            let others = sum(&plan.budgets[first..first + cores]);
            plan.budgets[first + 1] = wanted.saturating_sub(others).min(65_535) as u16;
        }
    }
}

/// Some of the given refusals, mostly one or two; the list is in the order in
/// which they are judged, and often two neighbours are taken.
pub fn some_of(random: &mut Random, refusals: &[u8]) -> Vec<u8> {
    if random.one_in(3) {
        let first = random.below(refusals.len() as u64 - 1) as usize;
        return refusals[first..first + 2].to_vec();
    }
    let count = random.pick(&[1, 1, 1, 2, 2, 3, 4]);
    (0..count).map(|_| random.pick(refusals)).collect()
}
