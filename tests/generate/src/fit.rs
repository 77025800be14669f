//! The greatest stall at a span, to aim questions at the border where a span
//! just fits. Answers are never taken from here.

use crate::plans::CorePlan;

/// The corners of each interval, each a rate and the raw stall there.
pub struct Curves(pub Vec<Vec<(u64, u64)>>);

impl Curves {
    pub fn new(seen: &CorePlan) -> Self {
        let intervals = 0..seen.plan.lengths.len();
        Curves(intervals.map(|interval| corners(seen, interval)).collect())
    }

    /// The greatest total stall, rounded up.
    pub fn greatest_stall(&self, seen: &CorePlan, span: u64, requests: u64) -> u64 {
        let shares = seen.shares(span);
        let mut stall = 0;
        let mut segments = Vec::new();
        for (corners, share) in self.0.iter().zip(shares) {
            stall += share * corners[0].1;
            for pair in corners.windows(2) {
                let (run, rise) = (pair[1].0 - pair[0].0, pair[1].1 - pair[0].1);
                segments.push((run, rise, share));
            }
        }
        segments.sort_by(|one, other| (other.1 * one.0).cmp(&(one.1 * other.0)));
        let mut left = requests;
        for (run, rise, share) in segments {
            let placed = left.min(run * share);
            stall += (placed * rise).div_ceil(run);
            left -= placed;
        }
        stall
    }
}

fn raw_stall(seen: &CorePlan, interval: usize, rate: u64) -> u64 {
    let own = usize::from(seen.core) - 1;
    if rate == seen.own_budget(interval) {
        return u64::from(seen.plan.slots_per_period) - rate;
    }
    let budgets = seen.interval_budgets(interval).iter().enumerate();
    let others = budgets.filter(|&(core, _)| core != own);
    others.map(|(_, &budget)| rate.min(u64::from(budget))).sum()
}

/// From each corner to the farthest of the rates with the greatest slope.
fn corners(seen: &CorePlan, interval: usize) -> Vec<(u64, u64)> {
    let budget = seen.own_budget(interval);
    let others = seen.interval_budgets(interval).iter();
    let mut rates: Vec<u64> = others.map(|&other| u64::from(other)).collect();
    rates.extend([budget.saturating_sub(1), budget]);
    rates.retain(|&rate| rate <= budget);
    let mut corners = vec![(0, raw_stall(seen, interval, 0))];
    loop {
        let (from, stall) = corners[corners.len() - 1];
        let gains = rates.iter().filter(|&&rate| rate > from).map(|&rate| {
            let gained = raw_stall(seen, interval, rate) - stall;
            (rate - from, gained)
        });
        let steepest = gains.max_by(|one, other| {
            let slopes = (one.1 * other.0).cmp(&(other.1 * one.0));
            slopes.then(one.0.cmp(&other.0))
        });
        match steepest {
            Some((run, rise)) => corners.push((from + run, stall + rise)),
            None => return corners,
        }
    }
}
