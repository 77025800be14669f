//! Stall: the corners of the envelope, and the two one-interval questions.

use crate::plan::{demand, CorePlan, GivenPlan, Head, Refusal};

/// A corner of an envelope: a whole rate and the raw stall there.
#[derive(Clone, Copy, PartialEq, Eq, Debug)]
pub struct Corner {
    pub rate: u32,
    pub stall: u32,
}

/// The whole rates where the raw stall may bend, rising. Below the core's own
/// budget each other core adds the smaller of the rate and its budget, so the
/// raw stall is straight between the other cores' budgets, up to one request
/// below the own budget; the own budget itself stands apart. No rate between
/// two of these can be a corner. A parked core has rate 0 alone.
fn bending_rates(seen: &CorePlan, interval: usize) -> Vec<u32> {
    let own = seen.own_budget(interval);
    let budgets = seen.plan.interval_budgets(interval).iter();
    let mut rates: Vec<u32> = budgets
        .map(|&budget| u32::from(budget))
        .filter(|&budget| budget < own)
        .collect();
    rates.extend([0, own]);
    rates.extend(own.checked_sub(1));
    rates.sort_unstable();
    rates.dedup();
    rates
}

/// Does the slope from `first` to `middle` strictly exceed the one from
/// `middle` to `last`? The rates rise and the stalls do not fall.
fn slope_falls(first: Corner, middle: Corner, last: Corner) -> bool {
    let rise_before = u64::from(middle.stall - first.stall);
    let run_before = u64::from(middle.rate - first.rate);
    let rise_after = u64::from(last.stall - middle.stall);
    let run_after = u64::from(last.rate - middle.rate);
    rise_before * run_after > rise_after * run_before
}

/// The corners of the envelope of one interval, from rate 0 to the budget.
pub fn corners(seen: &CorePlan, interval: usize) -> Vec<Corner> {
    let mut kept: Vec<Corner> = Vec::with_capacity(10);
    for rate in bending_rates(seen, interval) {
        let stall = seen.raw_stall(interval, rate);
        let last = Corner { rate, stall };
        while let [.., first, middle] = kept[..] {
            if slope_falls(first, middle, last) {
                break;
            }
            kept.pop();
        }
        kept.push(last);
    }
    kept
}

/// The question "raw stall at `rate`", for one interval of one period. The
/// mark comes with the head and makes no difference.
pub fn raw_question(head: Head, budgets: &[u16], core: u8, rate: u32) -> Result<u32, Refusal> {
    let seen = one_interval(head, budgets).judge()?.seen_from(core)?;
    demand(rate <= seen.own_budget(0), Refusal::RateAboveBudget)?;
    Ok(seen.raw_stall(0, rate))
}

/// The question "corners for one interval": writes their rates into the lent
/// place and gives their count. The mark makes no difference.
pub fn corners_question(
    head: Head,
    budgets: &[u16],
    core: u8,
    place: &mut [u32],
) -> Result<usize, Refusal> {
    let seen = one_interval(head, budgets).judge()?.seen_from(core)?;
    let found = corners(&seen, 0);
    demand(place.len() >= found.len(), Refusal::NoRoom)?;
    for (written, corner) in place.iter_mut().zip(&found) {
        *written = corner.rate;
    }
    Ok(found.len())
}

fn one_interval(head: Head, budgets: &[u16]) -> GivenPlan<'_> {
    GivenPlan {
        head,
        lengths: &[1],
        budgets,
    }
}
