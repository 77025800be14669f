//! Two streams of questions for `bench/run`: the same spans on a plan in which
//! core 1 is parked in every other interval, from the first on, and on the plan
//! without these intervals. Parked periods are all stall, so beside them an
//! answer has the same periods, stall and requests in both.

use crate::measured_cycles::{column, CORES};
use crate::plans::{CorePlan, Plan};
use crate::questions::{workload_record, SPAN};
use crate::workloads::Workload;

const SLOTS: u64 = 10_000;

/// Intervals in which the core has a budget, and periods of each; there are as
/// many in which it is parked, of the same length.
const INTERVALS: u64 = 32;
const LENGTH: u16 = 1_023;

/// Own budgets, and spans for each of them.
const BUDGETS: [u64; 3] = [60, 600, 6_000];
const SPANS: u64 = 64;

/// The stream with the parked intervals, and the one without them.
pub fn streams() -> [Vec<u8>; 2] {
    [true, false].map(|with_parked| {
        let mut stream = Vec::new();
        for own_budget in BUDGETS {
            for number in 0..SPANS {
                let seen = every_other(own_budget, with_parked);
                let workload = little_computing(&seen, own_budget, number);
                stream.extend(workload_record(SPAN, seen, workload));
            }
        }
        stream
    })
}

/// The budgets differ a little, so that no two intervals have the same curve.
fn every_other(own_budget: u64, with_parked: bool) -> CorePlan {
    let mut plan = Plan {
        cores: CORES as u8,
        slots_per_period: SLOTS as u32,
        mark: 0,
        lengths: Vec::new(),
        budgets: Vec::new(),
    };
    for interval in 0..INTERVALS {
        if with_parked {
            plan.lengths.push(LENGTH);
            plan.budgets.extend(column(0, SLOTS));
        }
        plan.lengths.push(LENGTH);
        plan.budgets.extend(column(own_budget + interval, SLOTS));
    }
    CorePlan::plain(plan, 1)
}

/// One slot of computing, and all the requests that fit into a part of the
/// periods in which the core has a budget. The first workload has none; it waits
/// for the end of the first parked interval, one round for each period.
fn little_computing(seen: &CorePlan, own_budget: u64, number: u64) -> Workload {
    let unparked = every_other(own_budget, false);
    let part = unparked.reach * number / SPANS;
    Workload {
        core: seen.core,
        computing: 1,
        requests: unparked.capacity(part) as u32,
        horizon: seen.reach as u16,
    }
}
