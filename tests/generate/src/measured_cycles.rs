//! Two streams of questions for `bench/run`: the same placements and spans on a
//! repeating plan of one interval of one period, and on the plain plan of one
//! interval of 65,535 periods. A span has as many periods of the interval in
//! both, so the answers are the same, line by line.

use crate::plans::{CorePlan, Plan, MOST_PERIODS};
use crate::questions::{workload_record, PLACEMENT, SPAN};
use crate::workloads::Workload;

pub const CORES: u64 = 8;

/// Own budgets, small and large, each with its Q. The larger Q is beside the
/// budget, the more rounds a search has: from tens to ten thousand.
const BUDGETS: [(u64, u64); 14] = [
    (1, 16),
    (5, 16),
    (1, 100),
    (2, 100),
    (5, 100),
    (1, 1_000),
    (20, 1_000),
    (100, 1_000),
    (60, 10_000),
    (600, 10_000),
    (6_000, 10_000),
    (90, 65_535),
    (600, 65_535),
    (6_000, 65_535),
];

/// Spans and placements for each of the budgets.
const SPANS: u64 = 16;
const PLACEMENTS: u64 = 8;

/// The stream on the repeating plan, and the one on the plain plan.
pub fn streams() -> [Vec<u8>; 2] {
    [(1, 1), (0, MOST_PERIODS as u16)].map(|(mark, length)| {
        let mut stream = Vec::new();
        for (own_budget, slots) in BUDGETS {
            let plan = || one_interval(mark, length, own_budget, slots);
            for number in 1..=SPANS {
                let workload = near_the_end(&plan(), number);
                stream.extend(workload_record(SPAN, plan(), workload));
            }
            for number in 1..=PLACEMENTS {
                let mut workload = near_the_end(&plan(), number);
                workload.horizon -= number as u16;
                stream.extend(workload_record(PLACEMENT, plan(), workload));
            }
        }
        stream
    })
}

/// Core 1 has the own budget; the others share the rest as evenly as can be.
pub fn column(own_budget: u64, slots: u64) -> Vec<u16> {
    let rest = slots - own_budget;
    let mut budgets = vec![own_budget as u16];
    for other in 0..CORES - 1 {
        let before = rest * other / (CORES - 1);
        let with_it = rest * (other + 1) / (CORES - 1);
        budgets.push((with_it - before) as u16);
    }
    budgets
}

fn one_interval(mark: u8, length: u16, own_budget: u64, slots: u64) -> CorePlan {
    let plan = Plan {
        cores: CORES as u8,
        slots_per_period: slots as u32,
        mark,
        lengths: vec![length],
        budgets: column(own_budget, slots),
    };
    CorePlan {
        plan,
        core: 1,
        start: 0,
        reach: MOST_PERIODS,
    }
}

/// All the requests that fit into a span near the longest there is, and little
/// computing: the terms are long on their way to that span.
fn near_the_end(seen: &CorePlan, number: u64) -> Workload {
    Workload {
        core: seen.core,
        computing: number as u32,
        requests: seen.capacity(MOST_PERIODS - 40 * number) as u32,
        horizon: MOST_PERIODS as u16,
    }
}
