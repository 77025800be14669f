//! Two streams of questions for `bench/run`: the same spans on plans where the
//! task starts later, and on the part of each plan that begins there, as a plan
//! of its own. Span, stall and rounds are the same in both, and the requests in
//! the intervals that both have.

use crate::measured_cycles::{column, CORES};
use crate::plans::{CorePlan, Plan};
use crate::questions::{workload_record, SPAN};
use crate::workloads::Workload;

const SLOTS: u64 = 10_000;
const INTERVALS: usize = 64;
const LENGTH: u16 = 1_023;

/// Own budgets, and spans for each of them on each plan. Each is below the other
/// cores' budgets, so that an interval has one slope and no two have the same.
const BUDGETS: [u64; 3] = [60, 300, 1_000];
const SPANS: u64 = 32;

/// The stream with the starts, and the one without them. A plain plan with the
/// start in its middle, inside an interval, then a repeating one that starts with
/// its last interval.
pub fn streams() -> [Vec<u8>; 2] {
    let [mut started, mut from_there] = [Vec::new(), Vec::new()];
    let late = [(0, INTERVALS / 2, LENGTH / 2), (1, INTERVALS - 1, 0)];
    for (mark, interval, inside) in late {
        for own_budget in BUDGETS {
            for number in 1..=SPANS {
                let plan = whole(mark, own_budget);
                let start = interval as u64 * u64::from(LENGTH) + u64::from(inside);
                let part = CorePlan::plain(part(&plan, interval, inside), 1);
                let workload = little_computing(&part, number);
                let seen = CorePlan::plain(plan, 1).starting(start);
                started.extend(workload_record(SPAN, seen, workload));
                from_there.extend(workload_record(SPAN, part, workload));
            }
        }
    }
    [started, from_there]
}

/// The budgets differ a little, so that no two intervals have the same curve.
fn whole(mark: u8, own_budget: u64) -> Plan {
    let columns = (0..INTERVALS as u64).map(|interval| column(own_budget + interval, SLOTS));
    Plan {
        cores: CORES as u8,
        slots_per_period: SLOTS as u32,
        mark,
        lengths: vec![LENGTH; INTERVALS],
        budgets: columns.flatten().collect(),
    }
}

/// The part from so many periods inside an interval on. That of a repeating plan
/// begins with a whole interval, and the intervals before it come last.
fn part(plan: &Plan, interval: usize, inside: u16) -> Plan {
    let (lengths_before, lengths) = plan.lengths.split_at(interval);
    let (budgets_before, budgets) = plan.budgets.split_at(interval * CORES as usize);
    let mut part = Plan {
        lengths: lengths.to_vec(),
        budgets: budgets.to_vec(),
        ..*plan
    };
    part.lengths[0] -= inside;
    if plan.mark != 0 {
        part.lengths.extend(lengths_before);
        part.budgets.extend(budgets_before);
    }
    part
}

/// One slot of computing, and all the requests that fit into a part of the
/// periods.
fn little_computing(seen: &CorePlan, number: u64) -> Workload {
    Workload {
        core: seen.core,
        computing: 1,
        requests: seen.capacity(seen.reach * number / (SPANS + 1)) as u32,
        horizon: seen.reach as u16,
    }
}
