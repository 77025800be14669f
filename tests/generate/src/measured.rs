//! The plan files and questions that `bench/run` measures; always the same.

use std::io;
use std::path::Path;

use crate::files;
use crate::measured_cycles;
use crate::measured_parked;
use crate::measured_started;
use crate::plans::{parts, CorePlan, Plan, MOST_PERIODS, MOST_SLOTS};
use crate::random::Random;
use crate::workloads::Workload;

const SEED: u64 = 2018;
const INTERVALS: usize = 64;
const CORES: usize = 8;

/// Slots and periods of the typical plans.
const SLOTS: u64 = 10_000;
const PERIODS: u64 = 6_400;

/// The plan that grows in one of these, and the workloads it has.
const BASE: Grown = Grown {
    intervals: INTERVALS,
    cores: CORES,
    own_budget: 6_000,
};
const GROWTH_WORKLOADS: u64 = 16;

/// Writes every measured file and stream into the folder.
pub fn write_files(folder: &Path) -> io::Result<()> {
    std::fs::create_dir_all(folder)?;
    let write = |name: String, bytes: Vec<u8>| std::fs::write(folder.join(name), bytes);
    write("empty.plan".to_string(), Vec::new())?;
    write("small.plan".to_string(), files::example().concat())?;
    write("longest.plan".to_string(), longest())?;
    write("longest-budget-1.plan".to_string(), longest_budget_one())?;
    for intervals in [1, 2, 4, 8, 16, 32, 64] {
        let plan = Grown { intervals, ..BASE };
        write(format!("intervals-{intervals}.plan"), grown(&plan))?;
    }
    for cores in [1, 2, 4, 8] {
        let plan = Grown { cores, ..BASE };
        write(format!("cores-{cores}.plan"), grown(&plan))?;
    }
    for own_budget in [60, 600, 6_000, 30_000] {
        let plan = Grown { own_budget, ..BASE };
        write(format!("budget-{own_budget}.plan"), grown(&plan))?;
    }
    for rounds in [10, 100, 1_000, 10_000] {
        write(format!("rounds-{rounds}.plan"), of_rounds(rounds))?;
    }
    let [repeating, plain] = measured_cycles::streams();
    write("repeating.questions".to_string(), repeating)?;
    write("plain.questions".to_string(), plain)?;
    let [parked, unparked] = measured_parked::streams();
    write("parked.questions".to_string(), parked)?;
    write("unparked.questions".to_string(), unparked)?;
    let [started, from_there] = measured_started::streams();
    write("started.questions".to_string(), started)?;
    write("from-there.questions".to_string(), from_there)
}

/// A plan of 64 intervals of nearly equal length in which every core has a
/// budget; core 1 has `first_budget`, if one is given.
fn long_plan(random: &mut Random, slots: u64, periods: u64, first_budget: Option<u64>) -> Plan {
    let mut budgets = Vec::new();
    for _ in 0..INTERVALS {
        let own = match first_budget {
            Some(budget) => budget,
            None => random.between(slots / 40, slots / 4),
        };
        budgets.push(own as u16);
        let left = slots - own - (CORES as u64 - 1);
        let others = parts(random, left, CORES - 1);
        budgets.extend(others.iter().map(|&other| other as u16 + 1));
    }
    let length = periods / INTERVALS as u64;
    let mut lengths = vec![length as u16; INTERVALS];
    lengths[INTERVALS - 1] += (periods % INTERVALS as u64) as u16;
    Plan {
        cores: CORES as u8,
        slots_per_period: slots as u32,
        mark: 0,
        lengths,
        budgets,
    }
}

/// 256 workloads over all cores. Each would have time for as much stall again
/// as it has work, within spans spread over the whole plan.
fn longest() -> Vec<u8> {
    let random = &mut Random::new(SEED, 1);
    let mut seen = CorePlan::plain(long_plan(random, SLOTS, PERIODS, None), 1);
    let mut listed = Vec::new();
    for number in 0..256 {
        seen.core = (number % CORES) as u8 + 1;
        let span = random.between(1, PERIODS);
        let requests = random.between(0, seen.capacity(span) / 3);
        listed.push(Workload {
            core: seen.core,
            computing: random.between(1, span * SLOTS / 4) as u32,
            requests: requests as u32,
            horizon: PERIODS as u16,
        });
    }
    files::bytes(&seen.plan, &listed)
}

/// 16 workloads of core 1, which has a budget of 1 in every interval: each
/// search takes as many rounds as there are requests, and a few more.
fn longest_budget_one() -> Vec<u8> {
    let random = &mut Random::new(SEED, 2);
    let plan = long_plan(random, MOST_SLOTS, MOST_PERIODS, Some(1));
    let mut listed = Vec::new();
    for number in 1..=16 {
        listed.push(Workload {
            core: 1,
            computing: number,
            requests: 20_000 + 2_500 * number,
            horizon: MOST_PERIODS as u16,
        });
    }
    files::bytes(&plan, &listed)
}

/// What grows in a measured plan.
struct Grown {
    intervals: usize,
    cores: usize,
    own_budget: u64,
}

/// Workloads on intervals that all have the same curve, with as many segments
/// as cores: the other cores' budgets rise evenly and stay below the own one.
/// The search is the same for any number of intervals.
fn grown(plan: &Grown) -> Vec<u8> {
    let others: u64 = (1..plan.cores as u64).sum();
    let mut column = vec![plan.own_budget as u16];
    for other in 1..plan.cores as u64 {
        column.push((plan.own_budget * 2 / 3 * other / others) as u16);
    }
    let slots: u64 = column.iter().map(|&budget| u64::from(budget)).sum();
    let mut listed = Vec::new();
    for number in 1..=GROWTH_WORKLOADS {
        listed.push(Workload {
            core: 1,
            computing: 1,
            requests: (plan.own_budget * PERIODS / 2 * number / GROWTH_WORKLOADS) as u32,
            horizon: PERIODS as u16,
        });
    }
    let plan = Plan {
        cores: plan.cores as u8,
        slots_per_period: slots as u32,
        mark: 0,
        lengths: vec![(PERIODS / plan.intervals as u64) as u16; plan.intervals],
        budgets: column.repeat(plan.intervals),
    };
    files::bytes(&plan, &listed)
}

/// One workload of a core with a budget of 1 that takes so many rounds: with
/// a slot of computing, each term is one past the one before.
fn of_rounds(rounds: u32) -> Vec<u8> {
    let random = &mut Random::new(SEED, 3);
    let plan = long_plan(random, MOST_SLOTS, MOST_PERIODS, Some(1));
    let listed = [Workload {
        core: 1,
        computing: 1,
        requests: rounds - 1,
        horizon: MOST_PERIODS as u16,
    }];
    files::bytes(&plan, &listed)
}
