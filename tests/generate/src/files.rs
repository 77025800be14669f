//! Plan files, sound and damaged.

use crate::damage;
use crate::plans::{self, CorePlan, Plan};
use crate::random::Random;
use crate::workloads::{self, Workload};

pub const HEAD: u16 = 1;
pub const INTERVAL: u16 = 2;
pub const WORKLOAD: u16 = 3;

/// The most workloads that are drawn at the borders of their answers; the
/// rest of a long list has short searches.
const AIMED_WORKLOADS: u64 = 4;

/// The most bytes of any file made here.
pub const MOST_BYTES: usize = 12_000;

/// The records of a file, each with its length and its kind in front.
pub type Records = Vec<Vec<u8>>;

pub fn record(kind: u16, body: &[u8]) -> Vec<u8> {
    let mut record = (body.len() as u16).to_le_bytes().to_vec();
    record.extend(kind.to_le_bytes());
    record.extend(body);
    record
}

pub fn head_record(plan: &Plan) -> Vec<u8> {
    let mut body = vec![plan.cores, 0];
    body.extend((plan.slots_per_period as u16).to_le_bytes());
    body.extend((plan.lengths.len() as u16).to_le_bytes());
    record(HEAD, &body)
}

fn interval_record(length: u16, budgets: &[u16]) -> Vec<u8> {
    let mut mask = 0;
    let mut listed = Vec::new();
    for (core, &budget) in budgets.iter().enumerate() {
        if budget > 0 {
            mask |= 1 << core;
            listed.extend(budget.to_le_bytes());
        }
    }
    let mut body = vec![mask, 0];
    body.extend(length.to_le_bytes());
    body.extend(listed);
    record(INTERVAL, &body)
}

pub fn workload_record(workload: &Workload) -> Vec<u8> {
    let mut body = vec![workload.core, 0];
    body.extend(workload.computing.to_le_bytes());
    body.extend(workload.requests.to_le_bytes());
    body.extend(workload.horizon.to_le_bytes());
    record(WORKLOAD, &body)
}

/// The records of a sound plan with its workloads.
pub fn records(plan: &Plan, listed: &[Workload]) -> Records {
    let cores = usize::from(plan.cores);
    let mut records = vec![head_record(plan)];
    for (&length, budgets) in plan.lengths.iter().zip(plan.budgets.chunks(cores)) {
        records.push(interval_record(length, budgets));
    }
    records.extend(listed.iter().map(workload_record));
    records
}

pub fn bytes(plan: &Plan, listed: &[Workload]) -> Vec<u8> {
    records(plan, listed).concat()
}

/// The input of document 01's listing.
pub fn example() -> Records {
    let plan = Plan {
        cores: 4,
        slots_per_period: 16,
        mark: 0,
        lengths: vec![1, 4],
        budgets: vec![2, 2, 5, 7, 4, 4, 4, 4],
    };
    let listed = [5, 3].map(|horizon| Workload {
        core: 3,
        computing: 10,
        requests: 10,
        horizon,
    });
    records(&plan, &listed)
}

/// A sound plan and workloads for it, whose values may be refused.
pub fn sound_contents(random: &mut Random) -> (CorePlan, Vec<Workload>) {
    let longest = random.one_in(30);
    let limits = random.pick(&[&plans::WHOLE, &plans::WHOLE, &plans::MIDDLE]);
    let seen = match longest {
        true => plans::longest(random),
        false => plans::sound(random, limits),
    };
    let count = match random.below(24) {
        _ if longest => 256,
        0 => 256,
        1 => random.between(0, 256),
        _ => random.below(6),
    };
    let mut listed = Vec::new();
    for number in 0..count {
        let aim = number < AIMED_WORKLOADS && !random.one_in(4);
        listed.push(match aim {
            true => workloads::aimed(random, &seen),
            false => workloads::unjudged(random, &seen),
        });
    }
    (seen, listed)
}

/// A file for the question "read": its bytes, and the sizes of the six lent
/// places, which fit, are larger, or (one in six) have one too small.
pub fn for_reading(random: &mut Random) -> (Vec<u8>, [u16; 6]) {
    let (seen, listed) = sound_contents(random);
    let intervals = seen.plan.lengths.len() as u16;
    let budgets = seen.plan.budgets.len() as u16;
    let workloads = listed.len() as u16;
    let mut rooms = [
        intervals, budgets, workloads, workloads, workloads, workloads,
    ];
    let more = random.pick(&[0, 0, 1, 3]);
    rooms = rooms.map(|room| room + more);
    if random.one_in(6) {
        let short = random.below(6) as usize;
        rooms[short] = random.pick(&[0, rooms[short].saturating_sub(1 + more)]);
    }
    let mut records = records(&seen.plan, &listed);
    let bytes = match random.one_in(2) {
        true => records.concat(),
        false => damage::damaged(random, &mut records, seen.plan.cores),
    };
    (bytes, rooms)
}

/// File `number` of a seed: one in four sound, one in forty of very many
/// rounds, the rest damaged.
pub fn numbered(seed: u64, number: u64) -> Vec<u8> {
    let random = &mut Random::new(seed, number);
    if random.one_in(40) {
        let seen = plans::many_rounds(random);
        let listed = [workloads::of_many_rounds(random, &seen)];
        return bytes(&seen.plan, &listed);
    }
    let (seen, listed) = sound_contents(random);
    let mut records = records(&seen.plan, &listed);
    match random.one_in(4) {
        true => records.concat(),
        false => damage::damaged(random, &mut records, seen.plan.cores),
    }
}
