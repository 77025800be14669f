//! The stream of questions: the records that `second answer` reads.

use crate::files;
use crate::fit::Curves;
use crate::plans::{self, CorePlan, Limits, Plan, MOST_OF_A_WORKLOAD, MOST_PERIODS};
use crate::random::Random;
use crate::refusals::{some_of, spoil_plan};
use crate::starts;
use crate::workloads::{self, Workload};

pub const RAW: u8 = 1;
pub const CORNERS: u8 = 2;
pub const PLACEMENT: u8 = 3;
pub const SPAN: u8 = 4;
pub const READ: u8 = 5;
pub const WRITE: u8 = 6;

/// One in so many questions is a search of very many rounds; of these, one in
/// so many is on a plan that repeats.
const MANY_ROUNDS_ONE_IN: u64 = 400;
const OF_CYCLES_ONE_IN: u64 = 4;

/// One in so many placements and spans is on a plan that repeats, and one in
/// so many of the one-interval questions has the mark.
const REPEATING_ONE_IN: u64 = 3;
const MARKED_ONE_IN: u64 = 4;

/// One in so many of the stored questions has any size; the others' records
/// have at most so many bytes.
const ANY_SIZE_ONE_IN: u64 = 40;
const SMALL_RECORD: usize = 120;

/// Plans for the plain search have at most so many placements, and those that
/// repeat mostly at most so many periods.
const MOST_PLACEMENTS: u64 = 20_000;
const SEARCHED_PERIODS: u64 = 40;

/// The plain search looks at every span from the first term on, and parked
/// periods make these many: such a plan is asked for so many periods at most.
const SEARCHED_PARKED: u64 = 1_000;

/// A plain search up to any horizon has at most so many requests.
const FEW_REQUESTS: u32 = 60;

/// A program that answers may end at a longer body.
const MOST_BODY: usize = 16_384;

/// One of the first four questions, with every value any of them takes.
struct Asked {
    kind: u8,
    plan: Plan,
    core: u8,
    rate: u32,
    computing: u32,
    requests: u32,
    /// The horizon, or the given span.
    periods: u16,
    start: u16,
    room: u8,
}

impl Asked {
    /// With room for a placement. The horizon may stand for a given span.
    fn new(kind: u8, seen: CorePlan, workload: Workload) -> Self {
        Asked {
            kind,
            core: seen.core,
            start: seen.start as u16,
            room: seen.plan.lengths.len() as u8,
            plan: seen.plan,
            rate: 0,
            computing: workload.computing,
            requests: workload.requests,
            periods: workload.horizon,
        }
    }

    fn record(&self) -> Vec<u8> {
        let plan = &self.plan;
        let mut body = vec![plan.cores, self.core];
        body.extend(plan.slots_per_period.to_le_bytes());
        body.push(plan.mark);
        match self.kind {
            RAW => body.extend(self.rate.to_le_bytes()),
            CORNERS => body.push(self.room),
            _ => {
                if self.kind == SPAN {
                    body.extend(self.computing.to_le_bytes());
                }
                body.extend(self.requests.to_le_bytes());
                body.extend(in_two_bytes(&[self.periods, self.start]));
                body.extend([self.room, plan.lengths.len() as u8]);
                body.extend(in_two_bytes(&plan.lengths));
            }
        }
        body.extend(in_two_bytes(&plan.budgets));
        record(self.kind, &body)
    }

    /// The refusals that this kind of question can give, but 12, in the order
    /// in which they are judged.
    fn refusals(&self) -> &'static [u8] {
        match self.kind {
            RAW => &[1, 2, 3, 5, 6, 13],
            CORNERS => &[1, 2, 3, 5, 6, 11],
            PLACEMENT => &[1, 2, 3, 4, 5, 6, 9, 14, 10, 11],
            _ => &[1, 2, 3, 4, 5, 6, 8, 9, 14, 10, 11],
        }
    }

    /// The core's budget in the first interval, 0 if there is none.
    fn own_budget(&self) -> u32 {
        let own = usize::from(self.core).wrapping_sub(1);
        self.plan
            .budgets
            .get(own)
            .map_or(0, |&budget| u32::from(budget))
    }

    fn spoil(&mut self, random: &mut Random, refusal: u8) {
        let past_limit = MOST_OF_A_WORKLOAD as u32 + 1;
        let total = self.plan.total_periods();
        match refusal {
            6 => self.core = random.pick(&[0, self.plan.cores.wrapping_add(1), 9, 255]),
            8 => self.computing = random.pick(&[0, past_limit, u32::MAX]),
            9 => self.requests = random.pick(&[past_limit, past_limit, u32::MAX]),
            10 if self.plan.mark != 0 => self.periods = 0,
            10 => self.periods = starts::past_end(random, total, self.start),
            11 => self.room = random.pick(&[0, self.room.saturating_sub(1)]),
            13 => {
                let budget = self.own_budget();
                self.rate = random.pick(&[budget + 1, budget + 1, budget + 65_536, u32::MAX]);
            }
            14 => self.start = starts::past(random, total),
            _ => spoil_plan(random, &mut self.plan, refusal),
        }
    }
}

fn in_two_bytes(numbers: &[u16]) -> Vec<u8> {
    numbers
        .iter()
        .flat_map(|number| number.to_le_bytes())
        .collect()
}

fn in_four_bytes(numbers: impl Iterator<Item = u32>) -> Vec<u8> {
    numbers.flat_map(u32::to_le_bytes).collect()
}

fn record(kind: u8, body: &[u8]) -> Vec<u8> {
    assert!(body.len() <= MOST_BODY, "a body that is too long");
    let mut record = vec![kind];
    record.extend((body.len() as u16).to_le_bytes());
    record.extend(body);
    record
}

/// Question `number` of the mixed stream of a seed.
pub fn mixed(seed: u64, number: u64) -> Vec<u8> {
    let random = &mut Random::new(seed, number);
    if random.one_in(MANY_ROUNDS_ONE_IN) {
        return many_rounds(random).record();
    }
    let kind = some_kind(random);
    of_kind(random, kind)
}

/// Question `number` of the stored stream: as many of each kind as in the
/// mixed stream, and most of them small.
pub fn stored(seed: u64, number: u64) -> Vec<u8> {
    let random = &mut Random::new(seed, number);
    if random.one_in(MANY_ROUNDS_ONE_IN) {
        return many_rounds(random).record();
    }
    let kind = some_kind(random);
    let any_size = random.one_in(ANY_SIZE_ONE_IN);
    loop {
        let record = of_kind(random, kind);
        if any_size || record.len() <= SMALL_RECORD {
            return record;
        }
    }
}

fn some_kind(random: &mut Random) -> u8 {
    match random.below(14) {
        0 | 1 => RAW,
        2 | 3 => CORNERS,
        4 | 5 => PLACEMENT,
        6..=9 => SPAN,
        10 | 11 => READ,
        _ => WRITE,
    }
}

fn of_kind(random: &mut Random, kind: u8) -> Vec<u8> {
    match kind {
        READ => reading(random),
        WRITE => writing(random),
        _ => asked(random, kind).record(),
    }
}

/// Question `number` of the stream for the plain search: placements and spans
/// on plans with few placements.
pub fn small(seed: u64, number: u64) -> Vec<u8> {
    let random = &mut Random::new(seed, number);
    let (seen, workload) = searchable(random);
    let span = workloads::some_span(random, &seen);
    let kind = random.pick(&[PLACEMENT, SPAN]);
    let mut asked = Asked::new(kind, seen, workload);
    asked.room += random.pick(&[0, 0, 1]);
    if kind == PLACEMENT {
        asked.periods = span as u16;
    }
    asked.record()
}

/// A plan and a workload with so few placements that all can be looked at,
/// and often with no fewer than some hundreds.
fn searchable(random: &mut Random) -> (CorePlan, Workload) {
    let repeating = random.one_in(REPEATING_ONE_IN);
    if repeating && random.one_in(8) {
        return few_requests_going_round(random, &plans::SMALL, SEARCHED_PARKED);
    }
    let draw = |random: &mut Random| match repeating {
        true => plans::repeating(random, &plans::SMALL, SEARCHED_PERIODS),
        false => plans::sound(random, &plans::SMALL),
    };
    let least = random.pick(&[1, 20, 200, 1_000]);
    for _ in 0..200 {
        let drawn = draw(random);
        let mut seen = starts::some(random, drawn);
        let mut workload = workloads::aimed(random, &seen);
        let placements = workloads::placements(&seen, workload.requests);
        if (least..=MOST_PLACEMENTS).contains(&placements) {
            reach_on(random, &mut seen, &mut workload);
            return (seen, workload);
        }
    }
    let seen = draw(random);
    let mut workload = workloads::aimed(random, &seen);
    workload.requests = 0;
    (seen, workload)
}

/// For some plans that repeat the horizon, or the given span, may be any, but
/// not a long one if the core is parked; the few requests are placed before
/// long.
fn reach_on(random: &mut Random, seen: &mut CorePlan, workload: &mut Workload) {
    let farther = match seen.is_parked() {
        true => SEARCHED_PARKED,
        false => MOST_PERIODS,
    };
    let reach = std::mem::replace(&mut seen.reach, farther);
    let few = workload.requests <= FEW_REQUESTS
        && workloads::placements(seen, workload.requests) <= MOST_PLACEMENTS;
    if seen.is_repeating() && few && random.one_in(3) {
        workload.horizon = workloads::some_span(random, seen) as u16;
    } else {
        seen.reach = reach;
    }
}

/// A plan that repeats and a workload with few requests, for a span near the
/// longest there is, or near so many periods if the core is parked.
fn few_requests_going_round(
    random: &mut Random,
    limits: &Limits,
    parked_reach: u64,
) -> (CorePlan, Workload) {
    let drawn = plans::repeating(random, limits, MOST_PERIODS);
    let mut seen = starts::some(random, drawn);
    if seen.is_parked() {
        seen.reach = parked_reach;
    }
    let requests = random.below(10);
    let workload = workloads::going_round_with(random, &seen, requests);
    (seen, workload)
}

/// Question `number` of the stream for lawful runs: spans on small and middle
/// plans, most of them with no slot to spare. There is no span, and so no run to
/// judge, where the core is parked everywhere.
pub fn for_runs(seed: u64, number: u64) -> Vec<u8> {
    let random = &mut Random::new(seed, number);
    let limits = random.pick(&[&plans::SMALL, &plans::MIDDLE, &plans::MIDDLE]);
    let repeating = random.one_in(REPEATING_ONE_IN);
    let (seen, mut workload) = loop {
        let drawn = match repeating && random.one_in(10) {
            true => few_requests_going_round(random, limits, MOST_PERIODS),
            false => for_whole_runs(random, limits, repeating),
        };
        if drawn.0.capacity(drawn.0.reach) > 0 {
            break drawn;
        }
    };
    workload.horizon = seen.reach as u16;
    if repeating && random.one_in(2) {
        workload.horizon = MOST_PERIODS as u16;
    }
    Asked::new(SPAN, seen, workload).record()
}

/// A plan and a workload with spans of up to as many periods as a plain plan
/// within the limits has.
fn for_whole_runs(random: &mut Random, limits: &Limits, repeating: bool) -> (CorePlan, Workload) {
    let drawn = match repeating {
        true => plans::repeating(random, limits, limits.periods),
        false => plans::sound(random, limits),
    };
    let seen = starts::some(random, drawn);
    let mut workload = workloads::just_fitting(random, &seen);
    if random.one_in(3) {
        workload = workloads::aimed(random, &seen);
    }
    (seen, workload)
}

fn many_rounds(random: &mut Random) -> Asked {
    let drawn = match random.one_in(OF_CYCLES_ONE_IN) {
        true => plans::many_rounds_of_cycles(random),
        false => plans::many_rounds(random),
    };
    let seen = starts::early(random, drawn);
    let workload = workloads::of_many_rounds(random, &seen);
    Asked::new(SPAN, seen, workload)
}

/// The question "span", or with the horizon as the given span the question
/// "placement", with room for the placement.
pub fn workload_record(kind: u8, seen: CorePlan, workload: Workload) -> Vec<u8> {
    Asked::new(kind, seen, workload).record()
}

/// A question of one of the first four kinds; a third of them with faults.
fn asked(random: &mut Random, kind: u8) -> Asked {
    let limits: &Limits = match kind {
        RAW | CORNERS => &plans::ONE_INTERVAL,
        _ => random.pick(&[&plans::WHOLE, &plans::WHOLE, &plans::MIDDLE]),
    };
    let seen = sound_or_marked(random, kind, limits);
    let workload = workloads::aimed(random, &seen);
    let span = workloads::some_span(random, &seen);
    let requests = workloads::some_requests(random, &seen, span);
    let rate = some_rate(random, &seen);
    let places = match kind {
        CORNERS => Curves::new(&seen).0[0].len() as u8,
        _ => seen.plan.lengths.len() as u8,
    };
    let mut asked = Asked::new(kind, seen, workload);
    asked.rate = rate as u32;
    asked.room = places + random.pick(&[0, 0, 1, 5]);
    if kind == PLACEMENT {
        asked.periods = span as u16;
        asked.requests = requests as u32;
    }
    if random.one_in(3) {
        asked.room = places;
        for refusal in some_of(random, asked.refusals()) {
            asked.spoil(random, refusal);
        }
    }
    asked
}

/// Some plans are marked as repeating, which the one-interval questions do not
/// read, and some have a start, which only the others have.
fn sound_or_marked(random: &mut Random, kind: u8, limits: &Limits) -> CorePlan {
    if matches!(kind, RAW | CORNERS) {
        let mut seen = plans::sound(random, limits);
        if random.one_in(MARKED_ONE_IN) {
            seen.plan.mark = plans::some_mark(random);
        }
        return seen;
    }
    let drawn = match random.one_in(REPEATING_ONE_IN) {
        true => plans::repeating(random, limits, MOST_PERIODS),
        false => plans::sound(random, limits),
    };
    starts::some(random, drawn)
}

/// A rate of 0 to the budget, often at the other cores' budgets or the ends;
/// sometimes 1 where the core is parked.
fn some_rate(random: &mut Random, seen: &CorePlan) -> u64 {
    let budget = seen.own_budget(0);
    if budget == 0 {
        return random.pick(&[0, 0, 0, 1]);
    }
    let other = u64::from(random.pick(seen.interval_budgets(0)));
    let rate = match random.below(7) {
        0 => 0,
        1 => 1,
        2 => budget - 1,
        3 => budget,
        4 => other,
        5 => other + 1,
        _ => random.between(0, budget),
    };
    rate.min(budget)
}

/// The question "read a plan file": six lent places, then the file.
fn reading(random: &mut Random) -> Vec<u8> {
    let (bytes, rooms) = files::for_reading(random);
    read_record(rooms, &bytes)
}

pub fn read_record(rooms: [u16; 6], bytes: &[u8]) -> Vec<u8> {
    let mut body = in_two_bytes(&rooms);
    body.extend(bytes);
    record(READ, &body)
}

/// The four lists of workload values, which may differ in length.
pub struct Lists {
    cores: Vec<u8>,
    computing: Vec<u32>,
    requests: Vec<u32>,
    horizons: Vec<u16>,
}

impl Lists {
    pub fn new(listed: &[Workload]) -> Self {
        Lists {
            cores: listed.iter().map(|workload| workload.core).collect(),
            computing: listed.iter().map(|workload| workload.computing).collect(),
            requests: listed.iter().map(|workload| workload.requests).collect(),
            horizons: listed.iter().map(|workload| workload.horizon).collect(),
        }
    }

    fn resize(&mut self, workloads: usize) {
        self.cores.resize(workloads, 1);
        self.computing.resize(workloads, 2);
        self.requests.resize(workloads, 3);
        self.horizons.resize(workloads, 4);
    }

    /// Makes one of the lists longer or shorter than the others, or all of
    /// them too long.
    fn spoil(&mut self, random: &mut Random) {
        match random.below(7) {
            0 => self.cores.push(1),
            1 => drop(self.cores.pop()),
            2 => self.computing.push(7),
            3 => drop(self.requests.pop()),
            4 => self.horizons.push(9),
            5 => self.horizons.clear(),
            _ => self.resize(random.pick(&[257, 300])),
        }
    }
}

/// The question "write a plan file"; a third of them with faults.
fn writing(random: &mut Random) -> Vec<u8> {
    let (seen, listed) = files::sound_contents(random);
    let mut room = files::bytes(&seen.plan, &listed).len() as u64;
    room += random.pick(&[0, 0, 1, 20]);
    let mut lists = Lists::new(&listed);
    let mut plan = seen.plan;
    if random.one_in(3) {
        for refusal in some_of(random, &[1, 2, 3, 4, 5, 23, 25, 11]) {
            match refusal {
                11 => room = random.pick(&[0, room.max(1) - 1, room / 2]),
                23 => plan.mark = plans::some_mark(random),
                25 => lists.spoil(random),
                _ => spoil_plan(random, &mut plan, refusal),
            }
        }
    }
    write_record(&plan, &lists, room as u16)
}

pub fn write_record(plan: &Plan, lists: &Lists, room: u16) -> Vec<u8> {
    let mut body = vec![plan.cores];
    body.extend(plan.slots_per_period.to_le_bytes());
    body.push(plan.mark);
    body.extend(room.to_le_bytes());
    body.push(plan.lengths.len() as u8);
    let counts = [
        plan.budgets.len(),
        lists.cores.len(),
        lists.computing.len(),
        lists.requests.len(),
        lists.horizons.len(),
    ];
    body.extend(in_two_bytes(&counts.map(|count| count as u16)));
    body.extend(in_two_bytes(&plan.lengths));
    body.extend(in_two_bytes(&plan.budgets));
    body.extend(&lists.cores);
    body.extend(in_four_bytes(lists.computing.iter().copied()));
    body.extend(in_four_bytes(lists.requests.iter().copied()));
    body.extend(in_two_bytes(&lists.horizons));
    record(WRITE, &body)
}
