//! Sound plans of all shapes.

use crate::random::Random;

pub const MOST_PERIODS: u64 = 65_535;
pub const MOST_SLOTS: u64 = 65_535;
/// The largest computing, and the largest number of requests.
pub const MOST_OF_A_WORKLOAD: u64 = 4_294_836_225;

/// A plan as questions and files state it.
#[derive(Clone)]
pub struct Plan {
    pub cores: u8,
    pub slots_per_period: u32,
    /// 0 for a plain plan, anything else for a repeating one; a file has no
    /// place for it.
    pub mark: u8,
    pub lengths: Vec<u16>,
    /// Interval by interval, core 1 first.
    pub budgets: Vec<u16>,
}

impl Plan {
    /// T; of a repeating plan, the length of one cycle.
    pub fn total_periods(&self) -> u64 {
        self.lengths.iter().map(|&length| u64::from(length)).sum()
    }
}

/// A sound plan with the core under analysis, which may be parked in some
/// intervals: its budget there is 0.
pub struct CorePlan {
    pub plan: Plan,
    /// Counted from 1.
    pub core: u8,
    /// The periods of the plan before the workload, fewer than T. Spans and
    /// horizons count from there.
    pub start: u64,
    /// The longest span and horizon that are asked for: T less the start, or
    /// for a repeating plan anything up to 65,535.
    pub reach: u64,
}

impl CorePlan {
    /// A plain plan, which reaches to its end.
    pub fn plain(plan: Plan, core: u8) -> Self {
        let reach = plan.total_periods();
        CorePlan {
            plan,
            core,
            start: 0,
            reach,
        }
    }

    /// The same plan for a workload that starts later, by so many periods.
    pub fn starting(mut self, start: u64) -> Self {
        self.start = start;
        if !self.is_repeating() {
            self.reach = self.total_periods() - start;
        }
        self
    }

    pub fn is_repeating(&self) -> bool {
        self.plan.mark != 0
    }

    pub fn total_periods(&self) -> u64 {
        self.plan.total_periods()
    }

    pub fn interval_budgets(&self, interval: usize) -> &[u16] {
        let cores = usize::from(self.plan.cores);
        &self.plan.budgets[interval * cores..(interval + 1) * cores]
    }

    pub fn own_budget(&self, interval: usize) -> u64 {
        u64::from(self.interval_budgets(interval)[usize::from(self.core) - 1])
    }

    /// The intervals in which the core is parked.
    pub fn parked_intervals(&self) -> Vec<usize> {
        let intervals = 0..self.plan.lengths.len();
        let parked = intervals.filter(|&interval| self.own_budget(interval) == 0);
        parked.collect()
    }

    pub fn is_parked(&self) -> bool {
        !self.parked_intervals().is_empty()
    }

    /// The periods of each interval at a span: those up to its end without
    /// those before the start.
    pub fn shares(&self, span: u64) -> Vec<u64> {
        let until_end = self.periods_until(self.start + span).into_iter();
        let both = until_end.zip(self.periods_until(self.start));
        both.map(|(until_end, before)| until_end - before).collect()
    }

    /// The periods of each interval from the plan's beginning on: its length
    /// for each full cycle and its part of what is left.
    fn periods_until(&self, end: u64) -> Vec<u64> {
        let full_cycles = end / self.total_periods();
        let mut left = end % self.total_periods();
        let mut periods = Vec::new();
        for &length in &self.plan.lengths {
            let part = left.min(u64::from(length));
            periods.push(full_cycles * u64::from(length) + part);
            left -= part;
        }
        periods
    }

    /// The periods before an interval in one cycle.
    pub fn periods_before(&self, interval: usize) -> u64 {
        let before = self.plan.lengths[..interval].iter();
        before.map(|&length| u64::from(length)).sum()
    }

    /// The interval in which a period of one cycle lies, counted from 0.
    pub fn interval_of(&self, period: u64) -> usize {
        let intervals = 1..self.plan.lengths.len();
        let begun = intervals.filter(|&interval| self.periods_before(interval) <= period);
        begun.count()
    }

    /// The requests that fit into a span.
    pub fn capacity(&self, span: u64) -> u64 {
        let shares = self.shares(span).into_iter().enumerate();
        shares
            .map(|(interval, share)| share * self.own_budget(interval))
            .sum()
    }
}

/// The largest values a plan is drawn with.
pub struct Limits {
    pub cores: u64,
    pub slots: u64,
    pub intervals: u64,
    pub periods: u64,
}

pub const WHOLE: Limits = Limits {
    cores: 8,
    slots: MOST_SLOTS,
    intervals: 64,
    periods: MOST_PERIODS,
};
pub const ONE_INTERVAL: Limits = Limits {
    intervals: 1,
    ..WHOLE
};
pub const MIDDLE: Limits = Limits {
    cores: 8,
    slots: 120,
    intervals: 8,
    periods: 60,
};
pub const SMALL: Limits = Limits {
    cores: 4,
    slots: 16,
    intervals: 4,
    periods: 12,
};

/// Short cycles have at most so many periods.
const SHORT_CYCLE: u64 = 10;

/// In one of so many plans the core is parked in some intervals.
const PARKED_ONE_IN: u64 = 3;

#[derive(Clone, Copy, PartialEq, Eq)]
enum Shape {
    Any,
    OneCore,
    OwnBudgetOne,
    EqualBudgets,
    OthersZero,
    /// The same one, two or three curves in many intervals.
    FewCurves,
    /// Budgets that differ by a slot or two from interval to interval.
    Neighbours,
    /// Two curves with slopes that are all but equal.
    CloseSlopes,
    Largest,
    FewSlots,
}

const SHAPES: [Shape; 15] = [
    Shape::Any,
    Shape::Any,
    Shape::Any,
    Shape::OneCore,
    Shape::OwnBudgetOne,
    Shape::EqualBudgets,
    Shape::OthersZero,
    Shape::FewCurves,
    Shape::FewCurves,
    Shape::Neighbours,
    Shape::Neighbours,
    Shape::CloseSlopes,
    Shape::Largest,
    Shape::FewSlots,
    Shape::FewSlots,
];

/// What all intervals of a plan under construction have in common.
struct Frame {
    cores: usize,
    /// The place of the core under analysis among the cores.
    own: usize,
    slots: u64,
}

/// A sound plan within the limits.
pub fn sound(random: &mut Random, limits: &Limits) -> CorePlan {
    let shape = random.pick(&SHAPES);
    let frame = frame(random, shape, limits);
    let intervals = match shape {
        Shape::CloseSlopes => random.between(limits.intervals.min(2), limits.intervals.min(8)),
        _ => intervals(random, limits),
    };
    let all_periods = shape == Shape::Largest || random.one_in(8);
    let lengths = lengths(random, limits, intervals, all_periods);
    framed(random, shape, &frame, lengths)
}

/// A sound plan that repeats, mostly with a short cycle, for spans up to
/// `reach` periods or T, whichever is more.
pub fn repeating(random: &mut Random, limits: &Limits, reach: u64) -> CorePlan {
    let cycle = match random.below(6) {
        0 | 1 => random.between(1, SHORT_CYCLE.min(limits.periods)),
        2 | 3 => random.any_size(1, limits.periods),
        _ => limits.periods,
    };
    let within = Limits {
        intervals: limits.intervals.min(cycle),
        periods: cycle,
        ..*limits
    };
    let seen = sound(random, &within);
    marked(random, seen, reach)
}

/// The plan marked as repeating.
fn marked(random: &mut Random, mut seen: CorePlan, reach: u64) -> CorePlan {
    seen.plan.mark = some_mark(random);
    seen.reach = reach.max(seen.total_periods());
    seen
}

/// A byte that marks a plan as repeating.
pub fn some_mark(random: &mut Random) -> u8 {
    random.pick(&[1, 1, 1, 2, 128, 255])
}

/// A plan whose core has a budget of 1, or is parked, with so many slots and
/// periods that a search goes on for tens of thousands of rounds.
pub fn many_rounds(random: &mut Random) -> CorePlan {
    let frame = many_rounds_frame(random);
    let intervals = intervals(random, &WHOLE);
    let lengths = lengths(random, &WHOLE, intervals, true);
    framed(random, Shape::OwnBudgetOne, &frame, lengths)
}

/// The same with a plan that repeats and goes round thousands of times.
pub fn many_rounds_of_cycles(random: &mut Random) -> CorePlan {
    let frame = many_rounds_frame(random);
    let periods = random.between(1, SHORT_CYCLE);
    let within = Limits { periods, ..WHOLE };
    let intervals = random.between(1, periods);
    let lengths = lengths(random, &within, intervals, false);
    let seen = framed(random, Shape::OwnBudgetOne, &frame, lengths);
    marked(random, seen, MOST_PERIODS)
}

fn many_rounds_frame(random: &mut Random) -> Frame {
    let cores = random.between(2, WHOLE.cores);
    Frame {
        cores: cores as usize,
        own: random.below(cores) as usize,
        slots: random.between(60_000, MOST_SLOTS),
    }
}

fn frame(random: &mut Random, shape: Shape, limits: &Limits) -> Frame {
    let cores = match shape {
        Shape::OneCore => 1,
        Shape::CloseSlopes => random.between(3, limits.cores),
        _ => random.between(1, limits.cores),
    };
    let slots = match shape {
        Shape::EqualBudgets => cores * random.any_size(1, limits.slots / cores),
        Shape::FewSlots => random.between(1, limits.slots.min(24)),
        Shape::Largest => limits.slots,
        Shape::CloseSlopes => random.between(limits.slots / 2, limits.slots),
        _ if random.one_in(2) => random.between(1, limits.slots),
        _ => random.any_size(1, limits.slots),
    };
    Frame {
        cores: cores as usize,
        own: random.below(cores) as usize,
        slots,
    }
}

fn framed(random: &mut Random, shape: Shape, frame: &Frame, lengths: Vec<u16>) -> CorePlan {
    let columns = columns(random, shape, frame, lengths.len());
    let budgets = columns.concat().into_iter().map(|budget| budget as u16);
    let mut plan = Plan {
        cores: frame.cores as u8,
        slots_per_period: frame.slots as u32,
        mark: 0,
        lengths,
        budgets: budgets.collect(),
    };
    if random.one_in(PARKED_ONE_IN) {
        park(random, &mut plan, frame.own);
    }
    CorePlan::plain(plan, frame.own as u8 + 1)
}

/// Parks the core in the first interval, the last, any one, all but one, some
/// or all of them. Its budget there goes to another core, so a core that is
/// alone keeps it.
fn park(random: &mut Random, plan: &mut Plan, own: usize) {
    let cores = usize::from(plan.cores);
    let last = plan.lengths.len() - 1;
    let several = last > 0;
    let one = random.between(0, last as u64) as usize;
    let way = random.below(8);
    for (interval, budgets) in plan.budgets.chunks_exact_mut(cores).enumerate() {
        let parked = match way {
            0 | 1 => several && interval == 0,
            2 => several && interval == last,
            3 | 4 => interval == one,
            5 => interval != one,
            6 => random.one_in(2),
            _ => true,
        };
        if parked && cores > 1 {
            let other = own + random.between(1, cores as u64 - 1) as usize;
            budgets[other % cores] += budgets[own];
            budgets[own] = 0;
        }
    }
}

/// A plan whose records are as long as can be: 64 intervals, and a budget for
/// each of eight cores in all of them.
pub fn longest(random: &mut Random) -> CorePlan {
    let slots = random.between(8, MOST_SLOTS);
    let mut budgets = Vec::new();
    for _ in 0..WHOLE.intervals {
        let beyond = parts(random, slots - WHOLE.cores, WHOLE.cores as usize);
        budgets.extend(beyond.iter().map(|&more| more as u16 + 1));
    }
    let plan = Plan {
        cores: WHOLE.cores as u8,
        slots_per_period: slots as u32,
        mark: 0,
        lengths: lengths(random, &WHOLE, WHOLE.intervals, false),
        budgets,
    };
    CorePlan::plain(plan, random.between(1, WHOLE.cores) as u8)
}

fn intervals(random: &mut Random, limits: &Limits) -> u64 {
    match random.below(4) {
        0 => 1,
        1 => random.between(1, limits.intervals.min(4)),
        2 => random.between(1, limits.intervals),
        _ if random.one_in(4) => limits.intervals,
        _ => random.any_size(1, limits.intervals),
    }
}

/// Lengths of 1 or more; `all_periods`: their total is the largest allowed.
fn lengths(random: &mut Random, limits: &Limits, intervals: u64, all_periods: bool) -> Vec<u16> {
    let total = match random.below(4) {
        _ if all_periods => limits.periods,
        0 => intervals,
        1 => random.between(intervals, limits.periods.min(3 * intervals)),
        2 => random.between(intervals, limits.periods),
        _ => random.any_size(intervals, limits.periods),
    };
    let mut beyond = parts(random, total - intervals, intervals as usize);
    if random.one_in(4) {
        beyond = vec![0; intervals as usize];
        beyond[random.below(intervals) as usize] = total - intervals;
    }
    beyond.into_iter().map(|more| more as u16 + 1).collect()
}

/// `count` parts of 0 or more that sum to `total`.
pub fn parts(random: &mut Random, total: u64, count: usize) -> Vec<u64> {
    let mut cuts: Vec<u64> = (1..count).map(|_| random.between(0, total)).collect();
    cuts.push(total);
    cuts.sort_unstable();
    let mut before = 0;
    let mut parts = Vec::new();
    for cut in cuts {
        parts.push(cut - before);
        before = cut;
    }
    parts
}

/// The budgets of each interval.
fn columns(random: &mut Random, shape: Shape, frame: &Frame, intervals: usize) -> Vec<Vec<u64>> {
    let kinds = match shape {
        Shape::FewCurves => random.between(1, 3) as usize,
        Shape::Neighbours => 1,
        Shape::CloseSlopes => 2,
        _ => intervals,
    };
    let mut kept: Vec<Vec<u64>> = (0..kinds).map(|_| column(random, shape, frame)).collect();
    if shape == Shape::CloseSlopes {
        kept = close_slopes(random, frame).unwrap_or(kept);
    }
    let mut columns = Vec::new();
    for interval in 0..intervals {
        let of_kind = random.below(kinds as u64) as usize;
        columns.push(match shape {
            Shape::FewCurves => other_cores_turned(random, frame, &kept[of_kind]),
            Shape::CloseSlopes => kept[of_kind].clone(),
            Shape::Neighbours => slots_moved(random, frame, &kept[0]),
            _ => kept[interval].clone(),
        });
    }
    columns
}

/// The budgets of one interval.
fn column(random: &mut Random, shape: Shape, frame: &Frame) -> Vec<u64> {
    let Frame { cores, own, slots } = *frame;
    let own_budget = match shape {
        _ if cores == 1 => slots,
        Shape::OthersZero => slots,
        Shape::OwnBudgetOne => 1,
        Shape::EqualBudgets => slots / cores as u64,
        _ => own_budget(random, cores as u64, slots),
    };
    let mut budgets = match shape {
        Shape::EqualBudgets => vec![own_budget; cores - 1],
        _ => other_budgets(random, cores - 1, slots - own_budget, own_budget),
    };
    budgets.insert(own, own_budget);
    budgets
}

fn own_budget(random: &mut Random, cores: u64, slots: u64) -> u64 {
    match random.below(5) {
        0 => random.between(1, slots),
        1 => random.any_size(1, slots),
        2 => slots - random.any_size(0, slots - 1),
        3 => (slots / cores).max(1),
        _ => random.between(1, slots.min(9)),
    }
}

/// Budgets of the other cores; there may be none, and then `slots` is 0.
fn other_budgets(random: &mut Random, count: usize, slots: u64, own_budget: u64) -> Vec<u64> {
    if count == 0 {
        return Vec::new();
    }
    let mut budgets = parts(random, slots, count);
    match random.below(6) {
        0 => budgets = near_equal(slots, count),
        1 => {
            budgets = vec![0; count];
            budgets[random.below(count as u64) as usize] = slots;
        }
        2 => {
            // One of them at the own budget, or beside it.
            let beside = (own_budget + random.below(3)).saturating_sub(1).min(slots);
            budgets = parts(random, slots - beside, count);
            budgets[random.below(count as u64) as usize] += beside;
        }
        3 => {
            let active = random.between(1, count as u64) as usize;
            budgets = parts(random, slots, active);
            budgets.resize(count, 0);
            budgets.rotate_left(random.below(count as u64) as usize);
        }
        _ => {}
    }
    budgets
}

fn near_equal(slots: u64, count: usize) -> Vec<u64> {
    let mut budgets = vec![slots / count as u64; count];
    budgets[0] += slots % count as u64;
    budgets
}

/// The same curve: the other cores' budgets in another order.
fn other_cores_turned(random: &mut Random, frame: &Frame, column: &[u64]) -> Vec<u64> {
    let mut others = column.to_vec();
    let own_budget = others.remove(frame.own);
    if !others.is_empty() {
        let places = random.below(others.len() as u64) as usize;
        others.rotate_left(places);
    }
    others.insert(frame.own, own_budget);
    others
}

/// Up to three slots moved from one core to another.
fn slots_moved(random: &mut Random, frame: &Frame, column: &[u64]) -> Vec<u64> {
    let mut budgets = column.to_vec();
    for _ in 0..random.below(4) {
        let from = random.below(frame.cores as u64) as usize;
        let to = random.below(frame.cores as u64) as usize;
        let kept = u64::from(from == frame.own);
        if budgets[from] > kept {
            budgets[from] -= 1;
            budgets[to] += 1;
        }
    }
    budgets
}

/// The budgets of two intervals whose second slopes are all but equal. With
/// own budget q, another core's low budget a and the rest on a third core, the
/// second segment goes from a to q and rises by Q - q - 2a, for q of more than
/// Q/3 and at most (Q - a)/2. `None`: too few cores or slots for this.
fn close_slopes(random: &mut Random, frame: &Frame) -> Option<Vec<Vec<u64>>> {
    let slots = frame.slots;
    if frame.cores < 3 || slots < 100 {
        return None;
    }
    let low = random.between(1, slots / 8);
    let own = random.between(slots / 3 + 1, (slots - low) / 2);
    let (run, both) = (own - low, slots - 3 * low);
    let mut closest = None;
    for other_low in 1..=slots / 8 {
        let other_both = slots - 3 * other_low;
        let other_run = (other_both * run + both / 2) / both;
        let other_own = other_run + other_low;
        let apart = (both * other_run).abs_diff(other_both * run);
        let lawful = other_own > slots / 3 && 2 * other_own <= slots - other_low;
        let closer = closest.is_none_or(|(least, _, _)| apart < least);
        if lawful && apart > 0 && closer {
            closest = Some((apart, other_own, other_low));
        }
    }
    let (_, other_own, other_low) = closest?;
    let columns = [(own, low), (other_own, other_low)];
    Some(
        columns
            .map(|(own, low)| low_and_rest(frame, own, low))
            .to_vec(),
    )
}

/// The own budget, a low one for the next core, and the rest for a third.
fn low_and_rest(frame: &Frame, own: u64, low: u64) -> Vec<u64> {
    let mut budgets = vec![0; frame.cores];
    budgets[frame.own] = own;
    budgets[(frame.own + 1) % frame.cores] = low;
    budgets[(frame.own + 2) % frame.cores] = frame.slots - own - low;
    budgets
}
