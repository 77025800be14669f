//! Units and bounds: a plan of budgets, and the refusals 1 to 6, 14 and 10
//! judged on it.
//! A plan may be marked as repeating (request 2026-01): it then starts over
//! each time its last period has ended. A core may have a budget of 0 in some
//! intervals (request 2026-02): it is parked there. A workload may start after
//! the plan's first period (request 2026-03).

pub const MOST_CORES: u8 = 8;
pub const MOST_SLOTS_PER_PERIOD: u32 = 65_535;
pub const MOST_INTERVALS: usize = 64;
pub const MOST_PERIODS: u32 = 65_535;
/// The largest computing, and the largest number of requests.
pub const MOST_OF_A_WORKLOAD: u32 = 4_294_836_225;

/// Why a question is refused; the number is the one of the public table. Its 7
/// never occurs since request 2026-02.
#[derive(Clone, Copy, PartialEq, Eq, Debug)]
pub enum Refusal {
    Cores = 1,
    SlotsPerPeriod = 2,
    Intervals = 3,
    Periods = 4,
    BudgetSum = 5,
    Core = 6,
    Computing = 8,
    Requests = 9,
    Horizon = 10,
    NoRoom = 11,
    NoSpan = 12,
    RateAboveBudget = 13,
    Start = 14,
    FileEnds = 20,
    RecordKind = 21,
    RecordLength = 22,
    NotZero = 23,
    ListedZeroBudget = 24,
    Workloads = 25,
}

impl Refusal {
    pub fn number(self) -> u64 {
        self as u64
    }
}

/// Refuses with `refusal` unless `lawful`.
pub fn demand(lawful: bool, refusal: Refusal) -> Result<(), Refusal> {
    if lawful {
        Ok(())
    } else {
        Err(refusal)
    }
}

pub fn judge_cores(cores: u8) -> Result<(), Refusal> {
    demand((1..=MOST_CORES).contains(&cores), Refusal::Cores)
}

pub fn judge_slots_per_period(slots: u32) -> Result<(), Refusal> {
    let lawful = (1..=MOST_SLOTS_PER_PERIOD).contains(&slots);
    demand(lawful, Refusal::SlotsPerPeriod)
}

pub fn judge_intervals(intervals: usize) -> Result<(), Refusal> {
    let lawful = (1..=MOST_INTERVALS).contains(&intervals);
    demand(lawful, Refusal::Intervals)
}

/// Judges one interval, 4 before 5, and gives the running total of periods
/// with this interval in it.
pub fn judge_interval(
    total_before: u32,
    length: u16,
    budgets: &[u16],
    slots_per_period: u32,
) -> Result<u32, Refusal> {
    let total = total_before + u32::from(length);
    demand(length >= 1 && total <= MOST_PERIODS, Refusal::Periods)?;
    let sum: u64 = budgets.iter().map(|&budget| u64::from(budget)).sum();
    demand(sum == u64::from(slots_per_period), Refusal::BudgetSum)?;
    Ok(total)
}

/// What is stated of a plan before its intervals, not judged yet.
#[derive(Clone, Copy, Default)]
pub struct Head {
    pub cores: u8,
    pub slots_per_period: u32,
    /// The mark: a plan that starts over, not a plain one.
    pub repeating: bool,
}

/// A plan as it is given, not judged yet.
#[derive(Clone, Copy)]
pub struct GivenPlan<'a> {
    pub head: Head,
    pub lengths: &'a [u16],
    pub budgets: &'a [u16],
}

impl<'a> GivenPlan<'a> {
    /// Judges 1, 2, 3, then interval by interval 4 before 5.
    pub fn judge(self) -> Result<Plan<'a>, Refusal> {
        let slots_per_period = self.head.slots_per_period;
        judge_cores(self.head.cores)?;
        judge_slots_per_period(slots_per_period)?;
        judge_intervals(self.lengths.len())?;
        let cores = usize::from(self.head.cores);
        let wanted = self.lengths.len() * cores;
        demand(self.budgets.len() == wanted, Refusal::Intervals)?;
        let mut total_periods = 0;
        for (&length, budgets) in self.lengths.iter().zip(self.budgets.chunks(cores)) {
            total_periods = judge_interval(total_periods, length, budgets, slots_per_period)?;
        }
        Ok(Plan {
            cores,
            slots_per_period,
            repeating: self.head.repeating,
            lengths: self.lengths,
            budgets: self.budgets,
            total_periods,
        })
    }
}

/// A lawful plan.
#[derive(Clone, Copy)]
pub struct Plan<'a> {
    pub cores: usize,
    pub slots_per_period: u32,
    pub repeating: bool,
    pub lengths: &'a [u16],
    pub budgets: &'a [u16],
    /// T: of a repeating plan, the length of one cycle.
    pub total_periods: u32,
}

impl<'a> Plan<'a> {
    /// Judges 14 for a start, which is below T, then 10 for a horizon or a given
    /// span, which counts from there: 1 to T less the start for a plain plan, 1
    /// to 65,535 for a repeating one, whatever its T and the start are.
    pub fn judge_periods(&self, start: u16, periods: u16) -> Result<(), Refusal> {
        let start = u32::from(start);
        demand(start < self.total_periods, Refusal::Start)?;
        let most = if self.repeating {
            MOST_PERIODS
        } else {
            self.total_periods - start
        };
        demand((1..=most).contains(&u32::from(periods)), Refusal::Horizon)
    }

    /// The budgets of one interval, core 1 first.
    pub fn interval_budgets(&self, interval: usize) -> &'a [u16] {
        &self.budgets[interval * self.cores..(interval + 1) * self.cores]
    }

    /// Judges 6 and gives the plan as seen from that core.
    pub fn seen_from(self, core: u8) -> Result<CorePlan<'a>, Refusal> {
        let core = usize::from(core);
        demand((1..=self.cores).contains(&core), Refusal::Core)?;
        Ok(CorePlan {
            plan: self,
            core: core - 1,
        })
    }
}

/// A lawful plan with the core under analysis.
#[derive(Clone, Copy)]
pub struct CorePlan<'a> {
    pub plan: Plan<'a>,
    /// Counted from 0.
    pub core: usize,
}

impl CorePlan<'_> {
    pub fn intervals(&self) -> usize {
        self.plan.lengths.len()
    }

    /// The budget of the core under analysis in one interval.
    pub fn own_budget(&self, interval: usize) -> u32 {
        u32::from(self.plan.interval_budgets(interval)[self.core])
    }

    /// Raw stall in one period of an interval, at `rate` requests of at most
    /// the core's budget there (004, equation 2). Where the core is parked that
    /// is the whole of Q, at 0 requests.
    pub fn raw_stall(&self, interval: usize, rate: u32) -> u32 {
        let own = self.own_budget(interval);
        if rate == own {
            return self.plan.slots_per_period - own;
        }
        let budgets = self.plan.interval_budgets(interval).iter().enumerate();
        budgets
            .filter(|&(core, _)| core != self.core)
            .map(|(_, &budget)| rate.min(u32::from(budget)))
            .sum()
    }
}
