//! Runs, and the rules of document 01 that make them lawful.

use crate::task::Task;

/// What one period is used for, in whole slots.
#[derive(Clone, Copy)]
pub struct Period {
    pub computing: u64,
    pub requests: u64,
    pub stall: u64,
}

impl Period {
    pub fn slots(&self) -> u64 {
        self.computing + self.requests + self.stall
    }

    /// A period without work is stall alone: the core is parked in it.
    pub fn has_work(&self) -> bool {
        self.computing + self.requests > 0
    }
}

pub type Run = Vec<Period>;

fn computing(run: &[Period]) -> u64 {
    run.iter().map(|period| period.computing).sum()
}

fn requests(run: &[Period]) -> u64 {
    run.iter().map(|period| period.requests).sum()
}

/// The first rule of lawful runs that the run breaks.
pub fn broken_rule(task: &Task, run: &Run) -> Option<&'static str> {
    if run.len() > task.most_periods() {
        return Some("past the plan's end, or past 65,535 periods of a repeating one");
    }
    for (number, period) in run.iter().enumerate() {
        let last = number + 1 == run.len();
        if period.requests > task.budget(number) {
            return Some("requests above the budget");
        }
        if period.stall > task.raw_stall(number, period.requests) {
            return Some("stall above the raw stall");
        }
        if period.slots() > task.slots || (!last && period.slots() < task.slots) {
            return Some("sum not Q");
        }
        if last && !period.has_work() {
            return Some("no work in the last period");
        }
    }
    if computing(run) > task.computing {
        return Some("computing total");
    }
    (requests(run) > task.requests).then_some("request total")
}

/// Does the run compute in a period in which the core is parked?
pub fn computes_parked(task: &Task, run: &Run) -> bool {
    let mut periods = run.iter().enumerate();
    periods.any(|(number, period)| task.budget(number) == 0 && period.computing > 0)
}

/// "Ends within", first part: has the run at most as many periods as the span?
pub fn is_within(task: &Task, run: &Run) -> bool {
    run.len() <= task.span
}

/// "Ends within", second part: a run of as many periods as the span, all of
/// them full, has done all the stated computing and requests.
pub fn is_done(task: &Task, run: &Run) -> bool {
    computing(run) == task.computing && requests(run) == task.requests
}

pub fn is_full_span(task: &Task, run: &Run) -> bool {
    run.len() == task.span && run.iter().all(|period| period.slots() == task.slots)
}
