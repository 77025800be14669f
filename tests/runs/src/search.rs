//! The longest of all lawful runs, and of the full ones the least work, found
//! by looking at every number of requests in every period.

use crate::run::{Period, Run};
use crate::task::Task;

/// A task is searched if it takes no more than so many steps.
const MOST_STEPS: u64 = 4_000_000;

/// Stands for a number of requests that cannot be made in so many periods.
const NEVER: u64 = u64::MAX;

/// For each number of full periods and each number of requests in them, the
/// least computing that fills them.
pub struct Search<'a> {
    task: &'a Task,
    least: Vec<Vec<u64>>,
    /// The requests in the last of these periods.
    chosen: Vec<Vec<u64>>,
}

impl<'a> Search<'a> {
    /// Looks as far as one run longer than the span would show.
    pub fn new(task: &'a Task) -> Option<Self> {
        let met = task.most_periods().min(task.total_periods());
        let budgets = (0..met).map(|period| task.budget(period));
        let most = budgets.max().unwrap_or(0).min(task.requests);
        let periods = periods_to_fill(task);
        let steps = (periods as u64).checked_mul(task.requests + 1)?;
        if steps.checked_mul(most + 1)? > MOST_STEPS {
            return None;
        }
        let requests = task.requests as usize;
        let mut none = vec![NEVER; requests + 1];
        none[0] = 0;
        let mut search = Search {
            task,
            least: vec![none],
            chosen: vec![vec![0; requests + 1]],
        };
        for period in 0..periods {
            search.add_period(period);
        }
        Some(search)
    }

    fn add_period(&mut self, period: usize) {
        let task = self.task;
        let before = &self.least[period];
        let mut least = vec![NEVER; before.len()];
        let mut chosen = vec![0; before.len()];
        for (made, &computing) in before.iter().enumerate() {
            if computing > task.computing {
                continue;
            }
            let most = task.budget(period).min((before.len() - 1 - made) as u64);
            for requests in 0..=most {
                let stall = task.raw_stall(period, requests);
                let needed = computing + task.slots - requests - stall;
                let all_made = made + requests as usize;
                if needed < least[all_made] {
                    least[all_made] = needed;
                    chosen[all_made] = requests;
                }
            }
        }
        self.least.push(least);
        self.chosen.push(chosen);
    }

    /// The full periods that were found for this number and these requests.
    fn full_periods(&self, periods: usize, requests: usize) -> Run {
        let mut run = Run::new();
        let mut made = requests;
        for period in (0..periods).rev() {
            let requests = self.chosen[period + 1][made];
            let stall = self.task.raw_stall(period, requests);
            run.push(Period {
                computing: self.task.slots - requests - stall,
                requests,
                stall,
            });
            made -= requests as usize;
        }
        run.reverse();
        run
    }

    /// The numbers of requests with which so many full periods can be made.
    fn makeable(&self, periods: usize) -> impl Iterator<Item = usize> + '_ {
        let least = self.least[periods].iter().enumerate();
        let within = least.filter(|&(_, &computing)| computing <= self.task.computing);
        within.map(|(requests, _)| requests)
    }

    /// The longest run, of at most one period more than were filled. A full
    /// period with the least computing has no work if it is parked; a run that
    /// ends with work in it is one period more than those before it.
    pub fn longest(&self) -> Run {
        for periods in (0..self.least.len()).rev() {
            for requests in self.makeable(periods) {
                if let Some(last) = self.one_more(periods, requests) {
                    let run = self.full_periods(periods, requests);
                    return run.into_iter().chain([last]).collect();
                }
            }
            if let Some(run) = self.full_with_least_work(periods) {
                return run;
            }
        }
        Run::new()
    }

    /// A last period with one slot of work, if the run may go on and any work
    /// is left that can be done in it.
    fn one_more(&self, periods: usize, requests: usize) -> Option<Period> {
        let ended = periods == self.task.most_periods();
        let computing = self.least[periods][requests] < self.task.computing;
        let wanted = (requests as u64) < self.task.requests && self.task.budget(periods) > 0;
        let last = Period {
            computing: u64::from(computing),
            requests: u64::from(wanted && !computing),
            stall: 0,
        };
        (last.has_work() && !ended).then_some(last)
    }

    /// A run of so many full periods that does the least work, if one ends with
    /// work.
    pub fn full_with_least_work(&self, periods: usize) -> Option<Run> {
        let work = |&requests: &usize| self.least[periods][requests] + requests as u64;
        let requests = self.makeable(periods).min_by_key(work)?;
        let run = self.full_periods(periods, requests);
        let ends = run.last().is_none_or(Period::has_work);
        ends.then_some(run)
    }
}

/// The span, and the parked periods behind it: a request that is left after the
/// span can be made in the period after these, if the run may be as long.
fn periods_to_fill(task: &Task) -> usize {
    let mut behind = task.span..task.most_periods();
    let next = behind.find(|&period| task.budget(period) > 0);
    next.unwrap_or(task.span)
}
