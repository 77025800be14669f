//! Span: the sequence of terms up to the horizon (004, equation 11), which
//! counts from the start as they do.

use crate::placement::Steepest;
use crate::plan::{demand, CorePlan, GivenPlan, Refusal, MOST_OF_A_WORKLOAD};

/// The question "span".
pub struct Question<'a> {
    pub plan: GivenPlan<'a>,
    pub core: u8,
    pub computing: u32,
    pub requests: u32,
    pub horizon: u16,
    pub start: u16,
}

/// The results beside the placement.
#[derive(Clone, Copy, PartialEq, Eq, Debug)]
pub struct Answer {
    pub span: u32,
    pub stall: u64,
    pub rounds: u32,
}

impl<'a> Question<'a> {
    /// Judges 1 to 6, 8, 9, 14, 10 and 11.
    pub fn judge(&self, room: usize) -> Result<CorePlan<'a>, Refusal> {
        let seen = self.plan.judge()?.seen_from(self.core)?;
        let computing = 1..=MOST_OF_A_WORKLOAD;
        demand(computing.contains(&self.computing), Refusal::Computing)?;
        demand(self.requests <= MOST_OF_A_WORKLOAD, Refusal::Requests)?;
        seen.plan.judge_periods(self.start, self.horizon)?;
        demand(room >= seen.intervals(), Refusal::NoRoom)?;
        Ok(seen)
    }

    /// Computing and requests together, in slots.
    pub fn unstalled(&self) -> u64 {
        u64::from(self.computing) + u64::from(self.requests)
    }

    /// Writes the placement into the lent place and gives the other results.
    pub fn answer(&self, place: &mut [u32]) -> Result<Answer, Refusal> {
        let seen = self.judge(place.len())?;
        let mut placement = vec![0; seen.intervals()];
        let answer = self.search(&seen, &mut placement)?;
        place[..placement.len()].copy_from_slice(&placement);
        Ok(answer)
    }

    /// Rounding the stall up to whole slots first leaves the next term the
    /// same, since all else in it is whole.
    fn search(&self, seen: &CorePlan, placement: &mut [u32]) -> Result<Answer, Refusal> {
        let mut steepest = Steepest::new(seen, self.start);
        let slots_per_period = u64::from(seen.plan.slots_per_period);
        let mut term = self.unstalled().div_ceil(slots_per_period);
        let mut rounds = 0;
        while term <= u64::from(self.horizon) {
            let span = term as u32;
            let stall = steepest.fill(span, self.requests, placement);
            term = (self.unstalled() + stall).div_ceil(slots_per_period);
            rounds += 1;
            if term == u64::from(span) {
                return Ok(Answer {
                    span,
                    stall,
                    rounds,
                });
            }
        }
        Err(Refusal::NoSpan)
    }
}
