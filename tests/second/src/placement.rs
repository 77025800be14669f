//! Placement: the greatest total stall at a given span, by slope. The span
//! counts from the start.

use crate::curve::corners;
use crate::plan::{demand, CorePlan, GivenPlan, Refusal, MOST_OF_A_WORKLOAD};
use crate::shares::Part;

/// One segment of one interval's envelope, for one period.
struct Segment {
    interval: usize,
    /// Stall added over the whole segment.
    rise: u64,
    /// Requests needed for the whole segment.
    run: u64,
}

/// The segments of all intervals, steepest first; of two equally steep ones
/// the earlier interval's comes first.
pub struct Steepest<'a> {
    part: Part<'a>,
    /// The raw stall at 0 requests in one period of each interval.
    raw_at_0: Vec<u64>,
    segments: Vec<Segment>,
    /// The share of each interval, in periods, at the span last filled.
    shares: Vec<u64>,
}

impl<'a> Steepest<'a> {
    pub fn new(seen: &CorePlan<'a>, start: u16) -> Self {
        let mut raw_at_0 = Vec::new();
        let mut segments = Vec::new();
        for interval in 0..seen.intervals() {
            let corners = corners(seen, interval);
            raw_at_0.push(u64::from(corners[0].stall));
            for pair in corners.windows(2) {
                segments.push(Segment {
                    interval,
                    rise: u64::from(pair[1].stall - pair[0].stall),
                    run: u64::from(pair[1].rate - pair[0].rate),
                });
            }
        }
        // The sort is stable, so equal slopes stay in the order of intervals.
        segments.sort_by(|one, other| (other.rise * one.run).cmp(&(one.rise * other.run)));
        Steepest {
            part: Part::new(seen.plan.lengths, start),
            raw_at_0,
            segments,
            shares: vec![0; seen.intervals()],
        }
    }

    /// Places as many of the requests as fit, steepest segments first, and
    /// gives the total stall rounded up: that of the shares without requests,
    /// and what the requests add. Within one interval the slopes fall, so its
    /// segments are filled in their own order; only the last segment filled can
    /// be filled in part, so there is one fraction at most.
    pub fn fill(&mut self, span: u32, requests: u32, placement: &mut [u32]) -> u64 {
        self.part.divide(span, &mut self.shares);
        placement.fill(0);
        let mut left = u64::from(requests);
        let without_requests = self.shares.iter().zip(&self.raw_at_0);
        let mut stall = without_requests.map(|(share, each)| share * each).sum();
        for segment in &self.segments {
            let periods = self.shares[segment.interval];
            let placed = left.min(periods * segment.run);
            stall += (placed * segment.rise).div_ceil(segment.run);
            placement[segment.interval] += placed as u32;
            left -= placed;
            if left == 0 {
                break;
            }
        }
        stall
    }
}

/// The question "placement and stall at a given span".
pub struct Question<'a> {
    pub plan: GivenPlan<'a>,
    pub core: u8,
    pub requests: u32,
    pub span: u16,
    pub start: u16,
}

impl<'a> Question<'a> {
    /// Judges 1 to 6, 9, 14, 10 and 11.
    pub fn judge(&self, room: usize) -> Result<CorePlan<'a>, Refusal> {
        let seen = self.plan.judge()?.seen_from(self.core)?;
        demand(self.requests <= MOST_OF_A_WORKLOAD, Refusal::Requests)?;
        seen.plan.judge_periods(self.start, self.span)?;
        demand(room >= seen.intervals(), Refusal::NoRoom)?;
        Ok(seen)
    }

    /// Writes the placement into the lent place and gives the stall.
    pub fn answer(&self, place: &mut [u32]) -> Result<u64, Refusal> {
        let seen = self.judge(place.len())?;
        let placement = &mut place[..seen.intervals()];
        let mut steepest = Steepest::new(&seen, self.start);
        Ok(steepest.fill(u32::from(self.span), self.requests, placement))
    }
}
