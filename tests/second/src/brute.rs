//! Placement and span by a plain search over all placements. Nothing here uses
//! the slope order, the bending rates, the shortened first cycle, a division of
//! the span by the cycle or the sequence's claim to be the span.
//! `None` stands for a plan with too many placements to search, or with a
//! common divisor too large to keep.

use crate::placement;
use crate::plan::{CorePlan, Refusal};
use crate::span;

const MOST_PLACEMENTS: u64 = 200_000;
/// The common divisor of all stalls is kept below this.
const MOST_DIVISOR: u128 = 1 << 60;

/// The corners of one interval, each a rate and the raw stall there, found by
/// looking at every rate.
struct Envelope {
    budget: u64,
    corners: Vec<(u64, u64)>,
}

impl Envelope {
    /// From each corner the next is the rate with the greatest slope, and of
    /// several such rates the farthest.
    fn new(seen: &CorePlan, interval: usize) -> Self {
        let budget = seen.own_budget(interval);
        let raw: Vec<u64> = (0..=budget)
            .map(|rate| u64::from(seen.raw_stall(interval, rate)))
            .collect();
        let last = raw.len() - 1;
        let mut corners = vec![(0, raw[0])];
        let mut corner = 0;
        while corner < last {
            let mut next = corner + 1;
            for rate in corner + 2..=last {
                let gained = (raw[rate] - raw[corner]) * (next - corner) as u64;
                if gained >= (raw[next] - raw[corner]) * (rate - corner) as u64 {
                    next = rate;
                }
            }
            corner = next;
            corners.push((corner as u64, raw[corner]));
        }
        Envelope {
            budget: u64::from(budget),
            corners,
        }
    }

    /// The stall of `placed` requests in `periods` periods, times `divisor`,
    /// which every segment's run divides: the last corner that they reach, and
    /// a part of the segment after it, if there is one.
    fn stall(&self, periods: u64, placed: u64, divisor: u128) -> u128 {
        let reached = |&(rate, _): &(u64, u64)| periods * rate <= placed;
        let next = self.corners.partition_point(reached);
        let (from, stall_from) = self.corners[next - 1];
        let whole = u128::from(periods * stall_from) * divisor;
        let Some((to, stall_to)) = self.corners.get(next) else {
            return whole;
        };
        let part = u128::from((placed - periods * from) * (stall_to - stall_from));
        whole + part * (divisor / u128::from(to - from))
    }
}

/// The best placement at one span.
struct Best {
    /// The greatest total stall, times the divisor.
    total: u128,
    divisor: u128,
    placed: u64,
    placement: Vec<u64>,
}

impl Best {
    fn rounded_up(&self) -> u64 {
        self.total.div_ceil(self.divisor) as u64
    }
}

/// The interval of each period of one cycle, in the order of time.
pub struct Cycle(Vec<usize>);

impl Cycle {
    pub fn new(lengths: &[u16]) -> Self {
        let mut interval_of = Vec::new();
        for (interval, &length) in lengths.iter().enumerate() {
            interval_of.extend(vec![interval; usize::from(length)]);
        }
        Cycle(interval_of)
    }

    /// The periods of each of so many intervals in a span, counted one by one
    /// from the start round the cycle.
    pub fn shares(&self, intervals: usize, start: u16, span: u64) -> Vec<u64> {
        let mut shares = vec![0; intervals];
        let round = self.0.iter().cycle().skip(usize::from(start));
        for (_, &interval) in (0..span).zip(round) {
            shares[interval] += 1;
        }
        shares
    }
}

/// All that stays the same while the span changes.
struct Search {
    cycle: Cycle,
    start: u16,
    envelopes: Vec<Envelope>,
    requests: u64,
    divisor: u128,
}

impl Search {
    fn new(seen: &CorePlan, requests: u32, start: u16) -> Option<Self> {
        let intervals = 0..seen.intervals();
        let envelopes: Vec<Envelope> = intervals
            .map(|interval| Envelope::new(seen, interval))
            .collect();
        let mut divisor = 1;
        for envelope in &envelopes {
            for pair in envelope.corners.windows(2) {
                let run = u128::from(pair[1].0 - pair[0].0);
                divisor *= run / greatest_common_divisor(divisor, run);
                if divisor > MOST_DIVISOR {
                    return None;
                }
            }
        }
        Some(Search {
            cycle: Cycle::new(seen.plan.lengths),
            start,
            envelopes,
            requests: u64::from(requests),
            divisor,
        })
    }

    /// The best of all placements at `span`.
    fn best(&self, span: u64) -> Option<Best> {
        let intervals = self.envelopes.len();
        let shares = self.cycle.shares(intervals, self.start, span);
        let most: Vec<u64> = self
            .envelopes
            .iter()
            .zip(&shares)
            .map(|(envelope, share)| (share * envelope.budget).min(self.requests))
            .collect();
        let mut placements = 1;
        for &requests in &most {
            placements *= requests + 1;
            if placements > MOST_PLACEMENTS {
                return None;
            }
        }
        let stalls = self.stalls(&shares, &most);
        let mut placement = vec![0; most.len()];
        let mut best = self.judged(&stalls, &placement)?;
        while advance(&mut placement, &most) {
            if let Some(other) = self.judged(&stalls, &placement) {
                let key = |kept: &Best| (kept.total, kept.placed);
                let order = key(&other).cmp(&key(&best));
                let order = order.then_with(|| other.placement.cmp(&best.placement));
                if order.is_gt() {
                    best = other;
                }
            }
        }
        Some(best)
    }

    /// For each interval the stall of each number of requests placed there,
    /// times the divisor.
    fn stalls(&self, shares: &[u64], most: &[u64]) -> Vec<Vec<u128>> {
        let mut stalls = Vec::new();
        for (interval, envelope) in self.envelopes.iter().enumerate() {
            let stall = |placed| envelope.stall(shares[interval], placed, self.divisor);
            stalls.push((0..=most[interval]).map(stall).collect());
        }
        stalls
    }

    /// One placement with its total, if it places no more than the requests.
    fn judged(&self, stalls: &[Vec<u128>], placement: &[u64]) -> Option<Best> {
        let placed: u64 = placement.iter().sum();
        if placed > self.requests {
            return None;
        }
        let each = stalls.iter().zip(placement);
        Some(Best {
            total: each.map(|(stall, &placed)| stall[placed as usize]).sum(),
            divisor: self.divisor,
            placed,
            placement: placement.to_vec(),
        })
    }
}

fn greatest_common_divisor(one: u128, other: u128) -> u128 {
    if other == 0 {
        one
    } else {
        greatest_common_divisor(other, one % other)
    }
}

/// The next placement with each number at most its `most`, if there is one.
fn advance(placement: &mut [u64], most: &[u64]) -> bool {
    for (placed, &most) in placement.iter_mut().zip(most).rev() {
        if *placed < most {
            *placed += 1;
            return true;
        }
        *placed = 0;
    }
    false
}

fn write_placement(best: &Best, place: &mut [u32]) {
    for (written, &placed) in place.iter_mut().zip(&best.placement) {
        *written = placed as u32;
    }
}

/// Placement and stall at a given span.
pub fn placement(
    question: &placement::Question,
    place: &mut [u32],
) -> Option<Result<u64, Refusal>> {
    let seen = match question.judge(place.len()) {
        Ok(seen) => seen,
        Err(refusal) => return Some(Err(refusal)),
    };
    let search = Search::new(&seen, question.requests, question.start)?;
    let best = search.best(u64::from(question.span))?;
    write_placement(&best, place);
    Some(Ok(best.rounded_up()))
}

/// Span, as the least number of periods that is enough.
pub fn span(question: &span::Question, place: &mut [u32]) -> Option<Result<span::Answer, Refusal>> {
    let seen = match question.judge(place.len()) {
        Ok(seen) => seen,
        Err(refusal) => return Some(Err(refusal)),
    };
    let search = Search::new(&seen, question.requests, question.start)?;
    let slots_per_period = u64::from(seen.plan.slots_per_period);
    for periods in 1..=u64::from(question.horizon) {
        let spare = (periods * slots_per_period).checked_sub(question.unstalled());
        let Some(spare) = spare else { continue };
        let best = search.best(periods)?;
        if best.total <= u128::from(spare) * best.divisor {
            write_placement(&best, place);
            return Some(Ok(span::Answer {
                span: periods as u32,
                stall: best.rounded_up(),
                rounds: rounds(&search, question.unstalled(), slots_per_period)?,
            }));
        }
    }
    Some(Err(Refusal::NoSpan))
}

/// Terms after the first, up to the first that equals the one before it.
fn rounds(search: &Search, unstalled: u64, slots_per_period: u64) -> Option<u32> {
    let mut terms = vec![unstalled.div_ceil(slots_per_period)];
    loop {
        let last = terms[terms.len() - 1];
        let best = search.best(last)?;
        let slots = u128::from(unstalled) * best.divisor + best.total;
        terms.push(slots.div_ceil(u128::from(slots_per_period) * best.divisor) as u64);
        if terms[terms.len() - 1] == last {
            return Some(terms.len() as u32 - 1);
        }
    }
}
