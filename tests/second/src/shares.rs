//! The shares of a span (004, equation 1), in the part of the plan that begins
//! at the start (request 2026-03).

/// The part of a plan that begins at a start below T.
pub struct Part<'a> {
    /// The intervals of every later cycle, whole.
    lengths: &'a [u16],
    /// The intervals of the first cycle: 0 periods for those that are dropped,
    /// and the one the start falls in shortened.
    first: Vec<u64>,
    /// T, the length of one cycle.
    cycle: u64,
}

impl<'a> Part<'a> {
    /// The periods before the start are taken away, interval by interval.
    pub fn new(lengths: &'a [u16], start: u16) -> Self {
        let mut dropped = u64::from(start);
        let mut first = Vec::with_capacity(lengths.len());
        for &length in lengths {
            let length = u64::from(length);
            let before = dropped.min(length);
            first.push(length - before);
            dropped -= before;
        }
        let cycle = lengths.iter().map(|&length| u64::from(length)).sum();
        Part {
            lengths,
            first,
            cycle,
        }
    }

    /// Sets the share of each interval at a span: its periods in the first
    /// cycle, its whole length once for each full cycle after that, and its part
    /// of the last one. A plain plan's span always ends in the first cycle.
    pub fn divide(&self, span: u32, shares: &mut [u64]) {
        let mut left = u64::from(span);
        for (share, &periods) in shares.iter_mut().zip(&self.first) {
            *share = left.min(periods);
            left -= *share;
        }
        if left == 0 {
            return;
        }
        let full_cycles = left / self.cycle;
        left %= self.cycle;
        for (share, &length) in shares.iter_mut().zip(self.lengths) {
            let length = u64::from(length);
            let part = left.min(length);
            *share += full_cycles * length + part;
            left -= part;
        }
    }
}
