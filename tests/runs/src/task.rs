//! One workload on one core of a plan, with the span that was answered.

const SPAN: u8 = 4;

/// The most periods that a run on a repeating plan may have.
const MOST_PERIODS: usize = 65_535;

/// A span question that was answered with a span.
pub struct Task {
    pub cores: u8,
    pub slots: u64,
    pub repeating: bool,
    pub computing: u64,
    pub requests: u64,
    /// The periods of the plan before the run's first.
    pub start: usize,
    /// The answered span, in periods.
    pub span: usize,
    /// The answered placement: the requests of each interval.
    pub placement: Vec<u64>,
    /// The raw stall in one period of each interval, at each whole rate of 0
    /// to the core's budget.
    raw: Vec<Vec<u64>>,
    /// The interval of each period of the plan, or of one cycle.
    interval_of: Vec<usize>,
}

impl Task {
    /// `None` stands for a question that was refused.
    pub fn new(kind: u8, body: &[u8], line: &str) -> Result<Option<Self>, String> {
        if kind != SPAN {
            return Err("a question of another kind than span".to_string());
        }
        let words: Vec<&str> = line.split(' ').collect();
        match words[..] {
            ["span", "0", span, _, _, ":", ..] => {
                let span = span.parse().map_err(|_| line.to_string())?;
                let numbers = words[6..].iter().map(|word| word.parse().ok());
                let placement = numbers.collect::<Option<Vec<u64>>>().ok_or(line)?;
                let task = Self::read(body, span, placement);
                task.map(Some).ok_or("a body that is cut short".to_string())
            }
            ["span", _, "0", "0", "0", ":", ..] => Ok(None),
            _ => Err(format!("no answer to a span question: {line}")),
        }
    }

    fn read(body: &[u8], span: usize, placement: Vec<u64>) -> Option<Self> {
        let number = |at: usize, width: usize| {
            let bytes = body.get(at..at + width)?.iter().rev();
            Some(bytes.fold(0, |number, &byte| number << 8 | u64::from(byte)))
        };
        let cores = number(0, 1)? as usize;
        let own = number(1, 1)? as usize - 1;
        let slots = number(2, 4)?;
        let intervals = number(20, 1)? as usize;
        let mut task = Task {
            cores: cores as u8,
            slots,
            repeating: number(6, 1)? != 0,
            computing: number(7, 4)?,
            requests: number(11, 4)?,
            start: number(17, 2)? as usize,
            span,
            placement,
            raw: Vec::new(),
            interval_of: Vec::new(),
        };
        for interval in 0..intervals {
            let length = number(21 + 2 * interval, 2)? as usize;
            let first = 21 + 2 * intervals + 2 * interval * cores;
            let budgets = (0..cores).map(|core| number(first + 2 * core, 2));
            let budgets = budgets.collect::<Option<Vec<u64>>>()?;
            task.raw.push(raw_stalls(slots, &budgets, own));
            task.interval_of.extend(vec![interval; length]);
        }
        Some(task)
    }

    /// T; of a repeating plan, the length of one cycle.
    pub fn total_periods(&self) -> usize {
        self.interval_of.len()
    }

    /// The most periods that a lawful run may have.
    pub fn most_periods(&self) -> usize {
        match self.repeating {
            true => MOST_PERIODS,
            false => self.first_cycle(),
        }
    }

    /// The periods from the start to the plan's end, or to that of the first
    /// cycle.
    pub fn first_cycle(&self) -> usize {
        self.total_periods() - self.start
    }

    /// The interval in which a period of a run lies; the period of the start is
    /// period 0. The period after the last of a cycle is the first of the next.
    pub fn interval_of(&self, period: usize) -> usize {
        self.interval_of[(self.start + period) % self.interval_of.len()]
    }

    /// The periods of the span in which the core is parked.
    pub fn parked_periods(&self) -> usize {
        (0..self.span)
            .filter(|&period| self.budget(period) == 0)
            .count()
    }

    /// The core's budget in a period.
    pub fn budget(&self, period: usize) -> u64 {
        self.raw_stalls(period).len() as u64 - 1
    }

    pub fn raw_stall(&self, period: usize, rate: u64) -> u64 {
        self.raw_stalls(period)[rate as usize]
    }

    fn raw_stalls(&self, period: usize) -> &[u64] {
        &self.raw[self.interval_of(period)]
    }
}

/// 004, equation 2, at each rate of 0 to the budget. A parked core has rate 0
/// alone, and the whole of Q there.
fn raw_stalls(slots: u64, budgets: &[u64], own: usize) -> Vec<u64> {
    let budget = budgets[own];
    let mut stalls = Vec::new();
    for rate in 0..budget {
        let each = budgets.iter().map(|&other| rate.min(other));
        // The core itself is in the sum; its part is the rate.
        stalls.push(each.sum::<u64>() - rate);
    }
    stalls.push(slots - budget);
    stalls
}
