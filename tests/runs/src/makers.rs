//! Ways to make lawful runs, period by period.

use crate::random::Random;
use crate::run::{Period, Run};
use crate::task::Task;

/// What is left to do when a period begins.
pub struct Left {
    period: usize,
    computing: u64,
    requests: u64,
}

/// Requests and stall that are wished for in the next period.
type Wish = (u64, u64);

/// Makes a run by asking for a wish before each period. A wish that would not
/// leave the period full is raised to the fewest requests that do; where none
/// do, the period is the last. A parked period can always be filled with stall,
/// but a run does not end with such a period.
fn carried_out(task: &Task, mut wish: impl FnMut(&Left) -> Wish) -> Run {
    let mut left = Left {
        period: 0,
        computing: task.computing,
        requests: task.requests,
    };
    let mut run = Run::new();
    while left.period < task.most_periods() && left.computing + left.requests > 0 {
        let wished = wish(&left);
        let full = full_period(task, &left, wished);
        let made = full.unwrap_or_else(|| last_period(task, &left));
        left.period += 1;
        left.computing -= made.computing;
        left.requests -= made.requests;
        run.push(made);
        if full.is_none() {
            break;
        }
    }
    while run.last().is_some_and(|period| !period.has_work()) {
        run.pop();
    }
    run
}

/// The most requests that the next period can take.
fn most_requests(task: &Task, left: &Left) -> u64 {
    left.requests.min(task.budget(left.period))
}

fn full_period(task: &Task, left: &Left, (requests, stall): Wish) -> Option<Period> {
    let most = most_requests(task, left);
    let requests = requests.min(most);
    let stall = stall.min(task.raw_stall(left.period, requests));
    let wished = (requests, stall);
    let raised = (requests..=most).map(|more| (more, task.raw_stall(left.period, more)));
    for (requests, stall) in std::iter::once(wished).chain(raised) {
        let computing = task.slots - requests - stall;
        if computing <= left.computing {
            return Some(Period {
                computing,
                requests,
                stall,
            });
        }
    }
    None
}

/// All the work that fits, no stall.
fn last_period(task: &Task, left: &Left) -> Period {
    let requests = most_requests(task, left);
    Period {
        computing: left.computing.min(task.slots - requests),
        requests,
        stall: 0,
    }
}

/// As much work as early as can be: no stall unless nothing else is left.
pub fn greedy(task: &Task) -> Run {
    carried_out(task, |left| (most_requests(task, left), 0))
}

/// As little work and as much stall as early as can be.
pub fn lazy(task: &Task) -> Run {
    carried_out(task, |left| {
        let stall = task.raw_stall(left.period, most_requests(task, left));
        let least = (0..).find(|&rate| task.raw_stall(left.period, rate) == stall);
        (least.unwrap_or(0), stall)
    })
}

/// As much stall for each request as early as can be.
pub fn sparing(task: &Task) -> Run {
    carried_out(task, |left| {
        let mut best = (0, task.raw_stall(left.period, 0));
        for rate in 1..=most_requests(task, left) {
            let stall = task.raw_stall(left.period, rate);
            if stall * best.0 >= best.1 * rate {
                best = (rate, stall);
            }
        }
        best
    })
}

/// As much stall in all as can be: the answered placement, spread over the
/// periods of each interval, in all cycles, at the corners on both sides of its
/// rate, the higher corner first.
pub fn spread(task: &Task) -> Run {
    let rates = spread_rates(task);
    carried_out(task, |left| {
        let rate = rates.get(left.period).copied().unwrap_or(0);
        (rate, task.slots)
    })
}

/// The rate of each period up to the span.
fn spread_rates(task: &Task) -> Vec<u64> {
    let mut rates = vec![0; task.span];
    for (interval, &placed) in task.placement.iter().enumerate() {
        let within = |&period: &usize| task.interval_of(period) == interval;
        let share: Vec<usize> = (0..task.span).filter(within).collect();
        let Some(&first) = share.first() else {
            continue;
        };
        let periods = share.len() as u64;
        let corners = corners(task, first);
        let pair = corners.windows(2).find(|pair| placed <= periods * pair[1]);
        let (low, high) = pair.map_or((0, 0), |pair| (pair[0], pair[1]));
        let mut left = placed - (periods * low).min(placed);
        for period in share {
            let more = left.min(high - low);
            rates[period] = low + more;
            left -= more;
        }
    }
    rates
}

/// The rates of the corners in one period: from each, the farthest of those
/// with the greatest slope.
fn corners(task: &Task, period: usize) -> Vec<u64> {
    let mut corners = vec![0];
    let mut corner = 0;
    while corner < task.budget(period) {
        let stall = task.raw_stall(period, corner);
        let (mut run, mut rise) = (1, 0);
        for rate in corner + 1..=task.budget(period) {
            let gained = task.raw_stall(period, rate) - stall;
            if gained * run >= rise * (rate - corner) {
                (run, rise) = (rate - corner, gained);
            }
        }
        corner += run;
        corners.push(corner);
    }
    corners
}

/// Any requests, with all the stall there may be or some of it.
pub fn random(task: &Task, random: &mut Random) -> Run {
    let always_most = random.one_in(2);
    carried_out(task, |left| {
        let requests = random.below(most_requests(task, left) + 1);
        let stall = task.raw_stall(left.period, requests);
        match always_most {
            true => (requests, stall),
            false => (requests, random.below(stall + 1)),
        }
    })
}
