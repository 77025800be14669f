//! Answers of a reader of plan files turned into questions to a writer.

use std::str::FromStr;

use crate::files;
use crate::plans::Plan;
use crate::questions;
use crate::workloads::Workload;

/// The question "write a plan file" with what the line of an answered "read"
/// has, and a place that is just long enough; `None` for other lines.
pub fn question(line: &str) -> Option<Vec<u8>> {
    let parts: Vec<&str> = line.strip_prefix("read 0 0 ")?.split(':').collect();
    let [results, lengths, budgets, workload_places @ ..] = &parts[..] else {
        return None;
    };
    let results: Vec<usize> = front(results, 5)?;
    let (cores, intervals, workloads) = (results[0], results[3], results[4]);
    if cores == 0 {
        return None;
    }
    let plan = Plan {
        cores: u8::try_from(cores).ok()?,
        slots_per_period: u32::try_from(results[1]).ok()?,
        mark: u8::try_from(results[2]).ok()?,
        lengths: front(lengths, intervals)?,
        budgets: front(budgets, intervals * cores)?,
    };
    let listed = listed(workload_places, workloads)?;
    let room = files::bytes(&plan, &listed).len();
    Some(questions::write_record(
        &plan,
        &questions::Lists::new(&listed),
        u16::try_from(room).ok()?,
    ))
}

fn listed(places: &[&str], workloads: usize) -> Option<Vec<Workload>> {
    let [cores, computing, requests, horizons] = places else {
        return None;
    };
    let cores: Vec<u8> = front(cores, workloads)?;
    let computing: Vec<u32> = front(computing, workloads)?;
    let requests: Vec<u32> = front(requests, workloads)?;
    let horizons: Vec<u16> = front(horizons, workloads)?;
    let workload = |number: usize| Workload {
        core: cores[number],
        computing: computing[number],
        requests: requests[number],
        horizon: horizons[number],
    };
    Some((0..workloads).map(workload).collect())
}

/// The first numbers of a place, if it has so many.
fn front<Number: FromStr>(place: &str, count: usize) -> Option<Vec<Number>> {
    let words = place.split_whitespace().take(count);
    let numbers: Vec<Number> = words.map(|word| word.parse().ok()).collect::<Option<_>>()?;
    (numbers.len() == count).then_some(numbers)
}
