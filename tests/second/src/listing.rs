//! The program's listing: a plan file in, its answers out.

use std::io::{self, Read, Write};

use crate::planfile::{self, PlanFile};
use crate::span;

/// More than the longest accepted file has.
const MOST_BYTES: u64 = 8_192;

/// Reads at most 8,192 bytes and prints the listing.
pub fn run(input: impl Read, mut output: impl Write) -> io::Result<()> {
    let mut bytes = Vec::new();
    input.take(MOST_BYTES).read_to_end(&mut bytes)?;
    output.write_all(listing(&bytes).as_bytes())?;
    output.flush()
}

/// The whole listing of a file's bytes.
pub fn listing(bytes: &[u8]) -> String {
    match planfile::read(bytes) {
        Ok(file) => answers(&file),
        Err(refused) => {
            let number = refused.refusal.number();
            format!("file refused {number} at {}\n", refused.offset)
        }
    }
}

fn answers(file: &PlanFile) -> String {
    let total_periods: u32 = file.lengths.iter().map(|&length| u32::from(length)).sum();
    let mut lines = format!(
        "plan {} {} {} {total_periods}\n",
        file.head.cores,
        file.head.slots_per_period,
        file.lengths.len()
    );
    let workloads = file.workload_cores.len();
    for workload in 0..workloads {
        lines += &format!("{} {}\n", workload + 1, answer(file, workload));
    }
    lines += &format!("end {workloads}\n");
    lines
}

/// The answer to one workload. A file has no place for a start.
fn answer(file: &PlanFile, workload: usize) -> String {
    let question = span::Question {
        plan: file.plan(),
        core: file.workload_cores[workload],
        computing: file.computing[workload],
        requests: file.requests[workload],
        horizon: file.horizons[workload],
        start: 0,
    };
    let mut placement = vec![0; file.lengths.len()];
    match question.answer(&mut placement) {
        Ok(found) => {
            let mut line = format!(
                "span {} stall {} rounds {} requests",
                found.span, found.stall, found.rounds
            );
            for requests in placement {
                line += &format!(" {requests}");
            }
            line
        }
        Err(refusal) => format!("refused {}", refusal.number()),
    }
}
