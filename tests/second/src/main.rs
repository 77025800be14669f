//! The independent second program: the questions of document 01 with the
//! requests of document 02 that have landed, answered from these pages alone.

mod brute;
mod curve;
mod listing;
mod placement;
mod plan;
mod planfile;
mod questions;
mod shares;
mod span;
#[cfg(test)]
mod tests;

use std::io::{stdin, stdout};
use std::process::ExitCode;

use questions::Method;

fn main() -> ExitCode {
    let mode = std::env::args().nth(1);
    let (input, output) = (stdin().lock(), stdout().lock());
    let done = match mode.as_deref() {
        Some("spans") => listing::run(input, output),
        Some("answer") => questions::run(Method::BySlope, input, output),
        Some("brute") => questions::run(Method::BySearch, input, output),
        _ => {
            eprintln!("usage: second spans | answer | brute");
            return ExitCode::from(2);
        }
    };
    match done {
        Ok(()) => ExitCode::SUCCESS,
        Err(error) => {
            eprintln!("second: {error}");
            ExitCode::FAILURE
        }
    }
}
