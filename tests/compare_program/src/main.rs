//! Compares the archive of the C interface with the second program. tests/compare builds and runs it.
//!
//!     compare [SEED]    the comparison
//!     compare null      what the archive does with (NULL, 0)

mod answer;
mod archive;
mod calls;
mod hash;
mod layouts;
mod null;
mod numbers;
mod report;
mod ring;
mod rounding;
mod samplers;
mod scheme;
mod vectors;

use std::process::ExitCode;
use std::time::{SystemTime, UNIX_EPOCH};

fn main() -> ExitCode {
    let arguments: Vec<String> = std::env::args().skip(1).collect();
    let arguments: Vec<&str> = arguments.iter().map(String::as_str).collect();
    let seed = match arguments.as_slice() {
        ["null"] => return null::all(),
        ["null-case", number] => return null::one(number.parse().unwrap_or(usize::MAX)),
        // Another seed each time finds more over the months than one seed does.
        [] => SystemTime::now().duration_since(UNIX_EPOCH).map_or(1, |since| since.as_secs()),
        [text] if text.parse::<u64>().is_ok() => text.parse().unwrap_or(1),
        _ => {
            eprintln!("usage: compare [SEED]    SEED is a whole number; or: compare null");
            return ExitCode::from(2);
        }
    };
    println!("compare: seed {seed} (`tests/compare {seed}` repeats this run)");
    let mut calls = calls::Calls::new(seed);
    rounding::compare(&mut calls);
    hash::compare(&mut calls);
    ring::compare(&mut calls);
    samplers::compare(&mut calls);
    layouts::compare(&mut calls);
    scheme::compare(&mut calls);
    vectors::compare(&mut calls);
    if calls.report.end() {
        ExitCode::SUCCESS
    } else {
        ExitCode::FAILURE
    }
}
