//! `hunt FAULT [SEED]` prints a short script that shows a fault, found by trying generated ones.

use reference::fault::Fault;
use reference::hunt::{hunt, shrink};
use std::process::ExitCode;

/// How many lines are tried.
const MOST_LINES: u64 = 100_000_000;

fn main() -> ExitCode {
    let arguments: Vec<String> = std::env::args().skip(1).collect();
    let Some(fault) = arguments.first().and_then(|name| Fault::named(name)) else {
        eprintln!("usage: hunt FAULT [SEED]");
        return ExitCode::from(2);
    };
    let seed = arguments.get(1).and_then(|seed| seed.parse().ok()).unwrap_or(1);
    let Some(find) = hunt(Some(fault), seed, MOST_LINES) else {
        println!("nothing found in {MOST_LINES} lines");
        return ExitCode::FAILURE;
    };
    eprintln!("after {} lines: {}", find.tried, find.violation);
    for line in shrink(Some(fault), find) {
        println!("{}", String::from_utf8_lossy(&line));
    }
    ExitCode::SUCCESS
}
