//! Looks for a short script that shows a fault.

use crate::check::{Checker, Violation};
use crate::fault::Fault;
use crate::generate::Generator;
use std::mem::discriminant;

/// A script that breaks demand 3.
pub struct Find {
    /// The lines since the setup before, the last one breaking it.
    pub script: Vec<Vec<u8>>,
    /// How it breaks.
    pub violation: Violation,
    /// How many lines were tried.
    pub tried: u64,
}

/// Runs the faulty system on generated lines until demand 3 itself fails; at most so many lines. A setup in which the
/// rows of document 001 fail first and others exist is passed over.
pub fn hunt(fault: Option<Fault>, seed: u64, most_lines: u64) -> Option<Find> {
    let mut generator = Generator::hunting(seed, fault);
    let mut checker = Checker::new(fault);
    let mut script = Vec::new();
    let mut passed_over = false;
    for tried in 0..most_lines {
        let line = generator.line();
        let setups = checker.tally.setups;
        let checked = checker.line(&line);
        script.push(line.clone());
        match checked {
            Err(violation) if violation.is_proper() && !passed_over => return Some(Find { script, violation, tried }),
            Err(_) => passed_over = true,
            Ok(_) => {}
        }
        if checker.tally.setups > setups {
            script = vec![line];
            passed_over = false;
        }
    }
    None
}

/// The first line at which the script breaks demand 3, and how; `None` also if the rows of document 001 fail there and
/// others exist.
pub fn breaks(fault: Option<Fault>, script: &[Vec<u8>]) -> Option<(usize, Violation)> {
    let mut checker = Checker::new(fault);
    let mut failures = script.iter().enumerate().filter_map(|(number, line)| Some((number, checker.line(line).err()?)));
    failures.next().filter(|(_, violation)| violation.is_proper())
}

/// Leaves out lines, many at first and then one by one, as long as demand 3 still breaks in the same way.
pub fn shrink(fault: Option<Fault>, find: Find) -> Vec<Vec<u8>> {
    let mut script = find.script;
    let mut size = script.len();
    while size > 0 {
        let mut start = 0;
        let mut shorter = false;
        while start < script.len() {
            let mut rest = script.clone();
            rest.drain(start..(start + size).min(script.len()));
            match breaks(fault, &rest) {
                Some((last, violation)) if discriminant(&violation) == discriminant(&find.violation) => {
                    rest.truncate(last + 1);
                    script = rest;
                    shorter = true;
                }
                _ => start += size,
            }
        }
        if !shorter {
            size /= 2;
        }
    }
    script
}
