//! `check [--fault NAME] < SCRIPT` runs a script through the reference and tests demand 3 after every line.
//! Exit status 0: it holds; 1: it fails, and at which line; 2: wrong use.

use reference::check::{Checker, Violation};
use reference::fault::Fault;
use reference::session::each_line;
use std::io::{self, BufReader};
use std::process::ExitCode;

enum Stop {
    Failed(u64, Violation),
    Input(io::Error),
}

impl From<io::Error> for Stop {
    fn from(error: io::Error) -> Stop {
        Stop::Input(error)
    }
}

fn main() -> ExitCode {
    let arguments: Vec<String> = std::env::args().skip(1).collect();
    let fault = match arguments.iter().map(String::as_str).collect::<Vec<_>>()[..] {
        [] => None,
        ["--fault", name] => match Fault::named(name) {
            Some(fault) => Some(fault),
            None => return usage(),
        },
        _ => return usage(),
    };
    let mut checker = Checker::new(fault);
    let input = BufReader::with_capacity(1 << 16, io::stdin().lock());
    let checked = each_line(input, |number, line| match checker.line(line) {
        Ok(_) => Ok(()),
        Err(violation) => Err(Stop::Failed(number, violation)),
    });
    let tally = checker.tally;
    match checked.and_then(|()| checker.finish().map_err(|violation| Stop::Failed(tally.lines, violation))) {
        Ok(()) => {
            println!(
                "demand 3 holds after each of {} lines: {} setups, {} steps, {} reads, {} writes, {} spent, \
                 {} refused, {} unread; {} times a client was quiet",
                tally.lines,
                tally.setups,
                tally.steps,
                tally.reads,
                tally.writes,
                tally.spent,
                tally.refused.iter().sum::<u64>(),
                tally.unread,
                tally.quiet,
            );
            ExitCode::SUCCESS
        }
        Err(Stop::Failed(line, violation)) => {
            println!("demand 3 fails after line {line}: {violation}");
            ExitCode::FAILURE
        }
        Err(Stop::Input(error)) => {
            eprintln!("check: {error}");
            ExitCode::FAILURE
        }
    }
}

fn usage() -> ExitCode {
    let names: Vec<&str> = Fault::ALL.iter().map(|fault| fault.name()).collect();
    eprintln!("usage: check [--fault NAME] < SCRIPT\nfaults: {}", names.join(", "));
    ExitCode::from(2)
}
