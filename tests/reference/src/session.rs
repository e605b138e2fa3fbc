//! A script from its first line to its last: one line in, one line out.

use crate::fault::Fault;
use crate::message::Pair;
use crate::parse::{parse, Command};
use crate::system::{Answer, Refusal, System};
use std::fmt;
use std::io::{self, BufRead, Write};

/// What is said to a line.
#[derive(Clone, Copy, Debug, PartialEq, Eq)]
pub enum Reply {
    /// To an accepted S.
    Set,
    /// To an accepted step.
    Answered(Answer),
    /// To a refused S or step.
    Refused(Refusal),
    /// To any other line.
    Unread,
}

impl fmt::Display for Reply {
    fn fmt(&self, out: &mut fmt::Formatter) -> fmt::Result {
        match self {
            Reply::Set => write!(out, "SET"),
            Reply::Answered(Answer::Went) => write!(out, "WENT"),
            Reply::Answered(Answer::Read(pair)) => write!(out, "READ {}", Shown(pair)),
            Reply::Answered(Answer::Wrote(pair)) => write!(out, "WROTE {}", Shown(pair)),
            Reply::Answered(Answer::Spent) => write!(out, "SPENT"),
            Reply::Refused(refusal) => write!(out, "REFUSED {}", *refusal as u8),
            Reply::Unread => write!(out, "UNREAD"),
        }
    }
}

/// A pair as it is printed: counter, client, entry.
struct Shown<'a>(&'a Pair);

impl fmt::Display for Shown<'_> {
    fn fmt(&self, out: &mut fmt::Formatter) -> fmt::Result {
        let Pair { timestamp, entry } = self.0;
        write!(out, "{} {} {entry:010X}", timestamp.counter, timestamp.client)
    }
}

/// What the lines so far have led to.
#[derive(Clone, Debug)]
pub struct Session {
    /// The present system; none before the first accepted S.
    pub system: Option<System>,
    fault: Option<Fault>,
}

impl Session {
    /// Before the first line. A fault stays in force for every setup.
    pub fn new(fault: Option<Fault>) -> Session {
        Session { system: None, fault }
    }

    /// Takes a line without its end.
    pub fn line(&mut self, line: &[u8]) -> Reply {
        match parse(line) {
            Some(command) => self.command(command),
            None => Reply::Unread,
        }
    }

    /// Takes what a readable line says.
    pub fn command(&mut self, command: Command) -> Reply {
        match (command, &mut self.system) {
            (Command::Setup(settings), _) => match System::new(settings, self.fault) {
                Ok(system) => {
                    self.system = Some(system);
                    Reply::Set
                }
                Err(refusal) => Reply::Refused(refusal),
            },
            (Command::Step(step), Some(system)) => match system.step(step) {
                Ok(answer) => Reply::Answered(answer),
                Err(refusal) => Reply::Refused(refusal),
            },
            (Command::Step(_), None) => Reply::Unread,
        }
    }
}

/// Calls `each` with the number and the bytes of every line. Only byte 10 ends a line; the last needs no end.
pub fn each_line<E: From<io::Error>>(
    mut input: impl BufRead,
    mut each: impl FnMut(u64, &[u8]) -> Result<(), E>,
) -> Result<(), E> {
    let mut line = Vec::new();
    for number in 0.. {
        line.clear();
        if input.read_until(b'\n', &mut line)? == 0 {
            break;
        }
        if line.last() == Some(&b'\n') {
            line.pop();
        }
        each(number, &line)?;
    }
    Ok(())
}

/// The whole program: script in, replies out.
pub fn run(input: impl BufRead, mut output: impl Write) -> io::Result<()> {
    let mut session = Session::new(None);
    each_line(input, |number, line| writeln!(output, "{number} {}", session.line(line)))?;
    output.flush()
}
