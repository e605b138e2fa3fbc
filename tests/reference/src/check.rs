//! The checker of demand 3: runs a script and tests, after every line, that the demand holds of the lines so far.
//!
//! *Well-formed.* READ goes to a client with a read open, WROTE and SPENT to one with a write open, and WROTE names the
//! pair that the write sent.
//!
//! *Rows.* With many operations the rows cannot be built after every line, and need not be. The rows of document 001
//! (see [`crate::rows`]) are right for all finished reads if
//! 1. no two writes have the same timestamp;
//! 2. a write's timestamp is above that of each write that ended before it began;
//! 3. a read shows the initial pair or the pair of a write that has sent it by then;
//! 4. a read's timestamp is at or above that of each write that ended before it began.
//!
//! 1 and 2 are tested when a write sends, 3 and 4 when a read ends; what happens later cannot spoil them, since 'ended
//! before it began' is settled at the beginning. So the checker keeps the highest timestamp of the ended writes, and
//! remembers at each beginning what it was. Setups with few operations are also tested the slow way at their end.
//!
//! *Closing clause.* A working client that is quiet has nothing open.

use crate::fault::Fault;
use crate::history::{History, Kind};
use crate::message::{Message, Pair, Timestamp};
use crate::parse::{parse, Command};
use crate::rows;
use crate::session::{Reply, Session};
use crate::system::{Answer, Channel, Step, System};
use std::collections::BTreeMap;
use std::fmt;

/// Rows are also built word for word at the end of a setup with at most so many operations.
const FEW_OPERATIONS: usize = 150;

/// How demand 3 fails.
#[derive(Clone, Debug, PartialEq, Eq)]
pub enum Violation {
    /// An operation ends, or sends, that is not open.
    IllFormed,
    /// A read shows a pair that is not initial and that no write has sent.
    NotWritten,
    /// One of 1, 2 and 4 above fails, so the rows of document 001 will not do.
    Rows {
        /// Would any other rows do?
        others_exist: bool,
    },
    /// A quiet client, by its number, has something open.
    NeverEnds(u32),
}

impl fmt::Display for Violation {
    fn fmt(&self, out: &mut fmt::Formatter) -> fmt::Result {
        match self {
            Violation::IllFormed => write!(out, "an operation ends or sends that is not open"),
            Violation::NotWritten => write!(out, "a read shows a pair that nobody wrote"),
            Violation::Rows { others_exist: false } => write!(out, "there are no rows"),
            Violation::Rows { others_exist: true } => {
                write!(out, "the rows of document 001 will not do, though others would")
            }
            Violation::NeverEnds(client) => write!(out, "client {client} is quiet and has something open"),
        }
    }
}

impl Violation {
    /// Does demand 3 itself fail, not only the choice of rows in document 001?
    pub fn is_proper(&self) -> bool {
        *self != Violation::Rows { others_exist: true }
    }
}

/// What the checker has seen.
#[derive(Clone, Copy, Debug, Default)]
pub struct Tally {
    /// All lines.
    pub lines: u64,
    /// Accepted setups.
    pub setups: u64,
    /// Accepted steps.
    pub steps: u64,
    /// Finished reads.
    pub reads: u64,
    /// Writes that ended with WROTE.
    pub writes: u64,
    /// Writes that ended with SPENT.
    pub spent: u64,
    /// For each line and each working client: it was quiet.
    pub quiet: u64,
    /// Refused lines, by number.
    pub refused: [u64; 14],
    /// Unreadable lines.
    pub unread: u64,
}

/// Runs a script line by line.
pub struct Checker {
    session: Session,
    /// The operations since the last setup.
    pub history: History,
    /// The writes' timestamps, with their pairs.
    sent: BTreeMap<Timestamp, Pair>,
    /// The highest timestamp of the writes that have ended.
    highest_ended: Option<Timestamp>,
    /// For each client, what that was when its open operation began.
    floor: Vec<Option<Timestamp>>,
    /// What it has seen.
    pub tally: Tally,
}

impl Checker {
    /// Before the first line.
    pub fn new(fault: Option<Fault>) -> Checker {
        Checker {
            session: Session::new(fault),
            history: History::default(),
            sent: BTreeMap::new(),
            highest_ended: None,
            floor: Vec::new(),
            tally: Tally::default(),
        }
    }

    /// Takes a line without its end, and tests.
    pub fn line(&mut self, line: &[u8]) -> Result<Reply, Violation> {
        let moment = self.tally.lines;
        self.tally.lines += 1;
        let Some(command) = parse(line) else {
            self.tally.unread += 1;
            return Ok(Reply::Unread);
        };
        let waiting = self.waiting(command);
        let reply = self.session.command(command);
        match (command, reply) {
            (_, Reply::Unread) => self.tally.unread += 1,
            (_, Reply::Refused(refusal)) => self.tally.refused[refusal as usize] += 1,
            (Command::Setup(settings), _) => {
                let finished = self.finish();
                self.tally.setups += 1;
                self.start_over(settings.clients as usize);
                finished?;
            }
            (Command::Step(step), Reply::Answered(answer)) => {
                self.tally.steps += 1;
                self.record(step, answer, waiting, moment)?;
                self.closing_clause()?;
            }
            (Command::Step(_), Reply::Set) => unreachable!("only S answers SET"),
        }
        Ok(reply)
    }

    /// To be called after the last line.
    pub fn finish(&self) -> Result<(), Violation> {
        if self.history.operations.len() <= FEW_OPERATIONS && !rows::all_right(&self.history) {
            return Err(self.wrong_rows());
        }
        Ok(())
    }

    fn start_over(&mut self, clients: usize) {
        self.history = History::new(clients);
        self.sent.clear();
        self.highest_ended = None;
        self.floor = vec![None; clients];
    }

    /// Before a D: how many messages of its client wait for the first honest server. What is behind them afterwards was
    /// put there by the D.
    fn waiting(&self, command: Command) -> usize {
        match (command, &self.session.system) {
            (Command::Step(Step::ClientTakes { client, .. }), Some(system)) => {
                let index = (client as usize).wrapping_sub(1);
                system.up.get(index).map_or(0, |_| first_channel(system, index).len())
            }
            _ => 0,
        }
    }

    /// Enters an accepted step into the history.
    fn record(&mut self, step: Step, answer: Answer, waiting: usize, moment: u64) -> Result<(), Violation> {
        match step {
            Step::Read { client } => self.began(client as usize - 1, Kind::Read(None), moment),
            Step::Write { client, .. } => self.began(client as usize - 1, Kind::Write(None), moment),
            Step::ClientTakes { client, .. } => {
                let client = client as usize - 1;
                let system = self.session.system.as_ref().expect("a step was accepted");
                let put: Vec<Message> = first_channel(system, client).range(waiting..).copied().collect();
                for message in put {
                    if let Message::WriteInfo(pair) = message {
                        self.write_sent(client, pair)?;
                    }
                }
                self.answered(client, answer, moment)?;
            }
            Step::ServerTakes { .. } | Step::Stop { .. } | Step::Lie { .. } => {}
        }
        Ok(())
    }

    fn began(&mut self, client: usize, kind: Kind, moment: u64) {
        self.history.begin(client, kind, moment);
        self.floor[client] = self.highest_ended;
    }

    /// 1 and 2 above.
    fn write_sent(&mut self, client: usize, pair: Pair) -> Result<(), Violation> {
        self.history.send(client, pair).ok_or(Violation::IllFormed)?;
        let is_new = self.sent.insert(pair.timestamp, pair).is_none();
        if !is_new || self.floor[client] >= Some(pair.timestamp) {
            return Err(self.wrong_rows());
        }
        Ok(())
    }

    fn answered(&mut self, client: usize, answer: Answer, moment: u64) -> Result<(), Violation> {
        match answer {
            Answer::Went => return Ok(()),
            Answer::Read(pair) => {
                self.end(client, Kind::Read(Some(pair)), moment)?;
                self.tally.reads += 1;
                self.read_shown(client, pair)?;
            }
            Answer::Wrote(pair) => {
                self.end(client, Kind::Write(Some(pair)), moment)?;
                self.tally.writes += 1;
                self.highest_ended = self.highest_ended.max(Some(pair.timestamp));
            }
            Answer::Spent => {
                self.end(client, Kind::Write(None), moment)?;
                self.tally.spent += 1;
            }
        }
        Ok(())
    }

    fn end(&mut self, client: usize, kind: Kind, moment: u64) -> Result<(), Violation> {
        self.history.end(client, kind, moment).ok_or(Violation::IllFormed)
    }

    /// 3 and 4 above. The initial timestamp is below every write's.
    fn read_shown(&mut self, client: usize, pair: Pair) -> Result<(), Violation> {
        if pair != Pair::INITIAL && self.sent.get(&pair.timestamp) != Some(&pair) {
            return Err(Violation::NotWritten);
        }
        if self.floor[client] > Some(pair.timestamp) {
            return Err(self.wrong_rows());
        }
        Ok(())
    }

    fn wrong_rows(&self) -> Violation {
        Violation::Rows { others_exist: rows::exist(&self.history) }
    }

    /// No quiet working client has anything open.
    fn closing_clause(&mut self) -> Result<(), Violation> {
        let system = self.session.system.as_ref().expect("a step was accepted");
        for client in 0..system.clients.len() {
            if !system.stopped[client] && is_quiet(system, client) {
                self.tally.quiet += 1;
                if self.history.open(client).is_some() {
                    return Err(Violation::NeverEnds(client as u32 + 1));
                }
            }
        }
        Ok(())
    }
}

/// What D puts on channels is the same for every server, so one honest server shows it.
fn first_channel(system: &System, client: usize) -> &Channel {
    let server = system.honest().next().expect("at most f of n servers are faulty, and n is above f");
    &system.up[client][server]
}

/// The channels both ways between the client and honest servers are empty, and nobody's WRITE_INFO, also that of a
/// stopped client, is on its way to an honest server.
fn is_quiet(system: &System, client: usize) -> bool {
    let writes = |channel: &Channel| channel.iter().any(|m| matches!(m, Message::WriteInfo(_)));
    system.honest().all(|server| system.up[client][server].is_empty() && system.down[client][server].is_empty())
        && !system.up.iter().any(|channels| system.honest().any(|server| writes(&channels[server])))
}
