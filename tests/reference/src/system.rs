//! Clients, servers and the channels between them (paper 01, 'Rehearsal'; C-11: n is a setting): settings, the six
//! steps, the refusals.

use crate::client::{Client, Outcome, Phase};
use crate::fault::Fault;
use crate::licence::is_licence;
use crate::message::{Message, Pair, HIGHEST};
use crate::server::Server;
use std::collections::VecDeque;

/// The most servers; a setup has a mark for each.
pub const MOST_SERVERS: usize = 13;
/// The most clients.
pub const MOST_CLIENTS: usize = 6;
/// The highest f.
pub const MOST_FAULTY: usize = 4;
/// The slots of a channel.
pub const SLOTS: usize = 8;

/// Why nothing happened, with the paper's numbers. A script reaches all but 3 and 13.
#[derive(Clone, Copy, Debug, PartialEq, Eq)]
pub enum Refusal {
    /// f, n or clients out of range, or a mark beyond n.
    BadSettings = 1,
    /// More than f marks.
    TooManyFaulty = 2,
    /// A client or server number out of range.
    NoSuchProcess = 4,
    /// K for a faulty server, L for an honest one.
    WrongRole = 5,
    /// R, W, D or C for a stopped client.
    Stopped = 6,
    /// R or W while not idle.
    Busy = 7,
    /// W of what is no licence entry.
    NoEntry = 8,
    /// L of what is no message to a client.
    Malformed = 9,
    /// K or D on an empty channel.
    EmptyChannel = 10,
    /// R or W at the highest read number.
    Exhausted = 11,
    /// Too few free slots on a channel that does not drop.
    FullChannel = 12,
}

/// What a setup chooses; any numbers.
#[derive(Clone, Copy, Debug, PartialEq, Eq)]
pub struct Settings {
    /// How many servers may be faulty.
    pub f: u32,
    /// How many servers there are: n, from 3f + 1 to 13.
    pub n: u32,
    /// How many clients there are.
    pub clients: u32,
    /// Which servers are faulty, server 1 first.
    pub faulty: [bool; MOST_SERVERS],
}

/// A step, with any numbers; clients and servers are counted from 1.
#[derive(Clone, Copy, Debug, PartialEq, Eq)]
#[allow(missing_docs)] // the fields say what they are
pub enum Step {
    /// R: the client starts a read.
    Read { client: u32 },
    /// W: the client starts a write.
    Write { client: u32, entry: u64 },
    /// K: the server takes the oldest message from the client.
    ServerTakes { server: u32, client: u32 },
    /// D: the client takes the oldest message from the server.
    ClientTakes { client: u32, server: u32 },
    /// C: the client stops for good.
    Stop { client: u32 },
    /// L: the faulty server sends these 88 bits to the client.
    Lie { server: u32, client: u32, message: u128 },
}

/// What an accepted step answers.
#[derive(Clone, Copy, Debug, PartialEq, Eq)]
pub enum Answer {
    /// Nothing ended.
    Went,
    /// A read ended and shows this.
    Read(Pair),
    /// A write ended and stored this.
    Wrote(Pair),
    /// A write ended without a counter to use.
    Spent,
}

/// A channel: first in, first out.
pub type Channel = VecDeque<Message>;

/// All of it. Clients and servers are counted from 0 here.
#[derive(Clone, Debug)]
pub struct System {
    /// For each server: is it faulty?
    pub faulty: Vec<bool>,
    /// For each client: has it stopped?
    pub stopped: Vec<bool>,
    /// The servers; those of faulty ones stay as they are.
    pub servers: Vec<Server>,
    /// The clients.
    pub clients: Vec<Client>,
    /// The channels from clients to servers, `up[client][server]`.
    pub up: Vec<Vec<Channel>>,
    /// The channels from servers to clients, `down[client][server]`.
    pub down: Vec<Vec<Channel>>,
}

impl System {
    /// Sets up afresh. A fault may be put into the clients.
    pub fn new(settings: Settings, fault: Option<Fault>) -> Result<System, Refusal> {
        let f = settings.f as usize;
        let n = settings.n as usize;
        let clients = settings.clients as usize;
        if f > MOST_FAULTY || !(3 * f + 1..=MOST_SERVERS).contains(&n) || !(1..=MOST_CLIENTS).contains(&clients) {
            return Err(Refusal::BadSettings);
        }
        if settings.faulty[n..].contains(&true) {
            return Err(Refusal::BadSettings);
        }
        let faulty = settings.faulty[..n].to_vec();
        if faulty.iter().filter(|yes| **yes).count() > f {
            return Err(Refusal::TooManyFaulty);
        }
        Ok(System {
            faulty,
            stopped: vec![false; clients],
            servers: vec![Server::new(); n],
            clients: (1..=settings.clients).map(|number| Client::new(number, f, n, fault)).collect(),
            up: vec![vec![Channel::new(); n]; clients],
            down: vec![vec![Channel::new(); n]; clients],
        })
    }

    /// Takes a step. The refusals stand in the order of their numbers; a refused step changes nothing.
    pub fn step(&mut self, step: Step) -> Result<Answer, Refusal> {
        match step {
            Step::Read { client } => self.begin(client, None),
            Step::Write { client, entry } => self.begin(client, Some(entry)),
            Step::ServerTakes { server, client } => self.server_takes(server, client),
            Step::ClientTakes { client, server } => self.client_takes(client, server),
            Step::Stop { client } => self.stop(client),
            Step::Lie { server, client, message } => self.lie(server, client, message),
        }
    }

    /// R and W. The start keeps the slots that the operation will need later: DONE, and WRITE_INFO for a write.
    fn begin(&mut self, client: u32, entry: Option<u64>) -> Result<Answer, Refusal> {
        let client = self.client(client)?;
        self.working(client)?;
        if self.clients[client].phase != Phase::Idle {
            return Err(Refusal::Busy);
        }
        if entry.is_some_and(|entry| !is_licence(entry)) {
            return Err(Refusal::NoEntry);
        }
        if self.clients[client].read_number == HIGHEST {
            return Err(Refusal::Exhausted);
        }
        let needed = if entry.is_some() { 3 } else { 2 };
        if self.honest().any(|server| self.up[client][server].len() + needed > SLOTS) {
            return Err(Refusal::FullChannel);
        }
        let message = self.clients[client].begin(entry);
        self.broadcast(client, message);
        Ok(Answer::Went)
    }

    /// K.
    fn server_takes(&mut self, server: u32, client: u32) -> Result<Answer, Refusal> {
        let server = self.server(server)?;
        let client = self.client(client)?;
        if self.faulty[server] {
            return Err(Refusal::WrongRole);
        }
        let message = *self.up[client][server].front().ok_or(Refusal::EmptyChannel)?;
        match message {
            Message::GetInfo { tag } => {
                self.room(server, client, 1)?;
                self.servers[server].readers.insert(client);
                let pair = self.servers[server].pair;
                self.reply(server, client, Message::Info { tag, pair });
            }
            Message::Done => {
                self.servers[server].readers.remove(&client);
            }
            Message::WriteInfo(pair) => {
                for other in 0..self.clients.len() {
                    let forwards = usize::from(self.servers[server].readers.contains(&other));
                    let acknowledgements = usize::from(other == client);
                    self.room(server, other, forwards + acknowledgements)?;
                }
                self.servers[server].store(pair);
                for reader in 0..self.clients.len() {
                    if self.servers[server].readers.contains(&reader) {
                        self.reply(server, reader, Message::Fwd(pair));
                    }
                }
                self.reply(server, client, Message::WriteAck { counter: pair.timestamp.counter });
            }
            Message::Info { .. } | Message::Fwd(_) | Message::WriteAck { .. } => {
                unreachable!("a channel to a server holds GET_INFO, DONE and WRITE_INFO")
            }
        }
        self.up[client][server].pop_front();
        Ok(Answer::Went)
    }

    /// D. It is never refused 12: the start has kept the slots for what is put here.
    fn client_takes(&mut self, client: u32, server: u32) -> Result<Answer, Refusal> {
        let client = self.client(client)?;
        let server = self.server(server)?;
        self.working(client)?;
        let message = self.down[client][server].pop_front().ok_or(Refusal::EmptyChannel)?;
        let outcome = self.clients[client].take(server, message);
        if matches!(outcome, Outcome::Shows(_) | Outcome::Stores(_) | Outcome::Spent) {
            self.broadcast(client, Message::Done);
        }
        Ok(match outcome {
            Outcome::Waits => Answer::Went,
            Outcome::Shows(pair) => Answer::Read(pair),
            Outcome::Stores(pair) => {
                self.broadcast(client, Message::WriteInfo(pair));
                Answer::Went
            }
            Outcome::Spent => Answer::Spent,
            Outcome::Stored(pair) => Answer::Wrote(pair),
        })
    }

    /// C.
    fn stop(&mut self, client: u32) -> Result<Answer, Refusal> {
        let client = self.client(client)?;
        self.working(client)?;
        self.stopped[client] = true;
        self.down[client].iter_mut().for_each(Channel::clear);
        Ok(Answer::Went)
    }

    /// L.
    fn lie(&mut self, server: u32, client: u32, message: u128) -> Result<Answer, Refusal> {
        let server = self.server(server)?;
        let client = self.client(client)?;
        if !self.faulty[server] {
            return Err(Refusal::WrongRole);
        }
        let message = match Message::unpack(message) {
            Some(message @ (Message::Info { .. } | Message::Fwd(_) | Message::WriteAck { .. })) => message,
            _ => return Err(Refusal::Malformed),
        };
        self.room(server, client, 1)?;
        self.reply(server, client, message);
        Ok(Answer::Went)
    }

    /// The index of a client.
    fn client(&self, number: u32) -> Result<usize, Refusal> {
        index(number, self.clients.len())
    }

    /// The index of a server.
    fn server(&self, number: u32) -> Result<usize, Refusal> {
        index(number, self.servers.len())
    }

    fn working(&self, client: usize) -> Result<(), Refusal> {
        if self.stopped[client] {
            Err(Refusal::Stopped)
        } else {
            Ok(())
        }
    }

    /// The servers that are not faulty.
    pub fn honest(&self) -> impl Iterator<Item = usize> + '_ {
        (0..self.servers.len()).filter(|server| !self.faulty[*server])
    }

    /// Are there so many free slots from the server to the client? A stopped client's channel drops and needs none.
    fn room(&self, server: usize, client: usize, needed: usize) -> Result<(), Refusal> {
        if !self.stopped[client] && self.down[client][server].len() + needed > SLOTS {
            return Err(Refusal::FullChannel);
        }
        Ok(())
    }

    /// Puts a message on the channel to the client; dropped if that has stopped.
    fn reply(&mut self, server: usize, client: usize, message: Message) {
        if !self.stopped[client] {
            self.down[client][server].push_back(message);
        }
    }

    /// Puts a message on the channel to every server; dropped if that is faulty.
    fn broadcast(&mut self, client: usize, message: Message) {
        for server in 0..self.servers.len() {
            if !self.faulty[server] {
                self.up[client][server].push_back(message);
            }
        }
    }
}

/// The index of a number that counts from 1.
fn index(number: u32, count: usize) -> Result<usize, Refusal> {
    match (number as usize).checked_sub(1) {
        Some(index) if index < count => Ok(index),
        _ => Err(Refusal::NoSuchProcess),
    }
}
