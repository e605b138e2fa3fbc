//! How a setup goes on: which steps are open, and how likely each is.
//!
//! Delays come from *speeds*: each channel has a weight from 1 to 1024, drawn anew now and then, so that some servers
//! lag far behind. Now and then nobody starts anything until every channel is empty, which is what the closing clause
//! of demand 3 is about.

use crate::client::Phase;
use crate::lies::{FaultyServer, Habit};
use crate::random::Random;
use crate::system::{System, MOST_CLIENTS, MOST_SERVERS, SLOTS};

/// A step that is open, by indices.
#[derive(Clone, Copy, Debug)]
#[allow(missing_docs)] // as in `system::Step`
pub enum Move {
    ServerTakes { server: usize, client: usize },
    ClientTakes { client: usize, server: usize },
    Start { client: usize },
    Lie { server: usize, client: usize },
}

/// For each channel how likely it is to be chosen.
type Speeds = [[u32; MOST_SERVERS]; MOST_CLIENTS];

/// How the present setup goes on.
pub struct Plan {
    /// Lines until the next setup.
    pub lines_left: usize,
    up: Speeds,
    down: Speeds,
    /// How likely an idle client is to start something.
    starts: u32,
    /// How many of a thousand starts are writes.
    pub writes: usize,
    /// Do clients stop?
    pub stops: bool,
    /// Nobody starts anything until all is quiet.
    pub draining: bool,
    /// What the faulty servers say.
    pub faulty: FaultyServer,
    /// For each channel from a faulty server, what its last lie was about: read number and phase.
    lied: [[Option<(u32, bool)>; MOST_SERVERS]; MOST_CLIENTS],
}

impl Plan {
    /// A plan for so many lines.
    pub fn new(random: &mut Random, lines_left: usize) -> Plan {
        Plan {
            lines_left,
            up: std::array::from_fn(|_| std::array::from_fn(|_| speed(random))),
            down: std::array::from_fn(|_| std::array::from_fn(|_| speed(random))),
            starts: random.pick(&[4, 64, 512]),
            writes: random.pick(&[200, 500, 800]),
            stops: random.chance(500),
            draining: false,
            faulty: FaultyServer::new(random),
            lied: [[None; MOST_SERVERS]; MOST_CLIENTS],
        }
    }

    /// Now and then the channels of a client or a server change their speeds, and starts cease.
    pub fn drift(&mut self, random: &mut Random) {
        if random.chance(8) {
            let client = random.below(MOST_CLIENTS);
            self.up[client] = std::array::from_fn(|_| speed(random));
            self.down[client] = std::array::from_fn(|_| speed(random));
        }
        if random.chance(8) {
            let server = random.below(MOST_SERVERS);
            for client in 0..MOST_CLIENTS {
                self.up[client][server] = speed(random);
                self.down[client][server] = speed(random);
            }
        }
        if random.chance(4) {
            self.draining = true;
        }
        self.faulty.drift(random);
    }

    /// All open moves with their weights.
    pub fn open_moves(&self, system: &System) -> Vec<(u32, Move)> {
        let mut moves = Vec::new();
        for client in 0..system.clients.len() {
            let works = !system.stopped[client];
            for server in 0..system.servers.len() {
                if !system.up[client][server].is_empty() {
                    moves.push((self.up[client][server], Move::ServerTakes { server, client }));
                }
                if !system.down[client][server].is_empty() {
                    moves.push((self.down[client][server], Move::ClientTakes { client, server }));
                }
                if works && system.faulty[server] && system.down[client][server].len() < SLOTS {
                    moves.push((self.lie_weight(system, server, client), Move::Lie { server, client }));
                }
            }
            if works && system.clients[client].phase == Phase::Idle && !self.draining {
                moves.push((self.starts, Move::Start { client }));
            }
        }
        moves
    }

    /// The faulty server is about to lie to the client.
    pub fn lies(&mut self, system: &System, server: usize, client: usize) {
        self.lied[client][server] = Some(about(system, client));
    }

    /// A lie for each phase of an operation soon; other lies seldom.
    fn lie_weight(&self, system: &System, server: usize, client: usize) -> u32 {
        let idle = system.clients[client].phase == Phase::Idle;
        let new = self.lied[client][server] != Some(about(system, client));
        match (self.faulty.habit, self.draining && idle) {
            (Habit::Silent, _) | (_, true) => 0,
            _ if new && !idle => 256,
            _ => 1,
        }
    }
}

/// What a lie to a client can be about: its read number, and whether it stores.
fn about(system: &System, client: usize) -> (u32, bool) {
    let client = &system.clients[client];
    (client.read_number, matches!(client.phase, Phase::Storing { .. }))
}

fn speed(random: &mut Random) -> u32 {
    1 << random.below(11)
}
