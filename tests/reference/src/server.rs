//! The server (paper 01: keeper): Algorithm 3 of document 001. What it sends is in [`crate::system`].

use crate::message::Pair;
use std::collections::BTreeSet;

/// What an honest server holds.
#[derive(Clone, Debug)]
pub struct Server {
    /// The newest pair that has arrived.
    pub pair: Pair,
    /// The reading clients, by index.
    pub readers: BTreeSet<usize>,
}

impl Server {
    /// A server holds the initial pair and has no readers.
    pub fn new() -> Server {
        Server { pair: Pair::INITIAL, readers: BTreeSet::new() }
    }

    /// Replaces the pair if the timestamp is higher.
    pub fn store(&mut self, pair: Pair) {
        if pair.timestamp > self.pair.timestamp {
            self.pair = pair;
        }
    }
}

impl Default for Server {
    fn default() -> Server {
        Server::new()
    }
}
