//! The client (paper 01: desk): Algorithms 1 and 2 of document 001.

use crate::fault::Fault;
use crate::message::{Message, Pair, Timestamp, HIGHEST};
use std::collections::BTreeSet;

/// The most pairs that a set holds.
const SET_LIMIT: usize = 4;

/// How many of the n servers it takes, where f may be faulty.
#[derive(Clone, Copy, Debug)]
pub struct Thresholds {
    /// Timestamps to be noted before a pair is chosen: n − f.
    spoken: usize,
    /// Noted timestamps that a pair's must be at or above: 2f + 1 (001: not_old).
    not_old: usize,
    /// Sets that a pair must be in: f + 1 (001: valid).
    valid: usize,
    /// Acknowledgements that end a write: n − f.
    stored: usize,
}

impl Thresholds {
    /// The thresholds for n servers; a fault may spoil one.
    pub fn new(f: usize, n: usize, fault: Option<Fault>) -> Thresholds {
        let one_less = |name, right| if fault == Some(name) { right - 1 } else { right };
        Thresholds {
            spoken: n - f,
            not_old: one_less(Fault::TwoFNoted, 2 * f + 1),
            valid: one_less(Fault::FSets, f + 1),
            stored: one_less(Fault::FewAcknowledgements, n - f),
        }
    }
}

/// What the client is doing: exactly one of these.
#[derive(Clone, Copy, Debug, PartialEq, Eq)]
pub enum Phase {
    /// Nothing.
    Idle,
    /// A read.
    Reading,
    /// The read inside a write.
    ReadingForWrite {
        /// What is to be written.
        entry: u64,
    },
    /// The second half of a write.
    Storing {
        /// What is written, and when.
        pair: Pair,
    },
}

/// What a taken message leads to.
#[derive(Clone, Copy, Debug, PartialEq, Eq)]
pub enum Outcome {
    /// Nothing yet.
    Waits,
    /// A read has chosen its pair and ends.
    Shows(Pair),
    /// A write has chosen its timestamp and goes on to store.
    Stores(Pair),
    /// A write has found the highest counter in use and ends.
    Spent,
    /// A write is stored and ends.
    Stored(Pair),
}

/// What a client holds.
#[derive(Clone, Debug)]
pub struct Client {
    /// Its number, from 1.
    number: u32,
    /// What it is doing.
    pub phase: Phase,
    /// How many reads it has begun, those inside writes too.
    pub read_number: u32,
    /// For each server the timestamp of its INFO (001: ts_arr).
    noted: Vec<Option<Timestamp>>,
    /// For each server the pairs that it sent (001: val_arr).
    sets: Vec<BTreeSet<Pair>>,
    /// The servers that acknowledged the write.
    acknowledged: BTreeSet<usize>,
    thresholds: Thresholds,
    fault: Option<Fault>,
}

impl Client {
    /// A client is idle, with read number 0.
    pub fn new(number: u32, f: usize, n: usize, fault: Option<Fault>) -> Client {
        Client {
            number,
            phase: Phase::Idle,
            read_number: 0,
            noted: vec![None; n],
            sets: vec![BTreeSet::new(); n],
            acknowledged: BTreeSet::new(),
            thresholds: Thresholds::new(f, n, fault),
            fault,
        }
    }

    /// Begins a read, or a write if there is an entry. The message goes to every server.
    pub fn begin(&mut self, entry: Option<u64>) -> Message {
        self.read_number += 1;
        self.forget_replies();
        self.phase = match entry {
            None => Phase::Reading,
            Some(entry) => Phase::ReadingForWrite { entry },
        };
        Message::GetInfo { tag: self.read_number }
    }

    /// Takes a message from a server. What is not taken is dropped.
    pub fn take(&mut self, server: usize, message: Message) -> Outcome {
        match message {
            Message::Info { tag, pair } => self.take_info(server, tag, pair),
            Message::Fwd(pair) => self.take_fwd(server, pair),
            Message::WriteAck { counter } => self.take_ack(server, counter),
            Message::GetInfo { .. } | Message::Done | Message::WriteInfo(_) => {
                unreachable!("a channel to a client holds INFO, FWD and WRITE_ACK")
            }
        }
    }

    fn take_info(&mut self, server: usize, tag: u32, pair: Pair) -> Outcome {
        let late = self.fault == Some(Fault::InfoAfterShown) && self.phase == Phase::Idle;
        if !(self.is_reading() || late) || tag != self.read_number || self.noted[server].is_some() {
            return Outcome::Waits;
        }
        self.noted[server] = Some(pair.timestamp);
        self.add(server, pair);
        self.look()
    }

    fn take_fwd(&mut self, server: usize, pair: Pair) -> Outcome {
        if !self.is_reading() {
            return Outcome::Waits;
        }
        if self.fault == Some(Fault::ForwardNoted) && self.noted[server].is_none() {
            self.noted[server] = Some(pair.timestamp);
        }
        self.add(server, pair);
        self.look()
    }

    fn take_ack(&mut self, server: usize, counter: u32) -> Outcome {
        match self.phase {
            Phase::Storing { pair } if counter == pair.timestamp.counter => {
                self.acknowledged.insert(server);
                if self.acknowledged.len() < self.thresholds.stored {
                    return Outcome::Waits;
                }
                self.acknowledged.clear();
                self.phase = Phase::Idle;
                Outcome::Stored(pair)
            }
            Phase::ReadingForWrite { .. } if self.fault == Some(Fault::LateAcknowledgements) => {
                self.acknowledged.insert(server);
                Outcome::Waits
            }
            _ => Outcome::Waits,
        }
    }

    /// In either reading phase?
    fn is_reading(&self) -> bool {
        matches!(self.phase, Phase::Reading | Phase::ReadingForWrite { .. })
    }

    /// Adds a pair to the server's set; of five, the lowest leaves.
    fn add(&mut self, server: usize, pair: Pair) {
        let set = &mut self.sets[server];
        set.insert(pair);
        if set.len() > SET_LIMIT {
            match self.fault {
                Some(Fault::NewestDropped) => set.pop_last(),
                _ => set.pop_first(),
            };
        }
    }

    /// Follows every taken INFO and FWD (001: check): with a pair chosen, the reading phase ends.
    fn look(&mut self) -> Outcome {
        let Some(chosen) = self.choice() else {
            return Outcome::Waits;
        };
        let Phase::ReadingForWrite { entry } = self.phase else {
            self.phase = Phase::Idle;
            if self.fault != Some(Fault::InfoAfterShown) {
                self.forget_replies();
            }
            return Outcome::Shows(chosen);
        };
        self.forget_replies();
        if chosen.timestamp.counter == HIGHEST {
            self.phase = Phase::Idle;
            return Outcome::Spent;
        }
        let timestamp = Timestamp { counter: chosen.timestamp.counter + 1, client: self.number };
        let pair = Pair { timestamp, entry };
        self.phase = Phase::Storing { pair };
        if self.fault == Some(Fault::OneVariable) {
            self.read_number = timestamp.counter;
        }
        Outcome::Stores(pair)
    }

    /// The highest pair that counts, once enough servers have spoken.
    fn choice(&self) -> Option<Pair> {
        if self.noted.iter().flatten().count() < self.thresholds.spoken {
            return None;
        }
        self.sets.iter().flatten().copied().filter(|pair| self.counts(pair)).max()
    }

    /// Not old, and valid (001, lines 23 and 25 of Algorithm 1).
    fn counts(&self, pair: &Pair) -> bool {
        let at_or_below = self.noted.iter().flatten().filter(|noted| **noted <= pair.timestamp).count();
        let in_sets = self.sets.iter().filter(|set| set.contains(pair)).count();
        at_or_below >= self.thresholds.not_old && in_sets >= self.thresholds.valid
    }

    fn forget_replies(&mut self) {
        self.noted.fill(None);
        self.sets.iter_mut().for_each(BTreeSet::clear);
    }
}

#[cfg(test)]
mod tests {
    use super::*;

    fn pair(counter: u32, client: u32) -> Pair {
        Pair { timestamp: Timestamp { counter, client }, entry: 1 }
    }

    /// A reading client for f = 1 and n servers, with these timestamps noted and `pair(1, 1)` in the sets of the last
    /// servers.
    fn reader(n: usize, noted: &[(u32, u32)], in_sets: usize) -> Client {
        let mut client = Client::new(1, 1, n, None);
        client.begin(None);
        for (server, (counter, client_number)) in noted.iter().enumerate() {
            client.noted[server] = Some(Timestamp { counter: *counter, client: *client_number });
        }
        for set in client.sets.iter_mut().rev().take(in_sets) {
            set.insert(pair(1, 1));
        }
        client
    }

    #[test]
    fn the_papers_sheets_of_counting() {
        assert_eq!(reader(4, &[(1, 1), (1, 1), (0, 0)], 2).choice(), Some(pair(1, 1)));
        assert_eq!(reader(4, &[(2, 2), (1, 1), (0, 0)], 2).choice(), None);
        assert_eq!(reader(4, &[(1, 1), (1, 1), (0, 0)], 1).choice(), None);
    }

    /// n − f timestamps must be noted, three of them at or below the pair, and the pair be in two sets, for every n; the
    /// three are the last that are noted.
    #[test]
    fn counting_with_spare_servers() {
        let noted = |spoken: usize, below: usize| [vec![(2, 2); spoken - below], vec![(1, 1); below]].concat();
        for n in 5..=13 {
            assert_eq!(reader(n, &noted(n - 1, 3), 2).choice(), Some(pair(1, 1)));
            assert_eq!(reader(n, &noted(n - 2, 3), 2).choice(), None);
            assert_eq!(reader(n, &noted(n - 1, 2), 2).choice(), None);
            assert_eq!(reader(n, &noted(n - 1, 3), 1).choice(), None);
        }
    }

    /// Two from the same server are one.
    #[test]
    fn a_write_ends_at_n_minus_f_acknowledgements() {
        for (f, n) in [(0, 1), (0, 13), (1, 4), (1, 5), (1, 13), (3, 12), (4, 13)] {
            let stored = pair(1, 1);
            let mut client = Client::new(1, f, n, None);
            client.phase = Phase::Storing { pair: stored };
            for server in (0..n - f - 1).chain(0..n - f - 1) {
                assert_eq!(client.take(server, Message::WriteAck { counter: 1 }), Outcome::Waits);
            }
            assert_eq!(client.take(n - 1, Message::WriteAck { counter: 1 }), Outcome::Stored(stored));
        }
    }

    #[test]
    fn the_papers_sheets_of_a_full_set() {
        let counters = |client: &Client| client.sets[0].iter().map(|p| p.timestamp.counter).collect::<Vec<_>>();
        let mut client = Client::new(1, 1, 4, None);
        for counter in [6, 3, 9, 5] {
            client.add(0, pair(counter, 1));
        }
        assert_eq!(counters(&client), [3, 5, 6, 9]);
        client.add(0, pair(2, 1));
        assert_eq!(counters(&client), [3, 5, 6, 9]);
        client.add(0, pair(5, 1));
        assert_eq!(counters(&client), [3, 5, 6, 9]);
        client.add(0, pair(4, 1));
        assert_eq!(counters(&client), [4, 5, 6, 9]);
    }

    #[test]
    fn the_highest_pair_that_counts_is_chosen() {
        let mut client = reader(4, &[(0, 0), (0, 0), (0, 0)], 2);
        for server in 1..3 {
            client.add(server, pair(1, 2));
            client.add(server, Pair { entry: 2, ..pair(1, 2) });
        }
        client.add(3, pair(9, 9));
        assert_eq!(client.choice(), Some(Pair { entry: 2, ..pair(1, 2) }));
    }

    #[test]
    fn a_write_over_the_highest_counter_is_spent() {
        let mut client = Client::new(1, 0, 1, None);
        client.begin(Some(1));
        assert_eq!(client.take(0, Message::Info { tag: 1, pair: pair(HIGHEST, 2) }), Outcome::Spent);
        assert_eq!(client.phase, Phase::Idle);
        client.begin(Some(1));
        let next = Pair { entry: 1, ..pair(HIGHEST, 1) };
        assert_eq!(client.take(0, Message::Info { tag: 2, pair: pair(HIGHEST - 1, 2) }), Outcome::Stores(next));
    }

    #[test]
    fn what_is_not_taken() {
        let mut client = Client::new(1, 0, 1, None);
        let info = |tag| Message::Info { tag, pair: pair(5, 5) };
        assert_eq!(client.take(0, info(0)), Outcome::Waits); // idle
        client.begin(None);
        assert_eq!(client.take(0, info(0)), Outcome::Waits); // an older tag, and a newer one
        assert_eq!(client.take(0, info(2)), Outcome::Waits);
        assert_eq!(client.take(0, Message::WriteAck { counter: 0 }), Outcome::Waits);
        assert_eq!(client.take(0, Message::Fwd(pair(7, 1))), Outcome::Waits); // in the set, but nothing noted
        assert_eq!(client.take(0, info(1)), Outcome::Shows(pair(7, 1)));
        assert_eq!(client.take(0, info(1)), Outcome::Waits); // idle again
        assert_eq!(client.take(0, Message::Fwd(pair(7, 1))), Outcome::Waits);
    }
}
