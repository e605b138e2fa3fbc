//! What faulty servers say: nonsense is dropped, so the lies are such as a client might believe.

use crate::client::Phase;
use crate::message::{Message, Pair, Timestamp, HIGHEST};
use crate::random::Random;
use crate::samples::licence_entry;
use crate::system::System;

/// How the faulty servers of a setup behave.
#[derive(Clone, Copy, Debug, PartialEq, Eq)]
pub enum Habit {
    /// They say nothing.
    Silent,
    /// They show old pairs, and acknowledge what they have not stored.
    Old,
    /// They agree on a forged entry with a high timestamp.
    Inflated,
    /// They show what an honest server holds, with another entry.
    Twisted,
    /// They show what some honest server holds.
    Plausible,
    /// Now this, now that.
    Mixed,
}

const HABITS: [Habit; 6] = [Habit::Silent, Habit::Old, Habit::Inflated, Habit::Twisted, Habit::Plausible, Habit::Mixed];

/// The faulty servers of a setup, which act as one.
#[derive(Clone, Debug)]
pub struct FaultyServer {
    /// What they do.
    pub habit: Habit,
    /// Pairs that clients have written; the last few.
    heard: Vec<Pair>,
    /// What they show instead of the truth: how far above it, and the entry.
    forged: (u32, u64),
}

impl FaultyServer {
    /// With some habit.
    pub fn new(random: &mut Random) -> FaultyServer {
        let forged = (1, licence_entry(random));
        FaultyServer { habit: random.pick(&HABITS), heard: vec![Pair::INITIAL], forged }
    }

    /// A write has arrived somewhere.
    pub fn hears(&mut self, pair: Pair) {
        if !self.heard.contains(&pair) {
            self.heard.push(pair);
        }
        if self.heard.len() > 12 {
            self.heard.remove(0);
        }
    }

    /// Now and then another forged pair, another habit.
    pub fn drift(&mut self, random: &mut Random) {
        if random.chance(10) {
            let above = random.pick(&[0, 1, 1, 2, 100, HIGHEST]);
            self.forged = (above, licence_entry(random));
        }
        if random.chance(2) {
            self.habit = random.pick(&HABITS);
        }
    }

    /// A message to a client that fits what it is doing, mostly.
    pub fn lie(&self, random: &mut Random, system: &System, client: usize) -> Message {
        let client = &system.clients[client];
        let pair = self.pair(self.habit, random, system);
        let lot = random.below(100);
        match client.phase {
            Phase::Storing { pair: stored } if lot < 90 => {
                Message::WriteAck { counter: near(random, stored.timestamp.counter) }
            }
            Phase::Reading | Phase::ReadingForWrite { .. } if lot < 5 => {
                Message::WriteAck { counter: pair.timestamp.counter }
            }
            _ if lot.is_multiple_of(5) => Message::Fwd(pair),
            // It will fit the next read.
            Phase::Idle if lot.is_multiple_of(2) => Message::Info { tag: near(random, client.read_number + 1), pair },
            _ => Message::Info { tag: near(random, client.read_number), pair },
        }
    }

    fn pair(&self, habit: Habit, random: &mut Random, system: &System) -> Pair {
        let held = || system.honest().map(|server| system.servers[server].pair);
        let highest = held().max().expect("some server is honest");
        let lowest = held().min().expect("some server is honest");
        let (above, entry) = self.forged;
        match habit {
            Habit::Old if random.chance(600) => lowest,
            Habit::Old => random.pick(&self.heard),
            Habit::Inflated => {
                let Timestamp { counter, client } = highest.timestamp;
                let counter = (counter + above).min(HIGHEST);
                Pair { timestamp: Timestamp { counter, client: client.max(1) }, entry }
            }
            Habit::Twisted => Pair { entry, ..random.pick(&[highest, lowest]) },
            Habit::Plausible => random.pick(&[highest, highest, lowest]),
            Habit::Silent | Habit::Mixed => {
                let habit = random.pick(&[Habit::Old, Habit::Inflated, Habit::Twisted, Habit::Plausible]);
                self.pair(habit, random, system)
            }
        }
    }
}

/// The right tag or counter, mostly.
fn near(random: &mut Random, right: u32) -> u32 {
    let wrong = [right.saturating_sub(1), right + 1, 0, HIGHEST];
    let number = if random.chance(880) { right } else { random.pick(&wrong) };
    number.min(HIGHEST)
}
