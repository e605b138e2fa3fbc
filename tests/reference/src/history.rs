//! What the steps and their answers say has happened (paper 01, 'The words of demand 3'): reads and writes, when they
//! began and ended, what they showed and sent. Moments are line numbers.

use crate::message::Pair;

/// A read or a write.
#[derive(Clone, Debug)]
pub struct Operation {
    /// The client's index.
    pub client: usize,
    /// The moment of its R or W.
    pub began: u64,
    /// The moment of its READ, WROTE or SPENT.
    pub ended: Option<u64>,
    /// Which of the two, and its pair.
    pub kind: Kind,
}

/// A read or a write, with its pair.
#[derive(Clone, Copy, Debug, PartialEq, Eq)]
pub enum Kind {
    /// A read, and what it showed at its end.
    Read(Option<Pair>),
    /// A write, and what it sent as WRITE_INFO, ended or not. SPENT sends nothing.
    Write(Option<Pair>),
}

impl Operation {
    /// The pair that a write sent.
    pub fn sent(&self) -> Option<Pair> {
        match self.kind {
            Kind::Write(sent) => sent,
            Kind::Read(_) => None,
        }
    }

    /// The pair that a finished read showed.
    pub fn shown(&self) -> Option<Pair> {
        match self.kind {
            Kind::Read(shown) => shown,
            Kind::Write(_) => None,
        }
    }

    /// Did this end before the other began?
    pub fn precedes(&self, other: &Operation) -> bool {
        self.ended.is_some_and(|ended| ended < other.began)
    }
}

/// All operations since the setup, by their beginnings.
#[derive(Clone, Debug, Default)]
pub struct History {
    /// The operations.
    pub operations: Vec<Operation>,
    /// For each client the operation that it has open.
    open: Vec<Option<usize>>,
}

impl History {
    /// Nothing has happened.
    pub fn new(clients: usize) -> History {
        History { operations: Vec::new(), open: vec![None; clients] }
    }

    /// The operation that a client has open.
    pub fn open(&self, client: usize) -> Option<&Operation> {
        self.open[client].map(|index| &self.operations[index])
    }

    /// An R or W was accepted.
    pub fn begin(&mut self, client: usize, kind: Kind, moment: u64) {
        self.open[client] = Some(self.operations.len());
        self.operations.push(Operation { client, began: moment, ended: None, kind });
    }

    /// The open write of a client has put WRITE_INFO on the channels. `None` if there is no such write.
    pub fn send(&mut self, client: usize, pair: Pair) -> Option<()> {
        let write = &mut self.operations[self.open[client]?];
        (write.kind == Kind::Write(None)).then(|| write.kind = Kind::Write(Some(pair)))
    }

    /// The open operation of a client has ended as `kind`: a read with what it shows, a write with what it sent.
    /// `None` if there is no such operation.
    pub fn end(&mut self, client: usize, kind: Kind, moment: u64) -> Option<()> {
        let operation = &mut self.operations[self.open[client]?];
        if matches!(kind, Kind::Read(_)) && operation.kind == Kind::Read(None) {
            operation.kind = kind;
        }
        if operation.kind != kind {
            return None;
        }
        operation.ended = Some(moment);
        self.open[client] = None;
        Some(())
    }

    /// The writes that sent something, with their indices and pairs.
    pub fn writes(&self) -> impl Iterator<Item = (usize, Pair)> + '_ {
        self.operations.iter().enumerate().filter_map(|(index, operation)| Some((index, operation.sent()?)))
    }

    /// The finished reads, with their indices and pairs.
    pub fn reads(&self) -> impl Iterator<Item = (usize, Pair)> + '_ {
        self.operations.iter().enumerate().filter_map(|(index, operation)| Some((index, operation.shown()?)))
    }
}
