//! Timestamps, pairs and messages (paper 01, 'Message').

use crate::licence::EMPTY;

/// The highest read number and the highest counter: both have 20 bits.
pub const HIGHEST: u32 = 0xF_FFFF;

/// Counter and client of a write, compared by counter first.
#[derive(Clone, Copy, Debug, PartialEq, Eq, PartialOrd, Ord)]
pub struct Timestamp {
    /// The write's counter, 20 bits.
    pub counter: u32,
    /// The number of the client that wrote, 4 bits.
    pub client: u32,
}

/// An entry with its timestamp, compared by timestamp and then by entry.
#[derive(Clone, Copy, Debug, PartialEq, Eq, PartialOrd, Ord)]
pub struct Pair {
    /// When, in the order of writes.
    pub timestamp: Timestamp,
    /// What, any 40 bits: a faulty server may send a false date.
    pub entry: u64,
}

impl Pair {
    /// What every server holds at the beginning (paper 01: the start).
    pub const INITIAL: Pair = Pair { timestamp: Timestamp { counter: 0, client: 0 }, entry: EMPTY };
}

/// A message, with the fields that its kind uses.
#[derive(Clone, Copy, Debug, PartialEq, Eq)]
pub enum Message {
    /// 1, client to server: send me what you hold. The tag is the client's read number.
    GetInfo {
        /// The client's read number.
        tag: u32,
    },
    /// 2, server to client: what I hold.
    Info {
        /// The tag of the GET_INFO that this answers.
        tag: u32,
        /// What the server holds.
        pair: Pair,
    },
    /// 3, client to server: forward nothing more.
    Done,
    /// 4, client to server: store this if it is newer.
    WriteInfo(Pair),
    /// 5, server to reading client: somebody writes this.
    Fwd(Pair),
    /// 6, server to writing client: your write of this counter has arrived.
    WriteAck {
        /// The counter of the write.
        counter: u32,
    },
}

impl Message {
    /// Reads 88 bits: kind 4, tag 20, counter 20, client 4, entry 40. `None` is the paper's misprint: a kind that
    /// is not 1 to 6, or a field that the kind does not use and that is not zero.
    pub fn unpack(bits: u128) -> Option<Message> {
        let kind = field(bits, 84, 4);
        let tag = field(bits, 64, 20) as u32;
        let counter = field(bits, 44, 20) as u32;
        let client = field(bits, 40, 4) as u32;
        let entry = field(bits, 0, 40);
        let pair = Pair { timestamp: Timestamp { counter, client }, entry };
        match (kind, tag, counter, client, entry) {
            (1, tag, 0, 0, 0) => Some(Message::GetInfo { tag }),
            (2, tag, _, _, _) => Some(Message::Info { tag, pair }),
            (3, 0, 0, 0, 0) => Some(Message::Done),
            (4, 0, _, _, _) => Some(Message::WriteInfo(pair)),
            (5, 0, _, _, _) => Some(Message::Fwd(pair)),
            (6, 0, counter, 0, 0) => Some(Message::WriteAck { counter }),
            _ => None,
        }
    }

    /// The 88 bits of a message.
    pub fn pack(self) -> u128 {
        let bits = |kind: u128, tag: u32, pair: Pair| {
            kind << 84
                | u128::from(tag) << 64
                | u128::from(pair.timestamp.counter) << 44
                | u128::from(pair.timestamp.client) << 40
                | u128::from(pair.entry)
        };
        let counter_only = |counter| Pair { timestamp: Timestamp { counter, client: 0 }, entry: 0 };
        match self {
            Message::GetInfo { tag } => bits(1, tag, counter_only(0)),
            Message::Info { tag, pair } => bits(2, tag, pair),
            Message::Done => bits(3, 0, counter_only(0)),
            Message::WriteInfo(pair) => bits(4, 0, pair),
            Message::Fwd(pair) => bits(5, 0, pair),
            Message::WriteAck { counter } => bits(6, 0, counter_only(counter)),
        }
    }
}

/// The field of `width` bits that starts at bit `low`.
fn field(bits: u128, low: u32, width: u32) -> u64 {
    (bits >> low & ((1 << width) - 1)) as u64
}

#[cfg(test)]
#[allow(clippy::unusual_byte_groupings)] // digits are grouped by field
mod tests {
    use super::*;

    const PAIR: Pair = Pair { timestamp: Timestamp { counter: 1, client: 1 }, entry: 0x7E_82E8_0141 };

    #[test]
    fn the_papers_example() {
        assert_eq!(Message::WriteInfo(PAIR).pack(), 0x4_00000_00001_1_7E82E80141);
    }

    #[test]
    fn there_and_back() {
        for message in [
            Message::GetInfo { tag: HIGHEST },
            Message::Info { tag: 7, pair: PAIR },
            Message::Done,
            Message::WriteInfo(PAIR),
            Message::Fwd(PAIR),
            Message::WriteAck { counter: HIGHEST },
        ] {
            assert_eq!(Message::unpack(message.pack()), Some(message));
        }
    }

    #[test]
    fn malformed() {
        for bits in [
            0x0_00000_00000_0_0000000000, // kinds 0 and 7
            0x7_00000_00000_0_0000000000,
            0x1_00001_00001_0_0000000000, // GET_INFO with a counter
            0x3_00001_00000_0_0000000000, // DONE with a tag
            0x5_00001_00001_1_7E82E80141, // FWD with a tag
            0x6_00000_00001_1_0000000000, // WRITE_ACK with a client
            0x6_00000_00001_0_0000000001, // WRITE_ACK with an entry
        ] {
            assert_eq!(Message::unpack(bits), None, "{bits:022X}");
        }
    }

    #[test]
    fn order_of_pairs() {
        let pair = |counter, client, entry| Pair { timestamp: Timestamp { counter, client }, entry };
        assert!(pair(1, 6, 9) < pair(2, 1, 0));
        assert!(pair(2, 1, 9) < pair(2, 2, 0));
        assert!(pair(2, 2, 0) < pair(2, 2, 9));
    }
}
