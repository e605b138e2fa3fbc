//! Packing and unpacking in plain Rust, by the reference's `Message`: the same arguments, answers and bytes as the proved ones.
//! They are not inlined into the loop that times them, as the proved ones cannot be.

use crate::exports::Fields;
use reference::message::{Message, Pair, Timestamp, HIGHEST};

const BYTES: usize = 11;
const MALFORMED: u32 = 9;
const SHORT_BUFFER: u32 = 13;

/// Packs five numbers into the first eleven bytes: 0, or the refusal's number.
#[inline(never)]
pub fn pack(fields: &Fields, out: &mut [u8]) -> u32 {
    let Some(message) = message_of(fields) else { return MALFORMED };
    let Some(out) = out.first_chunk_mut::<BYTES>() else { return SHORT_BUFFER };
    out.copy_from_slice(&message.pack().to_be_bytes()[16 - BYTES..]);
    0
}

/// Unpacks eleven bytes into five numbers: 0, or the refusal's number.
#[inline(never)]
pub fn unpack(bytes: &[u8], fields: &mut Fields) -> u32 {
    let Ok(bytes) = <&[u8; BYTES]>::try_from(bytes) else { return MALFORMED };
    let mut bits = [0; 16];
    bits[16 - BYTES..].copy_from_slice(bytes);
    let Some(message) = Message::unpack(u128::from_be_bytes(bits)) else { return MALFORMED };
    *fields = fields_of(message);
    0
}

/// The message of five numbers; `None` for a field over its width, a kind that is none, or a field that the kind does not use
/// and that is not zero.
fn message_of(&[kind, tag, counter, client, entry]: &Fields) -> Option<Message> {
    let highest = u64::from(HIGHEST);
    if tag > highest || counter > highest || client > 15 || entry >> 40 != 0 {
        return None;
    }
    let (read, write) = (tag as u32, counter as u32);
    let pair = Pair { timestamp: Timestamp { counter: write, client: client as u32 }, entry };
    match (kind, tag, counter, client, entry) {
        (1, _, 0, 0, 0) => Some(Message::GetInfo { tag: read }),
        (2, _, _, _, _) => Some(Message::Info { tag: read, pair }),
        (3, 0, 0, 0, 0) => Some(Message::Done),
        (4, 0, _, _, _) => Some(Message::WriteInfo(pair)),
        (5, 0, _, _, _) => Some(Message::Fwd(pair)),
        (6, 0, _, 0, 0) => Some(Message::WriteAck { counter: write }),
        _ => None,
    }
}

/// The five numbers of a message.
fn fields_of(message: Message) -> Fields {
    let with_pair = |kind, tag: u32, pair: Pair| {
        let Pair { timestamp: Timestamp { counter, client }, entry } = pair;
        [kind, u64::from(tag), u64::from(counter), u64::from(client), entry]
    };
    match message {
        Message::GetInfo { tag } => [1, u64::from(tag), 0, 0, 0],
        Message::Info { tag, pair } => with_pair(2, tag, pair),
        Message::Done => [3, 0, 0, 0, 0],
        Message::WriteInfo(pair) => with_pair(4, 0, pair),
        Message::Fwd(pair) => with_pair(5, 0, pair),
        Message::WriteAck { counter } => [6, 0, u64::from(counter), 0, 0],
    }
}
