//! `messages ROUNDS`: nanoseconds of a pack and of an unpack, proved and plain, of the same messages. Prints one line each:
//! name, proved, plain.

use bench::clock::medians;
use bench::exports::{self, Fields};
use bench::plain;
use reference::random::Random;
use std::hint::black_box;
use std::time::Duration;

const MESSAGES: usize = 4096;
const PASSES: usize = 4; // over all messages, in one turn
const BYTES: usize = 11;

fn main() {
    let rounds = std::env::args().nth(1).and_then(|word| word.parse().ok()).expect("usage: messages ROUNDS");
    let mut random = Random::new(20);
    let messages: Vec<Fields> = (0..MESSAGES).map(|_| message(&mut random)).collect();
    compare(&mut random, &messages);

    let mut packed = [vec![0; MESSAGES * BYTES], vec![0; MESSAGES * BYTES]];
    let times = medians(rounds, 1, |side, _| match side {
        0 => pack_all(exports::pack, &messages, &mut packed[0]),
        _ => pack_all(plain::pack, &messages, &mut packed[1]),
    });
    assert_eq!(packed[0], packed[1]);
    report("pack", times);

    let mut unpacked = [vec![[0; 5]; MESSAGES], vec![[0; 5]; MESSAGES]];
    let times = medians(rounds, 1, |side, _| match side {
        0 => unpack_all(exports::unpack, &packed[0], &mut unpacked[0]),
        _ => unpack_all(plain::unpack, &packed[0], &mut unpacked[1]),
    });
    assert_eq!(unpacked[0], messages);
    assert_eq!(unpacked[1], messages);
    report("unpack", times);
}

/// Packs all messages one behind the other, and that again and again.
fn pack_all(pack: impl Fn(&Fields, &mut [u8]) -> u32, messages: &[Fields], out: &mut [u8]) {
    let mut refused = 0;
    for _ in 0..PASSES {
        for (fields, out) in black_box(messages).iter().zip(out.chunks_exact_mut(BYTES)) {
            refused += pack(fields, out);
        }
        black_box(&mut *out);
    }
    assert_eq!(refused, 0);
}

/// Unpacks all messages, and that again and again.
fn unpack_all(unpack: impl Fn(&[u8], &mut Fields) -> u32, bytes: &[u8], out: &mut [Fields]) {
    let mut refused = 0;
    for _ in 0..PASSES {
        for (bytes, fields) in black_box(bytes).chunks_exact(BYTES).zip(out.iter_mut()) {
            refused += unpack(bytes, fields);
        }
        black_box(&mut *out);
    }
    assert_eq!(refused, 0);
}

fn report(name: &str, times: [Duration; 2]) {
    let [ours, theirs] = times.map(|time| time.as_nanos() as f64 / (MESSAGES * PASSES) as f64);
    println!("{name} {ours:.2} {theirs:.2}");
}

/// A message of some kind, any fields.
fn message(random: &mut Random) -> Fields {
    let kind = random.between(1, 6) as u64;
    let mut field = |kinds: &[u64], bits: u32| if kinds.contains(&kind) { random.bits() >> (64 - bits) } else { 0 };
    [kind, field(&[1, 2], 20), field(&[2, 4, 5, 6], 20), field(&[2, 4, 5], 4), field(&[2, 4, 5], 40)]
}

/// Both sides give the same answers and leave the same memory: on the messages, on damaged ones, on any numbers and bytes, and on
/// buffers of any length.
fn compare(random: &mut Random, messages: &[Fields]) {
    for fields in messages {
        compare_pack(fields, BYTES);
        for length in 0..2 * BYTES {
            compare_pack(fields, length);
        }
        for at in 0..5 {
            for damage in [1, 1 << random.below(64), random.bits()] {
                let mut damaged = *fields;
                damaged[at] ^= damage;
                compare_pack(&damaged, BYTES);
            }
        }
        let mut bytes = [0; 2 * BYTES];
        assert_eq!(exports::pack(fields, &mut bytes), 0);
        for length in 0..2 * BYTES {
            compare_unpack(&bytes[..length]);
        }
        for bit in 0..8 * BYTES {
            let mut damaged = bytes;
            damaged[bit / 8] ^= 1 << (bit % 8);
            compare_unpack(&damaged[..BYTES]);
        }
        let any: [u8; BYTES] = std::array::from_fn(|_| random.bits() as u8);
        compare_unpack(&any);
    }
}

fn compare_pack(fields: &Fields, length: usize) {
    let mut out = [[0xA5; 2 * BYTES]; 2];
    let answers = [exports::pack(fields, &mut out[0][..length]), plain::pack(fields, &mut out[1][..length])];
    assert_eq!(answers[0], answers[1], "packing {fields:?} into {length} bytes");
    assert_eq!(out[0], out[1], "packing {fields:?} into {length} bytes");
}

fn compare_unpack(bytes: &[u8]) {
    let mut out = [[u64::MAX; 5]; 2];
    let answers = [exports::unpack(bytes, &mut out[0]), plain::unpack(bytes, &mut out[1])];
    assert_eq!(answers[0], answers[1], "unpacking {bytes:?}");
    assert_eq!(out[0], out[1], "unpacking {bytes:?}");
}
