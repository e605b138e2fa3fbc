//! Entries and messages, right and wrong ones.

use crate::licence;
use crate::random::Random;

/// A real date with a state, or one of a few entries that come again and again.
pub fn licence_entry(random: &mut Random) -> u64 {
    if random.chance(200) {
        return random.pick(&[
            0x7E_82E8_0141,
            licence::entry(1900, 1, 1, 0, 3),
            licence::entry(2199, 12, 31, 65535, 2),
        ]);
    }
    let year = random.between(1900, 2199) as u64;
    let month = random.between(1, 12) as u64;
    let day = random.between(1, 28) as u64;
    licence::entry(year, month, day, random.below(65536) as u64, random.between(1, 3) as u64)
}

/// A licence entry with one thing wrong, the empty entry, or any bits.
pub fn no_licence_entry(random: &mut Random) -> u64 {
    let day = random.between(1, 28) as u64;
    random.pick(&[
        licence::EMPTY,
        licence::entry(1899, 12, day, 1, 1),
        licence::entry(2200, 1, day, 1, 1),
        licence::entry(2024, 0, day, 1, 1),
        licence::entry(2024, 13, day, 1, 1),
        licence::entry(2024, 1, 0, 1, 1),
        licence::entry(2024, 4, 31, 1, 1),
        licence::entry(2025, 2, 29, 1, 1),
        licence::entry(1900, 2, 29, 1, 1),
        licence::entry(2100, 2, 29, 1, 1),
        licence::entry(2024, 2, 30, 1, 1),
        licence::entry(2024, 1, day, 1, 0),
        licence::entry(2024, 1, day, 1, 4),
        licence::entry(2024, 1, day, 1, 7),
    ])
}

/// 88 bits that are no message to a client: a wrong kind, or a field that must be zero.
pub fn malformed(random: &mut Random) -> u128 {
    let kind = random.below(16) as u128;
    let tag = random.pick(&[0, 1, 0xF_FFFF]);
    let counter = random.pick(&[0, 1, 0xF_FFFF]);
    let client = random.pick(&[0, 1, 15]);
    let entry = random.pick(&[0, 1, 0x7E_82E8_0141]);
    kind << 84 | tag << 64 | counter << 44 | client << 40 | entry
}
