//! Lines that cannot be read, each a readable line with one thing wrong.

use crate::parse::LONGEST_LINE;
use crate::random::Random;

/// A way to damage a line.
type Damage = fn(&mut Random, &mut Vec<u8>);

const WAYS: [Damage; 25] = [
    |_, line| line.clear(),
    |_, line| line.push(b'\r'),
    |_, line| line.push(b' '),
    |_, line| line.push(0),
    |_, line| line.insert(0, b' '),
    |_, line| line.extend(b" 1"),
    |_, line| line.truncate(line.len() - 1),
    |_, line| line.make_ascii_lowercase(),
    |random, line| line[0] = random.pick(b"ABEFMQTXZ019 \t"),
    |random, line| line.truncate(random.between(0, 2)),
    |random, line| replace_blank(random, line, b"\t"),
    |random, line| replace_blank(random, line, b"  "),
    |random, line| replace_blank(random, line, b" \t "),
    |random, line| replace_blank(random, line, b" +"),
    |random, line| replace_blank(random, line, b" -"),
    |random, line| replace_blank(random, line, b" 0000000"), // eight digits, or hexadecimal of another length
    |random, line| replace_blank(random, line, b""),
    |random, line| replace_byte(random, line, 128..=255),
    |random, line| replace_byte(random, line, 0..=9),
    |random, line| replace_byte(random, line, b'G'..=b'Q'),
    |random, line| *line = random.pick(&["S 1 4 2 ", "S 1 4 2", "S 1 4 2 00000000000000", "S 1 4 2 0200"]).into(),
    |random, line| *line = other_setup(random).into(),
    |_, line| line.resize(LONGEST_LINE + 1, b' '),
    |_, line| line.resize(LONGEST_LINE + 1, b'0'),
    |random, line| line.resize(long(random), b'0'),
];

/// Damages a line in one of the ways. Some lines survive some of them.
pub fn damage(random: &mut Random, line: &[u8]) -> Vec<u8> {
    let mut line = line.to_vec();
    random.pick(&WAYS)(random, &mut line);
    line
}

/// A setup without n, as it was before C-11, or with one number more.
fn other_setup(random: &mut Random) -> String {
    let [f, n, clients] = [random.below(5), random.between(1, 13), random.between(1, 6)];
    let marks = random.pick(&["0", "1", "0001", "0000000000000"]);
    match random.below(2) {
        0 => format!("S {f} {clients} {marks}"),
        _ => random
            .pick(&[format!("S {f} {n} {clients} {n} {marks}").as_str(), &format!("S {f} {n} {clients} {marks} 0")])
            .into(),
    }
}

/// Mostly a thousand bytes; seldom more than a block of 64 KB.
fn long(random: &mut Random) -> usize {
    if random.chance(950) {
        random.between(900, 1100)
    } else {
        random.between(65_530, 200_000)
    }
}

fn replace_blank(random: &mut Random, line: &mut Vec<u8>, by: &[u8]) {
    let blanks: Vec<usize> = (0..line.len()).filter(|place| line[*place] == b' ').collect();
    if !blanks.is_empty() {
        let place = random.pick(&blanks);
        line.splice(place..=place, by.iter().copied());
    }
}

fn replace_byte(random: &mut Random, line: &mut [u8], by: std::ops::RangeInclusive<u8>) {
    let place = random.below(line.len());
    line[place] = random.between(usize::from(*by.start()), usize::from(*by.end())) as u8;
}

#[cfg(test)]
mod tests {
    use super::*;
    use crate::parse::parse;

    #[test]
    fn no_way_leaves_a_write_readable() {
        let mut random = Random::new(1);
        for way in WAYS.into_iter().cycle().take(100 * WAYS.len()) {
            let mut line = b"W 1 7E82E80141".to_vec();
            way(&mut random, &mut line);
            assert_eq!(parse(&line), None, "{:?}", String::from_utf8_lossy(&line));
            assert!(!line.contains(&b'\n'));
        }
    }
}
