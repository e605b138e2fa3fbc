//! One line of a script (paper 01, 'The program rehearse'; C-11: S has n).

use crate::system::{Settings, Step, MOST_SERVERS};

/// The longest line that is read, without its end.
pub const LONGEST_LINE: usize = 64;

/// What a readable line says. Whether it is accepted is another question.
#[derive(Clone, Copy, Debug, PartialEq, Eq)]
pub enum Command {
    /// S.
    Setup(Settings),
    /// R, W, K, D, C or L.
    Step(Step),
}

/// Reads a line without its end; `None` if it is unreadable. A blank too many is an empty field, which nothing reads.
pub fn parse(line: &[u8]) -> Option<Command> {
    if line.len() > LONGEST_LINE {
        return None;
    }
    let mut fields = line.split(|byte| *byte == b' ');
    let letter = fields.next()?;
    let mut next = || fields.next();
    let command = match letter {
        b"S" => Command::Setup(Settings {
            f: number(next()?)?,
            n: number(next()?)?,
            clients: number(next()?)?,
            faulty: marks(next()?)?,
        }),
        b"R" => Command::Step(Step::Read { client: number(next()?)? }),
        b"W" => Command::Step(Step::Write { client: number(next()?)?, entry: hexadecimal(next()?, 10)? as u64 }),
        b"K" => Command::Step(Step::ServerTakes { server: number(next()?)?, client: number(next()?)? }),
        b"D" => Command::Step(Step::ClientTakes { client: number(next()?)?, server: number(next()?)? }),
        b"C" => Command::Step(Step::Stop { client: number(next()?)? }),
        b"L" => Command::Step(Step::Lie {
            server: number(next()?)?,
            client: number(next()?)?,
            message: hexadecimal(next()?, 22)?,
        }),
        _ => return None,
    };
    if next().is_some() {
        return None;
    }
    Some(command)
}

/// 1 to 7 decimal digits.
fn number(field: &[u8]) -> Option<u32> {
    if field.is_empty() || field.len() > 7 {
        return None;
    }
    field.iter().try_fold(0, |value, byte| match byte {
        b'0'..=b'9' => Some(value * 10 + u32::from(byte - b'0')),
        _ => None,
    })
}

/// Exactly so many digits, upper case.
fn hexadecimal(field: &[u8], digits: usize) -> Option<u128> {
    if field.len() != digits {
        return None;
    }
    field.iter().try_fold(0, |value, byte| match byte {
        b'0'..=b'9' => Some(value << 4 | u128::from(byte - b'0')),
        b'A'..=b'F' => Some(value << 4 | u128::from(byte - b'A' + 10)),
        _ => None,
    })
}

/// 1 to 13 digits 0 or 1; absent ones are 0.
fn marks(field: &[u8]) -> Option<[bool; MOST_SERVERS]> {
    if field.is_empty() || field.len() > MOST_SERVERS {
        return None;
    }
    let mut marks = [false; MOST_SERVERS];
    for (mark, byte) in marks.iter_mut().zip(field) {
        *mark = match byte {
            b'0' => false,
            b'1' => true,
            _ => return None,
        };
    }
    Some(marks)
}

#[cfg(test)]
mod tests {
    use super::*;

    #[test]
    fn every_letter() {
        let mut faulty = [false; 13];
        faulty[1] = true;
        let readable: [(&[u8], Command); 8] = [
            (b"S 1 5 2 0100", Command::Setup(Settings { f: 1, n: 5, clients: 2, faulty })),
            (
                b"S 0 9999999 0000000 0",
                Command::Setup(Settings { f: 0, n: 9_999_999, clients: 0, faulty: [false; 13] }),
            ),
            (b"R 1", Command::Step(Step::Read { client: 1 })),
            (b"W 1 7E82E80141", Command::Step(Step::Write { client: 1, entry: 0x7E_82E8_0141 })),
            (b"K 3 2", Command::Step(Step::ServerTakes { server: 3, client: 2 })),
            (b"D 2 3", Command::Step(Step::ClientTakes { client: 2, server: 3 })),
            (b"C 9999999", Command::Step(Step::Stop { client: 9_999_999 })),
            (
                b"L 0000002 1 600000000010000000000F",
                Command::Step(Step::Lie { server: 2, client: 1, message: 0x60_0000_0000_1000_0000_000F }),
            ),
        ];
        for (line, command) in readable {
            assert_eq!(parse(line), Some(command));
        }
    }

    #[test]
    fn unreadable_lines() {
        let unreadable: [&[u8]; 39] = [
            b"",
            b" ",
            b"R",
            b"R ",
            b"R 1 ",
            b" R 1",
            b"R  1",
            b"R 1\r",
            b"R\t1",
            b"R 1 1",
            b"r 1",
            b"X 1",
            b"RR 1",
            b"R +1",
            b"R -1",
            b"R 00000001",
            b"R 1\x00",
            b"R \xB9",
            b"\xEF\xBB\xBFR 1",
            b"K 1",
            b"K 1 ",
            b"K 1 1 1",
            b"W 1",
            b"W 1 7e82e80141",
            b"W 1 7E82E8014",
            b"W 1 7E82E801411",
            b"W 1 7E82E8014G",
            b"L 1 1 60000000001000000000",
            b"L 1 1 600000000010000000000000",
            b"S 0 1 1",
            b"S 0 1 1 ",
            b"S 0 1 1 2",
            b"S 0 1 1 00000000000000",
            b"S 0 1 1 0 0",
            b"S 1 2 0100", // without n
            b"S 0 1 0",
            b"S 0  1 0",
            b"S 0 00000001 1 0",
            b"S 0 -1 1 0",
        ];
        for line in unreadable {
            assert_eq!(parse(line), None, "{:?}", String::from_utf8_lossy(line));
        }
        assert_eq!(parse(&[b'0'; 1000]), None);
    }
}
