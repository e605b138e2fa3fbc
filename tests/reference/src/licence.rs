//! The 40-bit entry (paper 01, 'Entry and calendar'), as far as a script needs it: is it a licence entry?

/// The entry that every server holds at the beginning. It is no licence entry.
pub const EMPTY: u64 = 0;

/// The fields of an entry, most significant first: year 12 bits, month 4, day 5, copies 16, state 3.
pub fn entry(year: u64, month: u64, day: u64, copies: u64, state: u64) -> u64 {
    year << 28 | month << 24 | day << 19 | copies << 3 | state
}

/// A licence entry has a year from 1900 to 2199, a real date, any copies, and a state from 1 to 3.
pub fn is_licence(entry: u64) -> bool {
    let year = entry >> 28;
    let month = entry >> 24 & 0xF;
    let day = entry >> 19 & 0x1F;
    let state = entry & 0x7;
    (1900..=2199).contains(&year) && (1..=days_in_month(year, month)).contains(&day) && (1..=3).contains(&state)
}

/// The length of a month; 0 for a month that does not exist.
fn days_in_month(year: u64, month: u64) -> u64 {
    match month {
        1 | 3 | 5 | 7 | 8 | 10 | 12 => 31,
        4 | 6 | 9 | 11 => 30,
        2 if is_leap(year) => 29,
        2 => 28,
        _ => 0,
    }
}

fn is_leap(year: u64) -> bool {
    year.is_multiple_of(4) && !year.is_multiple_of(100) || year.is_multiple_of(400)
}

#[cfg(test)]
mod tests {
    use super::*;

    #[test]
    fn the_papers_example() {
        assert_eq!(entry(2024, 2, 29, 40, 1), 0x7E_82E8_0141);
        assert!(is_licence(0x7E_82E8_0141));
        assert!(!is_licence(0x7E_92E8_0141)); // 29 February 2025
    }

    #[test]
    fn what_is_no_licence() {
        assert!(!is_licence(EMPTY));
        for (year, month, day, state) in [
            (1899, 12, 31, 1),
            (2200, 1, 1, 1),
            (2024, 0, 1, 1),
            (2024, 13, 1, 1),
            (2024, 1, 0, 1),
            (2024, 4, 31, 1),
            (1900, 2, 29, 1),
            (2100, 2, 29, 1),
            (2024, 1, 1, 0),
            (2024, 1, 1, 4),
        ] {
            assert!(!is_licence(entry(year, month, day, 0, state)), "{year}-{month}-{day} {state}");
        }
    }

    #[test]
    fn what_is_one() {
        assert!(is_licence(entry(1900, 1, 1, 0, 1)));
        assert!(is_licence(entry(2000, 2, 29, 65535, 2)));
        assert!(is_licence(entry(2199, 12, 31, 0, 3)));
    }
}
