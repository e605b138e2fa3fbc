//! The rows of demand 3, word for word and slowly. [`crate::check`] is the quick version.
//!
//! [`all_right`] builds the row of each finished read as document 001 does and tests it by the words of paper 01.
//! [`exist`] asks whether any choice of rows would do.

use crate::history::{History, Operation};
use crate::message::Pair;

/// The row of a finished read, as indices of operations (001, before theorem 5.6): first the writes that began before
/// the read ended, by timestamp; then the others, by timestamp; the read right after the write that it shows.
pub fn row(history: &History, read: usize) -> Vec<usize> {
    let reader = &history.operations[read];
    let shown = reader.shown().expect("a finished read");
    let mut writes: Vec<(bool, Pair, usize)> =
        history.writes().map(|(index, pair)| (!is_relevant(&history.operations[index], reader), pair, index)).collect();
    writes.sort_unstable();
    let place = writes.iter().position(|(_, pair, _)| *pair == shown).map_or(0, |position| position + 1);
    let mut row: Vec<usize> = writes.into_iter().map(|(_, _, index)| index).collect();
    row.insert(place, read);
    row
}

/// A write is relevant to a finished read if it began before the read ended.
fn is_relevant(write: &Operation, read: &Operation) -> bool {
    read.ended.is_some_and(|ended| write.began < ended)
}

/// Is the row right? Each member once; what ended before another began stands earlier; the read stands first and shows
/// the initial pair, or right after the only write of the pair that it shows.
pub fn is_right(history: &History, read: usize, row: &[usize]) -> bool {
    let operations = &history.operations;
    let mut members: Vec<usize> = history.writes().map(|(index, _)| index).chain([read]).collect();
    members.sort_unstable();
    let mut sorted = row.to_vec();
    sorted.sort_unstable();
    let each_once = sorted == members;

    let in_order = row.iter().enumerate().all(|(position, earlier)| {
        row[position..].iter().all(|later| !operations[*later].precedes(&operations[*earlier]))
    });

    let shown = operations[read].shown();
    let written = history.writes().filter(|(_, pair)| Some(*pair) == shown).count();
    let well_placed = match row.iter().position(|index| *index == read) {
        None => false,
        Some(0) => shown == Some(Pair::INITIAL),
        Some(place) => operations[row[place - 1]].sent() == shown && written == 1,
    };
    each_once && in_order && well_placed
}

/// Do two rows agree on the writes that are relevant to both reads?
pub fn agree(history: &History, (read, row): (usize, &[usize]), (other_read, other_row): (usize, &[usize])) -> bool {
    let operations = &history.operations;
    let common = |index: &&usize| {
        let operation = &operations[**index];
        operation.sent().is_some()
            && is_relevant(operation, &operations[read])
            && is_relevant(operation, &operations[other_read])
    };
    row.iter().filter(common).eq(other_row.iter().filter(common))
}

/// Are the rows of document 001 right, and do they agree?
pub fn all_right(history: &History) -> bool {
    let rows: Vec<(usize, Vec<usize>)> = history.reads().map(|(read, _)| (read, row(history, read))).collect();
    rows.iter().enumerate().all(|(position, (read, row))| {
        is_right(history, *read, row)
            && rows[..position].iter().all(|(other, other_row)| agree(history, (*read, row), (*other, other_row)))
    })
}

/// Is there any choice of rows that is right and agrees?
///
/// The writes relevant to a read are those relevant to each read that ends later. So rows that agree all follow one
/// order of the writes, that of the read that ended last; and such an order gives a row to each read: its relevant
/// writes in that order, the read after the one that it shows, the other writes behind in the order of their
/// beginnings. The order must put a write before one that began after it ended, and before the write shown by a read
/// that began after it ended. There is one unless these demands go round in a circle.
pub fn exist(history: &History) -> bool {
    let operations = &history.operations;
    let writes: Vec<(usize, Pair)> = history.writes().collect();
    let mut before: Vec<Vec<bool>> = writes
        .iter()
        .map(|(a, _)| writes.iter().map(|(b, _)| operations[*a].precedes(&operations[*b])).collect())
        .collect();
    for (read, shown) in history.reads() {
        let read = &operations[read];
        let older = writes.iter().map(|(write, _)| operations[*write].precedes(read));
        if shown == Pair::INITIAL {
            if older.into_iter().any(|is_older| is_older) {
                return false;
            }
            continue;
        }
        let mut matching = (0..writes.len()).filter(|position| writes[*position].1 == shown);
        let (Some(place), None) = (matching.next(), matching.next()) else {
            return false;
        };
        if !is_relevant(&operations[writes[place].0], read) {
            return false;
        }
        for (position, is_older) in older.enumerate() {
            before[position][place] |= is_older && position != place;
        }
    }
    has_no_circle(&before)
}

/// Takes away what nothing that is left stands before, until nothing is left or nothing can be taken.
fn has_no_circle(before: &[Vec<bool>]) -> bool {
    let mut left: Vec<usize> = (0..before.len()).collect();
    while !left.is_empty() {
        let held: Vec<usize> = left.iter().copied().filter(|b| left.iter().any(|a| before[*a][*b])).collect();
        if held.len() == left.len() {
            return false;
        }
        left = held;
    }
    true
}

#[cfg(test)]
mod tests {
    use super::*;
    use crate::history::Kind;
    use crate::message::Timestamp;

    fn pair(counter: u32, client: u32) -> Pair {
        Pair { timestamp: Timestamp { counter, client }, entry: 1 }
    }

    /// A history of operations with their beginnings and ends; each has a client of its own.
    fn history(operations: &[(Kind, u64, u64)]) -> History {
        let mut history = History::default();
        for (client, (kind, began, ended)) in operations.iter().enumerate() {
            history.operations.push(Operation { client, began: *began, ended: Some(*ended), kind: *kind });
        }
        history
    }

    /// Figure 1 of document 001 in spirit: a later read may show an older write, as long as both overlap the newer one.
    #[test]
    fn regular_but_not_atomic() {
        let history = history(&[
            (Kind::Write(Some(pair(1, 1))), 0, 1),
            (Kind::Write(Some(pair(2, 1))), 2, 9),
            (Kind::Read(Some(pair(2, 1))), 3, 4),
            (Kind::Read(Some(pair(1, 1))), 5, 6),
        ]);
        assert_eq!(row(&history, 2), [0, 1, 2]);
        assert_eq!(row(&history, 3), [0, 3, 1]);
        assert!(all_right(&history));
        assert!(exist(&history));
    }

    #[test]
    fn an_old_write_shown() {
        let history = history(&[
            (Kind::Write(Some(pair(1, 1))), 0, 1),
            (Kind::Write(Some(pair(2, 1))), 2, 3),
            (Kind::Read(Some(pair(1, 1))), 4, 5),
        ]);
        assert!(!all_right(&history));
        assert!(!exist(&history));
    }

    #[test]
    fn the_initial_pair_shown_after_a_write() {
        let history = history(&[(Kind::Write(Some(pair(1, 1))), 0, 1), (Kind::Read(Some(Pair::INITIAL)), 2, 3)]);
        assert!(!all_right(&history));
        assert!(!exist(&history));
    }

    #[test]
    fn a_pair_of_no_write_and_a_pair_of_two() {
        let nobody = history(&[(Kind::Read(Some(pair(1, 1))), 0, 1)]);
        let two = history(&[
            (Kind::Write(Some(pair(1, 1))), 0, 1),
            (Kind::Write(Some(pair(1, 1))), 0, 1),
            (Kind::Read(Some(pair(1, 1))), 2, 3),
        ]);
        for history in [nobody, two] {
            assert!(!all_right(&history));
            assert!(!exist(&history));
        }
    }

    /// Timestamps against the order of the writes: the rows of 001 are wrong, another choice is right.
    #[test]
    fn other_rows_would_do() {
        let history = history(&[
            (Kind::Write(Some(pair(2, 1))), 0, 1),
            (Kind::Write(Some(pair(1, 1))), 2, 3),
            (Kind::Read(Some(pair(1, 1))), 4, 5),
        ]);
        assert!(!all_right(&history));
        assert!(exist(&history));
    }

    /// Two reads, each after one of two overlapping writes, show the other one: no order of the two will do.
    #[test]
    fn a_circle() {
        let history = history(&[
            (Kind::Write(Some(pair(1, 1))), 0, 4),
            (Kind::Write(Some(pair(1, 2))), 0, 4),
            (Kind::Read(Some(pair(1, 1))), 5, 6),
            (Kind::Read(Some(pair(1, 2))), 5, 6),
        ]);
        assert!(!all_right(&history));
        assert!(!exist(&history));
    }
}
