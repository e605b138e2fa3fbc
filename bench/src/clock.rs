//! Medians of work that is done in turns, so that a busy machine slows every side.

use std::time::{Duration, Instant};

/// The time of each of `N` sides over work in parts: in every round each side does each part in turn, and the medians of the
/// parts are added. `work` is given the side and the part.
pub fn medians<const N: usize>(rounds: usize, parts: usize, mut work: impl FnMut(usize, usize)) -> [Duration; N] {
    let mut times: [Vec<Vec<Duration>>; N] = std::array::from_fn(|_| vec![Vec::with_capacity(rounds); parts]);
    for _ in 0..rounds {
        for part in 0..parts {
            for (side, times) in times.iter_mut().enumerate() {
                let start = Instant::now();
                work(side, part);
                times[part].push(start.elapsed());
            }
        }
    }
    times.map(|parts| parts.into_iter().map(median).sum())
}

fn median(mut times: Vec<Duration>) -> Duration {
    times.sort();
    times[times.len() / 2]
}
