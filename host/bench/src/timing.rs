//! Times of two that do the same, taken in turns so that both meet the same machine.

use std::hint::black_box;
use std::time::{Duration, Instant};

/// Rounds that are always run, and the time after which no further round begins.
const ROUNDS: usize = 5;
const LONG_ENOUGH: Duration = Duration::from_secs(3);

/// The median time of each.
pub fn side_by_side<T>(asked: [impl Fn() -> T; 2]) -> [Duration; 2] {
    let began = Instant::now();
    let mut times = [Vec::new(), Vec::new()];
    while times[0].len() < ROUNDS || (began.elapsed() < LONG_ENOUGH && times[0].len() < 1000) {
        for (ask, times) in asked.iter().zip(&mut times) {
            let start = Instant::now();
            black_box(ask());
            times.push(start.elapsed());
        }
    }
    times.map(median)
}

fn median(mut times: Vec<Duration>) -> Duration {
    times.sort();
    times[times.len() / 2]
}
