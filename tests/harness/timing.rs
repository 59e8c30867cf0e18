//! Times for the benchmarks.

use std::hint::black_box;
use std::time::{Duration, Instant};

/// How long one case is measured.
const TIME: Duration = Duration::from_millis(20);

/// Nanoseconds of the fastest run: others may be using the machine.
pub fn fastest<T>(mut run: impl FnMut() -> T) -> f64 {
    let begin = Instant::now();
    let mut best = Duration::MAX;
    while begin.elapsed() < TIME {
        best = best.min(fastest_of(1, &mut run));
    }
    best.as_secs_f64() * 1e9
}

/// The fastest of so many runs.
pub fn fastest_of<T>(runs: usize, mut run: impl FnMut() -> T) -> Duration {
    let mut timed = || {
        let start = Instant::now();
        black_box(run());
        start.elapsed()
    };
    (0..runs).map(|_| timed()).min().unwrap_or(Duration::MAX)
}
