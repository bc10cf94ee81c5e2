//! Times, and what is told of them.

use std::fmt;
use std::time::{Duration, Instant};

/// The times of one work.
#[derive(Default)]
pub struct Times(Vec<Duration>);

impl Times {
    /// Times the work once more, so many times in a row.
    pub fn add(&mut self, times: u32, mut work: impl FnMut()) {
        let start = Instant::now();
        (0..times).for_each(|_| work());
        self.0.push(start.elapsed() / times);
    }

    /// How long this takes of the other, by the medians.
    pub fn ratio(&self, other: &Times) -> f64 {
        let [[_, this, _], [_, other, _]] = [self, other].map(Times::quartiles);
        this.as_secs_f64() / other.as_secs_f64()
    }

    fn quartiles(&self) -> [Duration; 3] {
        let mut times = self.0.clone();
        times.sort();
        [1, 2, 3].map(|quarter| times[times.len() * quarter / 4])
    }
}

/// The quartiles, in microseconds.
impl fmt::Display for Times {
    fn fmt(&self, f: &mut fmt::Formatter<'_>) -> fmt::Result {
        let [low, median, high] = self.quartiles().map(|time| 1e6 * time.as_secs_f64());
        write!(f, "{low:>7.3} {median:>7.3} {high:>7.3}")
    }
}
