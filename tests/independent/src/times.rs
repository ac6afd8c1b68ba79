//! How long calls take.

use std::hint::black_box;
use std::time::{Duration, Instant};

/// The times of a benchmark's rounds.
#[derive(Default)]
pub struct Times {
    all: Vec<Duration>,
}

impl Times {
    pub fn run<T>(&mut self, work: impl FnOnce() -> T) -> T {
        let begin = Instant::now();
        let result = black_box(work());
        self.all.push(begin.elapsed());
        result
    }

    /// In seconds.
    pub fn median(&mut self) -> f64 {
        self.all.sort();
        self.all[self.all.len() / 2].as_secs_f64()
    }
}

/// The longest time that a comparison met, and for what.
#[derive(Default)]
pub struct Slowest {
    time: Duration,
    call: String,
}

impl Slowest {
    pub fn note(&mut self, time: Duration, call: impl FnOnce() -> String) {
        if time > self.time {
            self.time = time;
            self.call = call();
        }
    }

    pub fn print(&self, program: &str) {
        println!(
            "{program}: the archive's slowest answer took {:.3} s: {}",
            self.time.as_secs_f64(),
            self.call
        );
    }
}
