//! Measures the proved judging of a message alone, numbers 3 to 9, against the
//! same work in ordinary Rust: scan, frame, count and reference. A benchmark and
//! no test: it prints figures and refuses none, but for answers that differ.

use independent::archives::{self, SUPPOSED_ENTRIES};
use independent::judging::message::judge_message;
use independent::judging::{LONGEST_MESSAGE, MOST_SEGMENTS};
use independent::lengthy::{enveloped, message_of_length, REALISTIC_SEGMENTS};
use std::hint::black_box;
use std::time::{Duration, Instant};

const RUNS: usize = 10;

const SHORT_SEGMENT: &str = "UNS'";

fn main() {
    println!(
        "bench_reading: best of {RUNS} runs each, taken in turn; each message was written just \
         before, and neither keeps anything of it"
    );
    let realistic = REALISTIC_SEGMENTS.into_iter().cycle();
    measure("realistic segments", &longest(realistic), 0);
    measure("one giant component", &longest([].into_iter()), 0);
    let short = SHORT_SEGMENT.repeat(MOST_SEGMENTS - 2);
    let short = enveloped(&short, MOST_SEGMENTS - 2);
    measure("as many short segments as allowed", &short, 0);
    let too_many = SHORT_SEGMENT.repeat(LONGEST_MESSAGE / SHORT_SEGMENT.len());
    measure("too many short segments", too_many.as_bytes(), 5);
}

/// The message of 16 MiB that begins with these segments.
fn longest(segments: impl Iterator<Item = &'static str>) -> Vec<u8> {
    message_of_length(LONGEST_MESSAGE, segments)
}

fn measure(name: &str, message: &[u8], number: u32) {
    let mut ordinary = Best::new();
    let mut library = Best::new();
    for _ in 0..RUNS {
        ordinary.run(|| {
            let record = judge_message(message, SUPPOSED_ENTRIES);
            (record.number, record.place)
        });
        library.run(|| archives::judge_message(message));
    }
    let (found, place) = ordinary.answer;
    assert_eq!(found, number, "the message was made for another number");
    assert_eq!(ordinary.answer, library.answer, "the answers differ");
    println!(
        "{name}: {} bytes, number {number}, place {place}",
        message.len()
    );
    print_measured(message.len(), &ordinary, &library);
}

/// The best time so far, and the number and place answered.
struct Best {
    time: Duration,
    answer: (u32, u32),
}

impl Best {
    fn new() -> Best {
        Best {
            time: Duration::MAX,
            answer: (0, 0),
        }
    }

    fn run(&mut self, judge: impl Fn() -> (u32, u32)) {
        let begin = Instant::now();
        self.answer = black_box(judge());
        self.time = self.time.min(begin.elapsed());
    }

    fn milliseconds(&self) -> f64 {
        self.time.as_secs_f64() * 1e3
    }

    fn megabytes_per_second(&self, bytes: usize) -> f64 {
        bytes as f64 / 1e6 / self.time.as_secs_f64()
    }
}

fn print_measured(bytes: usize, ordinary: &Best, library: &Best) {
    for (who, best) in [("ordinary Rust", ordinary), ("library", library)] {
        println!(
            "  {who:<14} {:8.2} ms  {:7.0} MB/s",
            best.milliseconds(),
            best.megabytes_per_second(bytes)
        );
    }
    println!(
        "  speed of the library relative to ordinary Rust: {:.2} (1.0 = equal, wanted 0.8 or more)",
        ordinary.time.as_secs_f64() / library.time.as_secs_f64()
    );
}
