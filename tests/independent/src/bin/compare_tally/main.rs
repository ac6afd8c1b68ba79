//! Compares the proved tally with the independent one over random histories of
//! calls: each answer, and every byte of a memory that begins before the tally
//! and ends behind the longest length lent. What must add up is besides told
//! from the proved tally's own answers. Stops at the first difference with exit
//! status 1, and fails if an answer of some kind was met too seldom.
//! `compare_tally [SEED]`

mod comparison;
mod counts;
mod histories;

use comparison::Comparison;
use independent::arguments;
use independent::random::Random;
use std::process::ExitCode;

/// Answers of each kind must have been met so often.
const LEAST: u64 = 2_000;

fn main() -> ExitCode {
    let Some(seed) = arguments::seed() else {
        eprintln!("usage: compare_tally [SEED], the seed a decimal number");
        return ExitCode::from(2);
    };
    println!("compare_tally: seed {seed}");
    let mut comparison = Comparison::new();
    let random = &mut Random::from_seed(seed);
    histories::compare_random_ones(&mut comparison, random);
    histories::compare_long_ones(&mut comparison, random);
    conclude(&comparison)
}

fn conclude(comparison: &Comparison) -> ExitCode {
    let counts = comparison.counts();
    counts.print();
    if let Some(kind) = counts.first_below(LEAST) {
        println!("compare_tally: \"{kind}\" was met fewer than {LEAST} times");
        return ExitCode::FAILURE;
    }
    println!("compare_tally: {} calls, 0 differences", counts.total());
    ExitCode::SUCCESS
}
