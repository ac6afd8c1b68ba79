//! Compares the proved judge with the independent one: the number, the record
//! and every entry of the lent tables, over random good and broken books,
//! messages and condition lists. The independent verdict is in turn compared
//! with that of a plainer judge over every filling of the unknown conditions,
//! which is demand 3. Stops at the first difference with exit status 1, and
//! fails if a number was met too seldom.
//!
//! `compare_judge BOOK BOOK [SEED]`: two good books, and where random ones
//! begin.

mod comparison;
mod generated;
mod large;

use comparison::Comparison;
use independent::arguments;
use independent::random::Random;
use std::process::ExitCode;

/// Each number must have been met so often.
const LEAST: u64 = 2_000;
/// Each needless separator at each position must have been met so often.
const LEAST_NEEDLESS: u64 = 100;
const LEAST_IN_ALL: u64 = 200_000;

fn main() -> ExitCode {
    let Some(arguments) = arguments::books_and_seed() else {
        eprintln!("usage: compare_judge BOOK BOOK [SEED], two files and a decimal number");
        return ExitCode::from(2);
    };
    let given = match arguments.good_books() {
        Ok(given) => given,
        Err(error) => {
            eprintln!("compare_judge: {error}");
            return ExitCode::from(2);
        }
    };
    println!("compare_judge: seed {}", arguments.seed);
    let mut comparison = Comparison::new(arguments.seed);
    let random = &mut Random::from_seed(arguments.seed);
    generated::compare_all(&mut comparison, random, &given);
    large::compare_all(&mut comparison);
    conclude(&comparison)
}

fn conclude(comparison: &Comparison) -> ExitCode {
    comparison.print();
    if let Some(number) = comparison.first_below(LEAST) {
        println!("compare_judge: number {number} was met fewer than {LEAST} times");
        return ExitCode::FAILURE;
    }
    if let Some(needless) = comparison.first_needless_below(LEAST_NEEDLESS) {
        println!("compare_judge: {needless} was met fewer than {LEAST_NEEDLESS} times");
        return ExitCode::FAILURE;
    }
    if comparison.total() < LEAST_IN_ALL {
        println!("compare_judge: fewer than {LEAST_IN_ALL} cases");
        return ExitCode::FAILURE;
    }
    println!("compare_judge: {} cases, 0 differences", comparison.total());
    ExitCode::SUCCESS
}
