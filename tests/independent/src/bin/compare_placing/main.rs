//! Compares the proved placing with the independent one: number 10, number 11,
//! and the tables of tag offsets, line numbers and the tree. Messages come from
//! every short sequence of homes of small books, from random sequences, allowed
//! and spoiled, over random books, and from bytes of any kind. Stops at the
//! first difference with exit status 1.
//!
//! `compare_placing BOOK BOOK [SEED]`: two good books, and where random ones
//! begin.

mod comparison;
mod counts;
mod exhaustive;
mod generated;
mod hostile;
mod long;
mod subject;
mod watch;

use comparison::Comparison;
use independent::arguments;
use independent::random::Random;
use std::process::ExitCode;
use subject::Subject;

fn main() -> ExitCode {
    let Some(arguments) = arguments::books_and_seed() else {
        eprintln!("usage: compare_placing BOOK BOOK [SEED], two files and a decimal number");
        return ExitCode::from(2);
    };
    let given: Vec<Subject> = match arguments.good_books() {
        Ok(given) => given
            .into_iter()
            .map(|(path, book)| Subject::good(path, book))
            .collect(),
        Err(error) => {
            eprintln!("compare_placing: {error}");
            return ExitCode::from(2);
        }
    };
    println!("compare_placing: seed {}", arguments.seed);
    let mut comparison = Comparison::new(arguments.seed);
    let random = &mut Random::from_seed(arguments.seed);
    exhaustive::compare_all(&mut comparison, random, &given);
    generated::compare_all(&mut comparison, random, &given);
    hostile::compare_all(&mut comparison, random, &given);
    long::compare_all(&mut comparison);
    conclude(&comparison)
}

fn conclude(comparison: &Comparison) -> ExitCode {
    comparison.print();
    let counts = comparison.counts();
    if let Some(missing) = counts.first_missing() {
        println!("compare_placing: no message of the kind \"{missing}\" was met");
        return ExitCode::FAILURE;
    }
    println!(
        "compare_placing: {} messages, 0 differences",
        counts.total()
    );
    ExitCode::SUCCESS
}
