//! Compares the proved check of a guide book with the independent one: books
//! with every value at every byte, random good books, every rule broken on
//! purpose, random bytes, and books that make a check slow. Stops at the first
//! difference with exit status 1.
//!
//! `compare_book BOOK BOOK [SEED]`: two good books, and where random ones begin.

mod comparison;
mod generated;
mod given;
mod hostile;
mod noise;

use comparison::Comparison;
use independent::arguments;
use independent::random::Random;
use std::process::ExitCode;

fn main() -> ExitCode {
    let Some(arguments) = arguments::books_and_seed() else {
        eprintln!("usage: compare_book BOOK BOOK [SEED], two files and a decimal number");
        return ExitCode::from(2);
    };
    println!("compare_book: seed {}", arguments.seed);
    let mut comparison = Comparison::new();
    let random = &mut Random::from_seed(arguments.seed);
    for path in &arguments.books {
        let bytes = match std::fs::read(path) {
            Ok(bytes) => bytes,
            Err(error) => {
                eprintln!("compare_book: {path}: {error}");
                return ExitCode::from(2);
            }
        };
        given::compare_all(&mut comparison, random, path, &bytes);
    }
    generated::compare_all(&mut comparison, random);
    noise::compare_all(&mut comparison, random);
    hostile::compare_all(&mut comparison);
    conclude(&comparison)
}

fn conclude(comparison: &Comparison) -> ExitCode {
    comparison.print();
    if let Some(fault) = comparison.first_missing() {
        println!("compare_book: no book broke the rule {fault:?}");
        return ExitCode::FAILURE;
    }
    println!("compare_book: {} books, 0 differences", comparison.total());
    ExitCode::SUCCESS
}
