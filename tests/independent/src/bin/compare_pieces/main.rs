//! Compares the proved reading in pieces with the independent one, which keeps
//! the whole text, over histories of calls: each answer, each entry of the record
//! and of a memory that begins before the table for the starts and ends behind the
//! longest one lent, and of the memory around the state. The state's own numbers
//! are compared after other cuts of the same text, and where nothing may change.
//! Stops at the first difference with exit status 1, and fails if a case of some
//! kind was not met.
//! `compare_pieces [SEED]`

mod any_states;
mod comparison;
mod counts;
mod exhaustive;
mod histories;
mod limits;
mod same_state;
mod tables;

use comparison::Comparison;
use independent::arguments;
use independent::random::Random;
use std::process::ExitCode;

/// A family of cases, and its name.
type Family = (&'static str, fn(&mut Comparison, &mut Random));

const FAMILIES: [Family; 6] = [
    ("short texts, cut at every place", exhaustive::compare_all),
    (
        "random texts, cuts and tables",
        histories::compare_random_ones,
    ),
    ("long random texts", histories::compare_long_ones),
    ("texts cut in several ways", same_state::compare_all),
    ("any numbers as a state", any_states::compare_all),
    ("texts around the limits", limits::compare_all),
];

fn main() -> ExitCode {
    let Some(seed) = arguments::seed() else {
        eprintln!("usage: compare_pieces [SEED], the seed a decimal number");
        return ExitCode::from(2);
    };
    println!("compare_pieces: seed {seed}");
    let mut comparison = Comparison::new();
    let random = &mut Random::from_seed(seed);
    for (name, compare) in FAMILIES {
        let before = comparison.counts().calls();
        compare(&mut comparison, random);
        let calls = comparison.counts().calls() - before;
        println!("{calls:>9}  calls over {name}");
    }
    conclude(&comparison)
}

fn conclude(comparison: &Comparison) -> ExitCode {
    let counts = comparison.counts();
    counts.print();
    if let Some(missing) = counts.first_missing() {
        println!("compare_pieces: no case of the kind \"{missing}\" was met");
        return ExitCode::FAILURE;
    }
    println!(
        "compare_pieces: {} calls in {} histories, 0 differences",
        counts.calls(),
        counts.histories()
    );
    ExitCode::SUCCESS
}
