//! Compares the proved archives with the independent reading: what the numbers
//! 3 to 9 say of a message alone, where segments start, and where components
//! lie; and texts with themselves, written again from what the archives tell of
//! them. Stops at the first difference with exit status 1.
//! `compare_reading [SEED]`

mod comparison;
mod counts;
mod enveloped;
mod exhaustive;
mod generated;
mod harmless;
mod kinds;
mod rewritten;
mod wide;

use comparison::Comparison;
use independent::arguments;
use independent::random::Random;
use std::process::ExitCode;

fn main() -> ExitCode {
    let Some(seed) = arguments::seed() else {
        eprintln!("usage: compare_reading [SEED], the seed a decimal number");
        return ExitCode::from(2);
    };
    println!("compare_reading: seed {seed}");
    let mut comparison = Comparison::new();
    let random = &mut Random::from_seed(seed);
    compare_family(&mut comparison, "short texts", exhaustive::compare_all);
    compare_family(&mut comparison, "random texts", |comparison| {
        generated::compare_all(comparison, random)
    });
    compare_family(&mut comparison, "wide texts", wide::compare_all);
    compare_family(
        &mut comparison,
        "short envelopes",
        enveloped::compare_every_short_one,
    );
    compare_family(&mut comparison, "random envelopes", |comparison| {
        enveloped::compare_random_ones(comparison, random)
    });
    compare_family(&mut comparison, "wide envelopes", wide::compare_envelopes);
    compare_family(&mut comparison, "texts written again", |comparison| {
        rewritten::compare_all(comparison, random)
    });
    conclude(&comparison)
}

fn compare_family(comparison: &mut Comparison, name: &str, compare: impl FnOnce(&mut Comparison)) {
    let before = comparison.counts().total();
    compare(comparison);
    let cases = comparison.counts().total() - before;
    println!("{cases:>12}  cases of {name}");
}

fn conclude(comparison: &Comparison) -> ExitCode {
    let counts = comparison.counts();
    counts.print();
    if let Some(missing) = counts.first_missing() {
        println!("compare_reading: no case of the kind \"{missing}\" was met");
        return ExitCode::FAILURE;
    }
    println!("compare_reading: {} cases, 0 differences", counts.total());
    ExitCode::SUCCESS
}
