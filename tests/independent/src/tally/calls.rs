//! Random calls, and random tallies for the first of them.

use super::{Asked, Call, Tally, COUNTS, TALLY_BYTES};
use crate::described;
use crate::random::Random;

/// Calls are lent at most so many bytes.
pub const LONGEST_LENT: usize = 130;

described! {
    /// What a history begins with.
    Begin {
        Zero: "every count 0",
        AnyBytes: "any bytes",
        BeforeCarries: "counts before a carry over one byte, two or three",
        NearlyFull: "counts that are nearly full",
        Full: "every count full",
        Mixed: "counts of all these kinds",
    }
}

pub fn random_tally(random: &mut Random, begin: Begin) -> Tally {
    Tally::of_counts([(); COUNTS].map(|()| match begin {
        Begin::Mixed => {
            let kind = random.pick(Begin::EVERY);
            random_count(random, kind)
        }
        begin => random_count(random, begin),
    }))
}

fn random_count(random: &mut Random, begin: Begin) -> u32 {
    match begin {
        Begin::Zero => 0,
        Begin::AnyBytes | Begin::Mixed => any_number(random),
        Begin::BeforeCarries => count_before_a_carry(random),
        Begin::NearlyFull => u32::MAX - random.below(20) as u32,
        Begin::Full => u32::MAX,
    }
}

/// Whatever lies above the bytes that the carry goes over.
fn count_before_a_carry(random: &mut Random) -> u32 {
    let lower_bytes = random.pick(&[0xFF, 0xFFFF, 0xFF_FFFF]);
    let above = match random.below(2) {
        0 => 0,
        _ => any_number(random),
    };
    (above | lower_bytes) - random.below(8) as u32
}

/// Mostly a number that has a count, often the favourite, over as many bytes as
/// a tally has. Clearings are rare, so that counts grow.
pub fn random_call(random: &mut Random, favourite: u32) -> Call {
    if random.chance(6) {
        return call_of_any_length(random);
    }
    let asked = match random.below(1_000) {
        0..=2 => Asked::Clear,
        3..=59 => Asked::Add(number_without_a_count(random)),
        60..=299 => Asked::Add(favourite),
        _ => Asked::Add(number_with_a_count(random)),
    };
    Call {
        asked,
        lent: TALLY_BYTES,
    }
}

fn call_of_any_length(random: &mut Random) -> Call {
    let asked = match random.below(4) {
        0 => Asked::Clear,
        1 => Asked::Add(number_without_a_count(random)),
        _ => Asked::Add(number_with_a_count(random)),
    };
    let lent = match random.below(4) {
        0 => random.pick(&[0, 60, 63, 65, 68, 128]),
        _ => random.between(0, LONGEST_LENT),
    };
    Call { asked, lent }
}

fn number_with_a_count(random: &mut Random) -> u32 {
    random.below(COUNTS) as u32
}

/// Small ones, ones that have a count if some of their upper bits are dropped,
/// the largest, and any.
fn number_without_a_count(random: &mut Random) -> u32 {
    let rest = number_with_a_count(random);
    match random.below(4) {
        0 => random.between(16, 40) as u32,
        1 => (1 << random.between(4, 31)) + rest,
        2 => u32::MAX - rest,
        _ => any_number(random).max(16),
    }
}

fn any_number(random: &mut Random) -> u32 {
    random.between(0, u32::MAX as usize) as u32
}
