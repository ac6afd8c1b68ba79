//! Histories of calls, each on a memory of its own.

use crate::comparison::{Comparison, Memory};
use independent::random::Random;
use independent::tally::calls::{random_call, Begin};
use independent::tally::{Asked, Call, COUNTS, TALLY_BYTES};

const HISTORIES: usize = 10_000;
/// A history has at most so many calls.
const MOST_CALLS: [usize; 4] = [10, 100, 1_000, 2_000];
/// A count held in 16 bits, 01's fault, would be 8 after so many verdicts.
const MANY_VERDICTS: u32 = 65_544;

pub fn compare_random_ones(comparison: &mut Comparison, random: &mut Random) {
    for &begin in Begin::EVERY.iter().cycle().take(HISTORIES) {
        let mut memory = Memory::new(random, begin);
        let most_calls = random.pick(&MOST_CALLS);
        let favourite = random.below(COUNTS) as u32;
        for _ in 0..random.between(1, most_calls) {
            comparison.compare(&mut memory, random_call(random, favourite));
        }
    }
}

/// Many verdicts of one number each.
pub fn compare_long_ones(comparison: &mut Comparison, random: &mut Random) {
    for number in [0, 7, 15] {
        let mut memory = Memory::new(random, Begin::Zero);
        for _ in 0..MANY_VERDICTS {
            let call = Call {
                asked: Asked::Add(number),
                lent: TALLY_BYTES,
            };
            comparison.compare(&mut memory, call);
        }
        assert_eq!(memory.tally().count(number), Some(MANY_VERDICTS));
    }
}
