//! Random messages from the grammar, as they are and damaged: some thousands of
//! short ones and some of hundreds of kilobytes.

use crate::comparison::Comparison;
use independent::breaking::damage_bytes;
use independent::random::Random;
use independent::reading::{read_message, starts};
use independent::writing::{any_message, short_message};

const SHORT_TEXTS: usize = 15_000;
const LONG_TEXTS: usize = 24;
const LONG_TEXT_BYTES: usize = 400_000;
const OFFSETS_PER_TEXT: usize = 8;

/// Numbers that a narrower count would confuse with small ones, beside the
/// small ones themselves.
const NUMBERS: [usize; 16] = [
    0,
    1,
    1,
    1,
    2,
    2,
    3,
    4,
    5,
    255,
    256,
    257,
    65_536,
    65_537,
    usize::MAX - 1,
    usize::MAX,
];

pub fn compare_all(comparison: &mut Comparison, random: &mut Random) {
    for _ in 0..SHORT_TEXTS {
        let text = short_message(random);
        compare_with_damage(comparison, random, text);
    }
    for _ in 0..LONG_TEXTS {
        let text = any_message(random, |so_far| so_far.bytes >= LONG_TEXT_BYTES);
        compare_with_damage(comparison, random, text);
    }
}

fn compare_with_damage(comparison: &mut Comparison, random: &mut Random, mut text: Vec<u8>) {
    let offsets = likely_offsets(random, &text);
    compare_at(comparison, random, &text, &offsets);
    for _ in 0..random.between(1, 3) {
        damage_bytes(random, &mut text);
        compare_at(comparison, random, &text, &offsets);
    }
}

fn compare_at(comparison: &mut Comparison, random: &mut Random, text: &[u8], offsets: &[usize]) {
    comparison.compare_text(text);
    for &at in offsets {
        let numbers = [(); 3].map(|()| random.pick(&NUMBERS));
        comparison.compare_offset(text, at, &numbers);
    }
}

/// Starts of segments, offsets anywhere, and offsets at and past the end.
fn likely_offsets(random: &mut Random, message: &[u8]) -> Vec<usize> {
    let segments = read_message(message).expect("a generated message is well-formed");
    let starts = starts(&segments);
    let length = message.len();
    let far = random.pick(&[
        length,
        length + 1,
        usize::MAX / 2,
        usize::MAX - 1,
        usize::MAX,
    ]);
    let mut offsets = vec![0, far];
    while offsets.len() < OFFSETS_PER_TEXT {
        offsets.push(random.pick(&starts));
        offsets.push(random.below(length));
    }
    offsets
}
