//! Random bytes: alone, after a good header, and in place of single blocks.

use crate::comparison::Comparison;
use independent::book::encode::encode;
use independent::book::generate::{good_book, Size};
use independent::book::layout::{Layout, HEADER_BYTES};
use independent::random::Random;
use std::ops::Range;

const TEXTS: usize = 30_000;
const LONGEST_TEXT: usize = 600;
const BOOKS: usize = 1_500;
const MOST_LINES: usize = 12;

pub fn compare_all(comparison: &mut Comparison, random: &mut Random) {
    for _ in 0..TEXTS {
        let length = random.below(LONGEST_TEXT);
        let mut text = vec![0; length];
        scatter(random, &mut text);
        let _ = comparison.compare(format_args!("random bytes"), &text);
    }
    for _ in 0..BOOKS {
        compare_books_with_noise(comparison, random);
    }
}

/// A good book with noise instead of one block, and after its header.
fn compare_books_with_noise(comparison: &mut Comparison, random: &mut Random) {
    let size = Size::random(random, MOST_LINES);
    let book = good_book(random, &size);
    let bytes = encode(&book);
    let layout = Layout::of_book(&book);
    let mut compare = |name: &str, block: Range<usize>| {
        let mut noisy = bytes.clone();
        scatter(random, &mut noisy[block]);
        let _ = comparison.compare(format_args!("a good book but for {name}"), &noisy);
    };
    compare("its header", 0..layout.lines);
    compare("its lines", layout.lines..layout.codes);
    compare("its codes", layout.codes..layout.fields);
    compare("its fields", layout.fields..layout.identifiers);
    compare("its Prüfidentifikatoren", layout.identifiers..layout.rows);
    compare("its rows", layout.rows..layout.length);
    compare("all after its header", HEADER_BYTES..layout.length);
}

/// Any bytes, or only small ones, which get further.
fn scatter(random: &mut Random, bytes: &mut [u8]) {
    let only_small = random.chance(50);
    for byte in bytes {
        *byte = if only_small {
            random.below(4) as u8
        } else {
            random.byte()
        };
    }
}
