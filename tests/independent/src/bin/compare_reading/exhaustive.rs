//! Every short text over a small alphabet, alone and after beginnings that
//! bring the reading into its deeper states, behind `+` and behind `:` too, and
//! every pair of bytes in every state.

use crate::comparison::Comparison;
use independent::enumeration::{for_each_text, ALPHABET};

/// A beginning, the longest tail after it, and the longest tail for which every
/// offset is also asked for components.
struct Family {
    beginning: &'static str,
    longest_tail: usize,
    longest_tail_with_lookups: usize,
}

const FAMILIES: [Family; 9] = [
    Family {
        beginning: "",
        longest_tail: 7,
        longest_tail_with_lookups: 5,
    },
    Family {
        beginning: "A1A",
        longest_tail: 6,
        longest_tail_with_lookups: 5,
    },
    Family {
        beginning: "A1A+",
        longest_tail: 8,
        longest_tail_with_lookups: 4,
    },
    Family {
        beginning: "A1A+a:",
        longest_tail: 4,
        longest_tail_with_lookups: 4,
    },
    Family {
        beginning: "A1A+a:?'+",
        longest_tail: 6,
        longest_tail_with_lookups: 4,
    },
    Family {
        beginning: "A1A+a?::",
        longest_tail: 5,
        longest_tail_with_lookups: 4,
    },
    Family {
        beginning: "AAA+:a'A11",
        longest_tail: 6,
        longest_tail_with_lookups: 4,
    },
    Family {
        beginning: "AAA'A11+a?+",
        longest_tail: 5,
        longest_tail_with_lookups: 3,
    },
    Family {
        beginning: "AAA'A11+:",
        longest_tail: 5,
        longest_tail_with_lookups: 3,
    },
];

/// A beginning for each state, more for some, and two that begin no message at
/// all.
const STATES: [&str; 13] = [
    "", "A", "AA", "AAA", "AAA+", "AAA+a", "AAA+:", "AAA+a:", "AAA+?", "AAA+??", "AAA+?:", "a",
    "AAA+?a",
];
const ENDINGS: [&str; 3] = ["", "'", "A+a'"];
const SMALL_NUMBERS: [usize; 5] = [0, 1, 2, 3, 4];

pub fn compare_all(comparison: &mut Comparison) {
    for family in &FAMILIES {
        compare_family(comparison, family);
    }
    for beginning in STATES {
        compare_byte_pairs(comparison, beginning);
    }
}

fn compare_family(comparison: &mut Comparison, family: &Family) {
    let beginning = family.beginning.as_bytes();
    let longest_with_lookups = beginning.len() + family.longest_tail_with_lookups;
    for_each_text(&ALPHABET, beginning, family.longest_tail, &mut |text| {
        comparison.compare_text(text);
        if text.len() <= longest_with_lookups {
            compare_every_offset(comparison, text);
        }
    });
}

/// Every offset of the text, and one past its end.
fn compare_every_offset(comparison: &mut Comparison, text: &[u8]) {
    for at in 0..=text.len() + 1 {
        comparison.compare_offset(text, at, &SMALL_NUMBERS);
    }
}

fn compare_byte_pairs(comparison: &mut Comparison, beginning: &str) {
    for first in 0..=u8::MAX {
        for second in 0..=u8::MAX {
            for ending in ENDINGS {
                let pair = [first, second];
                let text = [beginning.as_bytes(), &pair, ending.as_bytes()].concat();
                comparison.compare_text(&text);
                comparison.compare_offset(&text, 0, &[1, 2]);
            }
        }
    }
}
