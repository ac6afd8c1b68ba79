//! Random good books and books at a limit, as they are and damaged: every rule
//! broken, every byte of the header off by one, some bytes changed, cut and
//! extended.

use crate::comparison::Comparison;
use independent::book::damage::{every_damage, has_room};
use independent::book::encode::encode;
use independent::book::generate::{good_book, Size};
use independent::book::layout::HEADER_BYTES;
use independent::book::limits::every_limit;
use independent::book::Book;
use independent::random::Random;
use std::fmt::Arguments;

/// How many books of how many lines at most.
const BOOKS: [(usize, usize); 3] = [(1_500, 12), (200, 60), (20, 256)];
const CHANGES_PER_BOOK: usize = 60;
const MOST_CHANGED_BYTES: usize = 3;
const LENGTHS_PER_BOOK: usize = 8;

pub fn compare_all(comparison: &mut Comparison, random: &mut Random) {
    for (name, book) in every_limit() {
        compare_around(comparison, random, format_args!("{name}"), &book);
    }
    for (count, most_lines) in BOOKS {
        for number in 1..=count {
            let size = Size::random(random, most_lines);
            let book = good_book(random, &size);
            let name = format_args!("random book {number} of at most {most_lines} lines");
            compare_around(comparison, random, name, &book);
        }
    }
}

/// A good book and what lies near it.
fn compare_around(comparison: &mut Comparison, random: &mut Random, name: Arguments, book: &Book) {
    let bytes = encode(book);
    comparison.compare_good(name, &bytes);
    compare_damaged(comparison, random, name, book);
    compare_header_bytes(comparison, random, name, &bytes);
    compare_changed_bytes(comparison, random, name, &bytes);
    compare_lengths(comparison, random, name, &bytes);
}

/// The book with each rule broken in each way.
pub fn compare_damaged(
    comparison: &mut Comparison,
    random: &mut Random,
    name: Arguments,
    book: &Book,
) {
    if !has_room(book) {
        return;
    }
    for damage in every_damage() {
        let damaged = damage.apply(random, book);
        let description = format_args!("{name}, {}", damage.name);
        comparison.compare_broken(description, &damaged, damage.fault);
    }
}

fn compare_header_bytes(
    comparison: &mut Comparison,
    random: &mut Random,
    name: Arguments,
    bytes: &[u8],
) {
    let mut changed = bytes.to_vec();
    for at in 0..HEADER_BYTES {
        let byte = bytes[at];
        for other in [byte.wrapping_add(1), byte.wrapping_sub(1), random.byte()] {
            changed[at] = other;
            let description = format_args!("{name}, {other} at offset {at} of the header");
            let _ = comparison.compare(description, &changed);
        }
        changed[at] = byte;
    }
}

/// Mostly bytes that mean something in a book.
fn compare_changed_bytes(
    comparison: &mut Comparison,
    random: &mut Random,
    name: Arguments,
    bytes: &[u8],
) {
    for _ in 0..CHANGES_PER_BOOK {
        let mut changed = bytes.to_vec();
        for _ in 0..random.between(1, MOST_CHANGED_BYTES) {
            let at = random.below(bytes.len());
            changed[at] = match random.below(4) {
                0 => changed[at].wrapping_add(1),
                1 => changed[at].wrapping_sub(1),
                2 => random.pick(b"\0\x01\x02\x03\x04\x05\x06\x07\x80\x81A0"),
                _ => random.byte(),
            };
        }
        let _ = comparison.compare(format_args!("{name}, some bytes changed"), &changed);
    }
}

fn compare_lengths(
    comparison: &mut Comparison,
    random: &mut Random,
    name: Arguments,
    bytes: &[u8],
) {
    for _ in 0..LENGTHS_PER_BOOK {
        let length = random.below(2 * bytes.len());
        let mut resized = bytes.to_vec();
        resized.resize(length, 0);
        let _ = comparison.compare(format_args!("{name}, resized"), &resized);
    }
}
