//! The given good books: every value at every byte, every length, and every
//! rule broken.

use crate::comparison::Comparison;
use crate::generated::compare_damaged;
use independent::book::layout::header;
use independent::book::{check, Book};
use independent::random::Random;

const ROUNDS_OF_DAMAGE: usize = 20;
const LONGEST_EXTENSION: usize = 70;

pub fn compare_all(comparison: &mut Comparison, random: &mut Random, path: &str, bytes: &[u8]) {
    comparison.compare_good(format_args!("{path}"), bytes);
    compare_every_byte(comparison, path, bytes);
    compare_every_length(comparison, random, path, bytes);
    let book: Book = check(bytes).expect("compared as a good book");
    for _ in 0..ROUNDS_OF_DAMAGE {
        compare_damaged(comparison, random, format_args!("{path}"), &book);
    }
}

/// All 256 values at every offset.
fn compare_every_byte(comparison: &mut Comparison, path: &str, bytes: &[u8]) {
    let mut changed = bytes.to_vec();
    for at in 0..bytes.len() {
        for byte in 0..=u8::MAX {
            changed[at] = byte;
            let description = format_args!("{path} with {byte} at offset {at}");
            // What comes out is good or malformed, as the independent check says.
            let _ = comparison.compare(description, &changed);
        }
        changed[at] = bytes[at];
    }
}

/// Every beginning and some extensions, as they are and with the header's total
/// length made to fit.
fn compare_every_length(
    comparison: &mut Comparison,
    random: &mut Random,
    path: &str,
    bytes: &[u8],
) {
    for length in 0..=bytes.len() + LONGEST_EXTENSION {
        let mut resized = bytes.to_vec();
        resized.resize_with(length, || random.pick(&[0, 0, 1, 255]));
        let _ = comparison.compare(format_args!("{path} in {length} bytes"), &resized);
        if let Some(total) = resized.get_mut(2 * header::TOTAL_LENGTH..2 * header::LINE_COUNT) {
            total.copy_from_slice(&(length as u16).to_le_bytes());
            let description = format_args!("{path} in {length} bytes and saying so");
            let _ = comparison.compare(description, &resized);
        }
    }
}
