//! Messages at the limits of numbers 3 and 5, and more segments than 16 bits
//! count.

use crate::comparison::{Case, Comparison};
use independent::book::encode::encode;
use independent::judging::{Record, LONGEST_MESSAGE, MOST_SEGMENTS};
use independent::planned::{book_k_with_room, BOOK_K, HEAD_OF_K};

const HEAD_SEGMENTS: usize = 3;
/// A message of one segment too many has 4,000,000 bytes at least.
const TOO_MANY_SEGMENTS: usize = 2_050;
const TOO_LONG: usize = 200;

pub fn compare_all(comparison: &mut Comparison) {
    let book = encode(&book_k_with_room());
    compare_too_many_segments(comparison, &book);
    compare_lengths(comparison, &book);
    compare_long(comparison, &book);
}

fn case<'a>(message: &'a [u8], book: &'a [u8], conditions: &'a [u8]) -> Case<'a> {
    Case {
        name: "book K with a group of maximum 999,999",
        message,
        book,
        conditions,
    }
}

/// Whatever the conditions and tables are.
fn compare_too_many_segments(comparison: &mut Comparison, book: &[u8]) {
    let message = "UNS'".repeat(MOST_SEGMENTS + 4).into_bytes();
    for number in 0..TOO_MANY_SEGMENTS {
        let length = 4 * (MOST_SEGMENTS + 1 + number % 4);
        let conditions = [(number % 3) as u8];
        let case = case(&message[..length], book, &conditions);
        let lengths = [0, number % 5, number % 7];
        require(comparison, &case, lengths, Record::new(5));
    }
    let most = 4 * MOST_SEGMENTS;
    let case = case(&message[..most], book, &[0]);
    let too_short = [MOST_SEGMENTS, MOST_SEGMENTS - 1, MOST_SEGMENTS];
    require(comparison, &case, too_short, Record::at(6, MOST_SEGMENTS));
    require(comparison, &case, [MOST_SEGMENTS; 3], Record::at(7, 1));
}

/// One giant component, up to the longest message and beyond.
fn compare_lengths(comparison: &mut Comparison, book: &[u8]) {
    let mut message = vec![b'A'; LONGEST_MESSAGE + 1];
    message[3] = b'+';
    for number in 0..TOO_LONG {
        let conditions = [(number % 3) as u8];
        let case = case(&message, book, &conditions);
        require(comparison, &case, [number % 3; 3], Record::new(3));
    }
    let longest = &mut message[..LONGEST_MESSAGE];
    let cut = Record::at(4, LONGEST_MESSAGE);
    require(comparison, &case(longest, book, &[0]), [1; 3], cut);
    longest[LONGEST_MESSAGE - 1] = b'\'';
    require(
        comparison,
        &case(longest, book, &[0]),
        [1; 3],
        Record::at(7, 1),
    );
    let at_the_end = Record::at(4, LONGEST_MESSAGE - 1);
    for fault in [b"A\n", b"+'", b":'", b":+"] {
        longest[LONGEST_MESSAGE - 2..].copy_from_slice(fault);
        require(comparison, &case(longest, book, &[0]), [1; 3], at_the_end);
    }
    let whole = [
        b"UNH+1'BGM+7'RFF+Z13:",
        &message[4..LONGEST_MESSAGE - 29],
        b"'UNT+4+1'",
    ]
    .concat();
    assert_eq!(whole.len(), LONGEST_MESSAGE - 4);
    let too_long_for_its_field = Record {
        line: 3,
        element: 1,
        component: 2,
        ..Record::at(12, 3)
    };
    let case = case(&whole, book, &[0]);
    require(comparison, &case, [4; 3], too_long_for_its_field);
}

/// Positions with a quantity, all but the last; and 01's 65,544 segments.
fn compare_long(comparison: &mut Comparison, book: &[u8]) {
    for quantities in [32_766, 32_767, 32_768, 60_000, (MOST_SEGMENTS - 5) / 2] {
        let n = HEAD_SEGMENTS + 2 * quantities + 2;
        let positions = "LIN+1'QTY+145:5'".repeat(quantities);
        let message = format!("{HEAD_OF_K}{positions}LIN+2'UNT+{n}+1'").into_bytes();
        let lengths = [n, n + 1, n + 2];
        let row = |number, place, condition| Record {
            line: 6,
            condition,
            ..Record::at(number, place)
        };
        let at = |conditions| case(&message, book, conditions);
        require(comparison, &at(&[1]), lengths, row(14, n - 1, 0));
        require(comparison, &at(&[0]), lengths, row(14, 5, 0));
        require(comparison, &at(&[2]), lengths, row(15, 5, 1));
        let fits = format!("{HEAD_OF_K}{positions}UNT+{}+1'", n - 1).into_bytes();
        let fitting = case(&fits, book, &[1]);
        require(comparison, &fitting, lengths, Record::at(0, n - 1));
    }
    let narrow = format!("UNH+1'{}UNT+8+1'", "LIN+1'".repeat(65_542)).into_bytes();
    let expected = Record::at(8, 65_544);
    let case = case(&narrow, BOOK_K, &[1]);
    require(comparison, &case, [65_544; 3], expected);
}

/// What comes out must also be what this message was made for.
fn require(comparison: &mut Comparison, case: &Case, lengths: [usize; 3], expected: Record) {
    let record = comparison.compare_over(case, lengths);
    assert_eq!(record, expected, "{}", case.name);
}
