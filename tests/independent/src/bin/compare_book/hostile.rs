//! Books as long as they can be that make a check work: counts at their limits,
//! ranges that overlap, and many codes to be told apart.

use crate::comparison::Comparison;
use independent::book::edit::{
    insert_line, optional_line, segment_mut, set_selector, smallest_book,
};
use independent::book::encode::encode;
use independent::book::fault::Fault;
use independent::book::layout::{header, Layout, CODE_BYTES, FIELD_BYTES, LONGEST_BOOK};
use independent::book::limits::{numbered_codes, rising_fields};
use independent::book::{Book, Tag};

/// The lines between UNH and UNT in a book of 256.
const INNER_LINES: usize = 254;

pub fn compare_all(comparison: &mut Comparison) {
    compare_good_books(comparison);
    compare_malformed_books(comparison);
    compare_long_slices(comparison);
}

fn compare_good_books(comparison: &mut Comparison) {
    let mut good = |name: &str, book: Book| {
        comparison.compare_good(format_args!("{name}"), &encode(&book));
    };
    good("two lines of one tag, all codes", lines_of_one_tag(2));
    good("254 lines of one tag, all codes", lines_of_one_tag(254));
    good(
        "127 tags of two lines, all codes each",
        pairs_with_all_codes(),
    );
    good("254 tags, all codes each", tags_with_all_codes());
    good("254 lines, all fields each", lines_with_all_fields());
    good("all fields with all codes", fields_with_all_codes());
}

fn compare_malformed_books(comparison: &mut Comparison) {
    let mut shared = |name: &str, book: Book| {
        let bytes = encode(&book);
        comparison.compare_broken(format_args!("{name}"), &bytes, Fault::HomeSharedCode);
    };
    shared(
        "254 lines of one tag, all codes each",
        one_tag_with_all_codes(),
    );
    shared(
        "127 lines of one tag with a code each, then 127 with all others",
        few_codes_then_all(),
    );
    shared(
        "two lines of one tag, the last codes equal",
        last_codes_equal(2),
    );
    shared(
        "254 lines of one tag, the last codes equal",
        last_codes_equal(254),
    );
    shared(
        "127 tags of two lines, the last codes equal",
        last_pair_equal(),
    );
}

fn compare_long_slices(comparison: &mut Comparison) {
    for length in [65_532, 65_535, 65_536, 131_072, 16_777_216] {
        for byte in [0, 1, 255] {
            let description = format_args!("{length} bytes {byte}");
            let _ = comparison.compare(description, &vec![byte; length]);
        }
        compare_header_and_filling(comparison, length);
    }
}

/// A header with every count at its limit, and one that says what a book of one
/// byte less would have to.
fn compare_header_and_filling(comparison: &mut Comparison, length: usize) {
    let mut bytes = encode(&lines_of_one_tag(2));
    bytes.resize(length, 0);
    let _ = comparison.compare(format_args!("a long book in {length} bytes"), &bytes);
    set_header(&mut bytes, header::TOTAL_LENGTH, length);
    let _ = comparison.compare(format_args!("a long book saying {length}"), &bytes);
    for count in [
        header::CODE_COUNT,
        header::FIELD_COUNT,
        header::IDENTIFIER_COUNT,
    ] {
        set_header(&mut bytes, count, usize::from(u16::MAX));
        let description = format_args!("header number {count} at 65,535 in {length} bytes");
        let _ = comparison.compare(description, &bytes);
    }
}

fn set_header(bytes: &mut [u8], index: usize, number: usize) {
    bytes[2 * index..][..2].copy_from_slice(&(number as u16).to_le_bytes());
}

/// Optional lines between UNH and UNT with these tags.
fn with_tags(tags: impl Iterator<Item = Tag>) -> Book {
    let mut book = smallest_book();
    for tag in tags {
        let before_unt = book.lines.len() - 1;
        insert_line(&mut book, before_unt, optional_line(tag, 0));
    }
    book
}

fn numbered_tag(number: usize) -> Tag {
    [b'0', b'A' + (number / 26) as u8, b'A' + (number % 26) as u8]
}

/// As many different codes as still fit.
fn fill_with_codes(book: &mut Book) {
    let room = LONGEST_BOOK - Layout::of_book(book).length;
    book.codes = numbered_codes(room / CODE_BYTES);
}

/// The lines of one tag share out all codes among them.
fn lines_of_one_tag(count: usize) -> Book {
    let mut book = with_tags((0..count).map(|_| *b"ABC"));
    fill_with_codes(&mut book);
    let codes = book.codes.len();
    for line in 0..count {
        let part = codes * line / count..codes * (line + 1) / count;
        set_selector(&mut book, line + 1, (1, 1), part);
    }
    book
}

/// The worst for a check that compares codes in pairs: each tag has two lines,
/// and each of these half of all codes.
fn pairs_with_all_codes() -> Book {
    let mut book = with_tags((0..INNER_LINES).map(|line| numbered_tag(line / 2)));
    fill_with_codes(&mut book);
    let codes = book.codes.len();
    for line in 0..INNER_LINES {
        let half = match line % 2 {
            0 => 0..codes / 2,
            _ => codes / 2..codes,
        };
        set_selector(&mut book, line + 1, (1, 1), half);
    }
    book
}

fn tags_with_all_codes() -> Book {
    let mut book = with_tags((0..INNER_LINES).map(numbered_tag));
    fill_with_codes(&mut book);
    let codes = book.codes.len();
    for line in 1..=INNER_LINES {
        set_selector(&mut book, line, (1, 1), 0..codes);
    }
    book
}

fn one_tag_with_all_codes() -> Book {
    let mut book = lines_of_one_tag(INNER_LINES);
    let codes = book.codes.len();
    for line in 1..=INNER_LINES {
        set_selector(&mut book, line, (1, 1), 0..codes);
    }
    book
}

/// The worst for a check that looks at the lines after each line: only the last
/// lines share codes, and each of these has nearly all.
fn few_codes_then_all() -> Book {
    let mut book = lines_of_one_tag(INNER_LINES);
    let codes = book.codes.len();
    let few = INNER_LINES / 2;
    for line in 1..=INNER_LINES {
        let part = if line <= few {
            line - 1..line
        } else {
            few..codes
        };
        set_selector(&mut book, line, (1, 1), part);
    }
    book
}

/// The last code of the last line is the last of the one before.
fn last_codes_equal(count: usize) -> Book {
    let mut book = lines_of_one_tag(count);
    let codes = book.codes.len();
    let last_of_the_other = codes * (count - 1) / count - 1;
    book.codes[codes - 1] = book.codes[last_of_the_other].clone();
    book
}

/// Only the last of all tags has a code in common, at the end of its lines.
fn last_pair_equal() -> Book {
    let mut book = pairs_with_all_codes();
    let codes = book.codes.len();
    book.codes[codes - 1] = book.codes[codes / 2 - 1].clone();
    for line in 1..INNER_LINES - 1 {
        let half = match line % 2 {
            0 => codes / 2..codes - 1,
            _ => 0..codes / 2,
        };
        set_selector(&mut book, line, (1, 1), half);
    }
    book
}

fn lines_with_all_fields() -> Book {
    let mut book = with_tags((0..INNER_LINES).map(numbered_tag));
    let room = LONGEST_BOOK - Layout::of_book(&book).length;
    book.fields = rising_fields(room / FIELD_BYTES);
    for line in 1..=INNER_LINES {
        segment_mut(&mut book, line).fields = 0..book.fields.len();
    }
    book
}

fn fields_with_all_codes() -> Book {
    let mut book = with_tags((0..INNER_LINES).map(numbered_tag));
    let room = LONGEST_BOOK - Layout::of_book(&book).length;
    book.fields = rising_fields(room / 2 / FIELD_BYTES);
    fill_with_codes(&mut book);
    for field in &mut book.fields {
        field.codes = 0..book.codes.len();
    }
    for line in 1..=INNER_LINES {
        segment_mut(&mut book, line).fields = 0..book.fields.len();
    }
    book
}
