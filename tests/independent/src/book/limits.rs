//! Good books that stand at a limit of 01: a check that is off by one in the
//! strict direction refuses one of them.

use super::edit::{
    add_segment_line, insert_group, insert_line, make_carrier, optional_line, plain_field,
    segment_mut, set_selector, smallest_book,
};
use super::layout::{Layout, CODE_BYTES, FIELD_BYTES, IDENTIFIER_BYTES, LONGEST_BOOK, ROW_BYTES};
use super::{Book, Condition, Expression, Field, Form, Joint, Presence, Row};
use crate::random::Random;

/// Every book at a limit, with the limit's name.
pub fn every_limit() -> Vec<(&'static str, Book)> {
    vec![
        ("two lines and nothing else", smallest_book()),
        ("256 lines", with_lines(256)),
        (
            "line 256 carries the Prüfidentifikator",
            carried_by_the_last(),
        ),
        ("64 conditions, the last in use", with_the_last_condition()),
        (
            "conditions whose bytes fall",
            with_falling_condition_bytes(),
        ),
        ("depth 7", nested_to_depth_7()),
        ("as long as a book can be", longest_book()),
        ("as many codes as fit", with_most_codes()),
        ("as many fields as fit", with_most_fields()),
        (
            "as many Prüfidentifikatoren as fit",
            with_most_identifiers(),
        ),
        ("highest numbers", with_highest_numbers()),
        ("lowest numbers", with_lowest_numbers()),
        ("every byte of a code", with_every_code_byte()),
        ("equal codes, overlapping ranges", with_equal_codes()),
        (
            "codes that begin one another",
            with_codes_that_begin_others(),
        ),
    ]
}

fn random() -> Random {
    Random::from_seed(1)
}

/// The smallest book with further optional lines at the root.
pub fn with_lines(count: usize) -> Book {
    let mut random = random();
    let mut book = smallest_book();
    while book.lines.len() < count {
        add_segment_line(&mut random, &mut book);
    }
    book
}

fn carried_by_the_last() -> Book {
    let mut book = with_lines(256);
    book.carrier = 256;
    book
}

/// The smallest book with one optional line, whose row this is.
fn with_row(conditions: usize, row: Row) -> Book {
    let mut book = with_lines(3);
    book.conditions = conditions;
    book.rows[0][1] = row;
    book
}

fn with_the_last_condition() -> Book {
    let conditions = vec![
        condition(1, false),
        condition(63, false),
        condition(64, true),
    ];
    let joint = Joint::Any;
    with_row(64, Row::MustIf(Expression { joint, conditions }))
}

/// Bytes 129, 2 and 3: the numbers rise.
fn with_falling_condition_bytes() -> Book {
    let conditions = vec![condition(1, true), condition(2, false), condition(3, false)];
    let joint = Joint::All;
    with_row(3, Row::MayIf(Expression { joint, conditions }))
}

fn condition(number: u8, negated: bool) -> Condition {
    Condition { number, negated }
}

/// Groups of depth 0 to 6, each holding the next; the innermost trigger carries
/// the Prüfidentifikator.
fn nested_to_depth_7() -> Book {
    let mut book = nested(7);
    let deepest = book.lines.len() - 2;
    make_carrier(&mut book, deepest);
    book
}

/// Groups of depth 0 and on, each holding the next, the last trigger this deep.
pub fn nested(deepest: u8) -> Book {
    let mut random = random();
    let mut book = smallest_book();
    for depth in 0..deepest {
        let before_unt = book.lines.len() - 1;
        insert_group(&mut random, &mut book, before_unt, depth);
    }
    book
}

/// Every length is a multiple of 4, so 65,535 itself is out of reach.
fn longest_book() -> Book {
    let mut book = smallest_book();
    fill_with_fields(&mut book, LONGEST_BOOK / 4 * 4);
    book
}

/// Adds unused codes and fields up to this length, a multiple of 4.
pub fn fill_with_fields(book: &mut Book, length: usize) {
    let missing = |book: &Book| length - Layout::of_book(book).length;
    while !missing(book).is_multiple_of(FIELD_BYTES) {
        book.codes.push(b"Z".to_vec());
    }
    while missing(book) > 0 {
        book.fields.push(plain_field((1, 1)));
    }
}

fn room(book: &Book, record_bytes: usize) -> usize {
    (LONGEST_BOOK - Layout::of_book(book).length) / record_bytes
}

/// One line has them all, and each is a different number.
pub fn with_most_codes() -> Book {
    let mut book = with_lines(3);
    let count = room(&book, CODE_BYTES);
    book.codes = numbered_codes(count);
    set_selector(&mut book, 1, (1, 1), 0..count);
    book
}

/// Different codes of six digits.
pub fn numbered_codes(count: usize) -> Vec<Vec<u8>> {
    (0..count)
        .map(|number| format!("{number:06}").into_bytes())
        .collect()
}

/// One line has them all.
pub fn with_most_fields() -> Book {
    let mut book = with_lines(3);
    let count = room(&book, FIELD_BYTES);
    book.fields = rising_fields(count);
    segment_mut(&mut book, 1).fields = 0..count;
    book
}

/// Fields at 1.1 to 1.255, 2.1 and so on.
pub fn rising_fields(count: usize) -> Vec<Field> {
    let numbers = || 1..=u8::MAX;
    let places = numbers().flat_map(|element| numbers().map(move |component| (element, component)));
    places.take(count).map(plain_field).collect()
}

fn with_most_identifiers() -> Book {
    let mut book = smallest_book();
    let record_bytes = IDENTIFIER_BYTES + ROW_BYTES * book.lines.len();
    let count = room(&book, record_bytes) + 1;
    book.identifiers = (100_000 - count..100_000)
        .map(|number| five_digits(number).expect("a number of five digits"))
        .collect();
    book.rows = vec![vec![Row::Must; 2]; count];
    book
}

fn five_digits(number: usize) -> Option<[u8; 5]> {
    format!("{number:05}").into_bytes().try_into().ok()
}

fn with_highest_numbers() -> Book {
    let mut book = with_lines(3);
    book.lines[1].maximum = 999_999;
    book.identifiers = vec![*b"99999"];
    book.codes = vec![b"zzzzzz".to_vec()];
    set_selector(&mut book, 1, (255, 255), 0..1);
    book.fields = vec![Field {
        presence: Presence::MustIfItsElementHasBytes,
        form: Form::Numeric,
        longest: u16::MAX,
        codes: 0..1,
        ..plain_field((255, 255))
    }];
    segment_mut(&mut book, 1).fields = 0..1;
    book
}

fn with_lowest_numbers() -> Book {
    let mut book = with_lines(3);
    book.identifiers = vec![*b"00000"];
    book.codes = vec![b".".to_vec()];
    set_selector(&mut book, 1, (1, 1), 0..1);
    book.fields = vec![Field {
        presence: Presence::MustBeEmpty,
        longest: 1,
        ..plain_field((1, 1))
    }];
    segment_mut(&mut book, 1).fields = 0..1;
    book
}

fn with_every_code_byte() -> Book {
    let mut book = with_lines(3);
    let bytes = (b'A'..=b'Z').chain(b'a'..=b'z').chain(b'0'..=b'9');
    book.codes = bytes.chain([b'.']).map(|byte| vec![byte]).collect();
    let count = book.codes.len();
    set_selector(&mut book, 1, (1, 1), 0..count);
    book
}

/// Two lines of different tags share codes, and a code stands twice in one.
fn with_equal_codes() -> Book {
    let mut book = with_lines(4);
    book.codes = vec![b"A".to_vec(), b"A".to_vec(), b"B".to_vec(), b"A".to_vec()];
    set_selector(&mut book, 1, (1, 1), 0..3);
    set_selector(&mut book, 2, (1, 1), 1..4);
    book
}

/// Lines of one tag, each code the beginning of the next line's.
fn with_codes_that_begin_others() -> Book {
    let mut book = smallest_book();
    for length in 1..=6 {
        insert_line(&mut book, length, optional_line(*b"ABC", 0));
        set_selector(&mut book, length, (1, 1), length - 1..length);
        book.codes.push(vec![b'A'; length]);
    }
    book
}
