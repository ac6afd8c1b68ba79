//! The check against 01's own words: book K written by hand, byte for byte,
//! the limits, and for every rule a book that breaks it and no other.

use super::damage::{every_damage, has_room};
use super::edit::smallest_book;
use super::encode::encode;
use super::fault::Fault;
use super::generate::{good_book, nested_book, Size};
use super::layout::{Counts, Layout};
use super::limits::every_limit;
use super::*;
use crate::random::Random;

/// Little-endian, as all numbers of a book.
fn numbers(numbers: &[u16]) -> Vec<u8> {
    numbers
        .iter()
        .flat_map(|number| number.to_le_bytes())
        .collect()
}

/// A segment line of K: depth, tag, required, maximum 1, no selector, fields.
fn segment_record(depth: u8, tag: &[u8; 3], required: u8, fields: [u8; 2]) -> Vec<u8> {
    let [first_field, field_count] = fields;
    [
        &[1, depth][..],
        tag,
        &[required, 0, 0, 0, 0, 0, 0, 1, 0, 0, 0],
        &[first_field, 0, field_count, 0],
    ]
    .concat()
}

fn field_record(element: u8, component: u8, presence: u8, form: u8, longest: u8) -> Vec<u8> {
    let rest = [0; 6];
    [&[element, component, presence, form, longest, 0][..], &rest].concat()
}

/// 01, "Bench messages": small book K, without the encoder's help.
fn book_k() -> Vec<u8> {
    const AN: u8 = 1;
    const N: u8 = 2;
    [
        numbers(&[1, 340, 7, 28, 0, 168, 9, 168, 1, 276, 284, 1, 3, 0]),
        segment_record(0, b"UNH", 1, [0, 1]),
        segment_record(0, b"BGM", 1, [1, 1]),
        segment_record(0, b"RFF", 1, [2, 2]),
        vec![2, 0, 0, 0, 0, 0, 0, 0, 0, 0, 0, 0, 2, 0, 0, 0, 0, 0, 0, 0],
        segment_record(1, b"LIN", 1, [4, 1]),
        segment_record(1, b"QTY", 0, [5, 2]),
        segment_record(0, b"UNT", 1, [7, 2]),
        field_record(1, 1, 1, AN, 14),
        field_record(1, 1, 2, AN, 3),
        field_record(1, 1, 2, AN, 3),
        field_record(1, 2, 1, AN, 70),
        field_record(1, 1, 1, N, 6),
        field_record(1, 1, 2, AN, 3),
        field_record(1, 2, 1, N, 35),
        field_record(1, 1, 1, N, 6),
        field_record(2, 1, 1, AN, 14),
        b"10001\0\0\0".to_vec(),
        vec![1, 0, 0, 0, 0, 0, 0, 0],
        vec![1, 0, 0, 0, 0, 0, 0, 0],
        vec![1, 0, 0, 0, 0, 0, 0, 0],
        vec![2, 0, 0, 0, 0, 0, 0, 0],
        vec![1, 0, 0, 0, 0, 0, 0, 0],
        vec![3, 1, 1, 0, 0, 0, 0, 0],
        vec![1, 0, 0, 0, 0, 0, 0, 0],
    ]
    .concat()
}

#[test]
fn book_k_has_340_bytes_and_is_good() {
    let bytes = book_k();
    assert_eq!(bytes.len(), 340);
    let book = check(&bytes).unwrap();
    assert_eq!(encode(&book), bytes);
}

#[test]
fn book_k_says_what_01_says() {
    let book = check(&book_k()).unwrap();
    assert_eq!(book.carrier, 3);
    assert_eq!(book.conditions, 1);
    assert_eq!(book.identifiers, [*b"10001"]);
    assert_eq!(book.groups_around(5), [3]);
    assert!(book.is_trigger(4));
    assert_eq!(book.lines[3].maximum, 2);
    assert_eq!(book.rows[0][3], Row::May);
    let condition_1 = Condition {
        number: 1,
        negated: false,
    };
    assert_eq!(
        book.rows[0][5],
        Row::MustIf(Expression {
            joint: Joint::All,
            conditions: vec![condition_1],
        })
    );
    let quantity = &book.fields[book.lines[5].segment().unwrap().fields.clone()];
    assert_eq!((quantity[1].element, quantity[1].component), (1, 2));
    assert_eq!(quantity[1].presence, Presence::MustHaveBytes);
    assert_eq!(quantity[1].form, Form::Numeric);
    assert_eq!(quantity[1].longest, 35);
}

#[test]
fn the_first_book_has_the_length_that_01_says() {
    let counts = Counts {
        lines: 40,
        codes: 60,
        fields: 90,
        identifiers: 3,
    };
    assert_eq!(Layout::of(counts).length, 3_372);
}

#[test]
fn the_smallest_book_is_good() {
    let bytes = encode(&smallest_book());
    assert_eq!(bytes.len(), 92);
    assert_eq!(check(&bytes), Ok(smallest_book()));
}

#[test]
fn no_bytes_and_a_header_alone_are_no_book() {
    assert_eq!(check(b""), Err(Fault::HeaderCut));
    assert_eq!(check(&book_k()[..27]), Err(Fault::HeaderCut));
    assert_eq!(check(&book_k()[..28]), Err(Fault::SliceLength));
}

#[test]
fn books_at_a_limit_are_good() {
    for (name, book) in every_limit() {
        assert_eq!(check(&encode(&book)), Ok(book), "{name}");
    }
}

/// Line numbers, depths and lengths that the limits are meant to reach.
#[test]
fn books_at_a_limit_reach_it() {
    let limits = every_limit();
    let lengths = limits.iter().map(|(_, book)| encode(book).len());
    assert_eq!(lengths.max(), Some(65_532));
    let depths = limits.iter().flat_map(|(_, book)| &book.lines);
    assert_eq!(depths.map(|line| line.depth).max(), Some(7));
    assert!(limits.iter().any(|(_, book)| book.lines.len() == 256));
}

fn random_book(random: &mut Random) -> Book {
    let most_lines = random.pick(&[2, 4, 8, 12, 40, 256]);
    let size = Size::random(random, most_lines);
    good_book(random, &size)
}

#[test]
fn generated_books_are_good_and_read_back_as_they_were() {
    let mut random = Random::from_seed(1);
    for _ in 0..2_000 {
        let book = random_book(&mut random);
        assert_eq!(check(&encode(&book)), Ok(book));
        let size = Size::random_lines(&mut random, 40);
        let book = good_book(&mut random, &size);
        assert_eq!(check(&encode(&book)), Ok(book));
        let deepest = random.between(1, 7) as u8;
        let book = nested_book(&mut random, deepest);
        assert_eq!(check(&encode(&book)), Ok(book));
    }
}

/// The comparisons rest on meeting all of these.
#[test]
fn generated_books_vary() {
    let mut random = Random::from_seed(2);
    let books: Vec<Book> = (0..500).map(|_| random_book(&mut random)).collect();
    let some_line = |wanted: fn(&Book, usize) -> bool| {
        books
            .iter()
            .any(|book| (0..book.lines.len()).any(|line| wanted(book, line)))
    };
    assert!(some_line(|book, line| book.lines[line].depth == 7));
    assert!(some_line(|book, line| book.lines[line].maximum == 2));
    assert!(some_line(|book, line| book.lines[line].maximum == 999_999));
    assert!(some_line(
        |book, line| book.carrier == line + 1 && book.groups_around(line).len() >= 3
    ));
    assert!(some_line(
        |book, line| book.carrier == line + 1 && book.is_trigger(line)
    ));
    assert!(some_line(
        |book, line| lines_of_the_same_tag(book, line) >= 3
    ));
    assert!(some_line(|book, line| matches!(
        book.rows.last().map(|rows| &rows[line]),
        Some(Row::MayIf(expression)) if expression.joint == Joint::Any
    )));
    assert!(books.iter().any(|book| book.codes.is_empty()));
    assert!(books.iter().any(|book| book.identifiers.len() == 4));
}

fn lines_of_the_same_tag(book: &Book, index: usize) -> usize {
    let tag = |line: &Line| line.segment().map(|segment| segment.tag);
    let wanted = tag(&book.lines[index]);
    book.lines
        .iter()
        .filter(|line| wanted.is_some() && tag(line) == wanted)
        .count()
}

#[test]
fn each_damage_breaks_the_rule_that_it_names() {
    let mut random = Random::from_seed(3);
    let mut books = vec![smallest_book(), check(&book_k()).unwrap()];
    books.extend((0..300).map(|_| random_book(&mut random)));
    for book in books.iter().filter(|book| has_room(book)) {
        for damage in every_damage() {
            let damaged = damage.apply(&mut random, book);
            assert_eq!(check(&damaged), Err(damage.fault), "{}", damage.name);
        }
    }
}

#[test]
fn every_rule_has_a_damage() {
    for fault in Fault::EVERY {
        let breaks_it = every_damage().any(|damage| damage.fault == *fault);
        assert!(breaks_it, "{fault:?}");
    }
}
