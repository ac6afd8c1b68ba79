//! Breaks one home: lines of the same tag, somewhere in the book.

use super::damages;
use crate::book::edit::{
    add_codes, add_lines_of_one_tag, add_segment_line, add_selector_line, segment, segment_mut,
    selector_mut,
};
use crate::book::encode::encode;
use crate::book::Book;
use crate::random::Random;

damages! {
    HomeWithoutSelector: same_tag_without_selectors,
    HomeWithoutSelector: same_tag_and_one_selector,
    HomePlaces: another_selector_element,
    HomePlaces: another_selector_component,
    HomeSharedCode: code_in_common_elsewhere_in_the_block,
    HomeSharedCode: code_in_common_at_one_place,
    HomeSharedCode: all_codes_in_common,
}

fn same_tag_without_selectors(random: &mut Random, mut book: Book) -> Vec<u8> {
    let first = add_segment_line(random, &mut book);
    let tag = segment(&book, first).tag;
    let second = add_segment_line(random, &mut book);
    segment_mut(&mut book, second).tag = tag;
    encode(&book)
}

fn same_tag_and_one_selector(random: &mut Random, mut book: Book) -> Vec<u8> {
    let first = add_selector_line(random, &mut book);
    let tag = segment(&book, first).tag;
    let second = add_segment_line(random, &mut book);
    segment_mut(&mut book, second).tag = tag;
    encode(&book)
}

/// Two lines among two or three of one tag, in either order.
fn pair_of_one_tag(random: &mut Random, book: &mut Book) -> (usize, usize) {
    let count = random.between(2, 3);
    let lines = add_lines_of_one_tag(random, book, count);
    let first = random.below(count);
    let second = (first + random.between(1, count - 1)) % count;
    (lines[first], lines[second])
}

/// Not 0 either.
fn another_number(number: u8) -> u8 {
    number % 255 + 1
}

fn another_selector_element(random: &mut Random, mut book: Book) -> Vec<u8> {
    let (one, _) = pair_of_one_tag(random, &mut book);
    let selector = selector_mut(&mut book, one);
    selector.element = another_number(selector.element);
    encode(&book)
}

fn another_selector_component(random: &mut Random, mut book: Book) -> Vec<u8> {
    let (one, _) = pair_of_one_tag(random, &mut book);
    let selector = selector_mut(&mut book, one);
    selector.component = another_number(selector.component);
    encode(&book)
}

/// The same value at another place of the block: the ranges do not meet.
fn code_in_common_elsewhere_in_the_block(random: &mut Random, mut book: Book) -> Vec<u8> {
    let (one, other) = pair_of_one_tag(random, &mut book);
    let own = selector_mut(&mut book, one).codes.clone();
    let theirs = selector_mut(&mut book, other).codes.clone();
    let shared = book.codes[random.between(theirs.start, theirs.end - 1)].clone();
    let mut codes = book.codes[own].to_vec();
    codes.insert(random.below(codes.len() + 1), shared);
    let first = book.codes.len();
    book.codes.extend(codes);
    selector_mut(&mut book, one).codes = first..book.codes.len();
    encode(&book)
}

/// The one line's last code is the other's first, at the same place.
fn code_in_common_at_one_place(random: &mut Random, mut book: Book) -> Vec<u8> {
    let (one, other) = pair_of_one_tag(random, &mut book);
    let first = book.codes.len();
    let codes = add_codes(random, &mut book, 3);
    selector_mut(&mut book, one).codes = first..first + 2;
    selector_mut(&mut book, other).codes = first + 1..codes.end;
    encode(&book)
}

fn all_codes_in_common(random: &mut Random, mut book: Book) -> Vec<u8> {
    let (one, other) = pair_of_one_tag(random, &mut book);
    let codes = selector_mut(&mut book, one).codes.clone();
    selector_mut(&mut book, other).codes = codes;
    encode(&book)
}
