//! Breaks the rules of a code, used by a line or by nobody.

use super::{damages, nonzero_byte, Draft};
use crate::book::edit::{add_codes, add_selector_line};
use crate::book::layout::code;
use crate::book::Book;
use crate::random::Random;

damages! {
    CodeLength: code_of_length_0,
    CodeLength: code_of_length_7,
    CodeLength: code_of_length_7_with_its_bytes,
    CodeByte: another_byte_in_a_code,
    CodeTail: byte_after_a_code,
    CodeZero: last_byte_of_a_code,
}

/// A code that is nobody's or a line's, of this length.
fn add_code(random: &mut Random, book: &mut Book, length: usize) -> usize {
    let codes = if random.chance(50) {
        add_codes(random, book, 1)
    } else {
        add_selector_line(random, book);
        book.codes.len() - 1..book.codes.len()
    };
    let first = b"ABCxyz09."[random.below(9)];
    book.codes[codes.start] = vec![first; length];
    codes.start
}

/// No bytes either, so that the length alone is wrong.
fn code_of_length_0(random: &mut Random, mut book: Book) -> Vec<u8> {
    let index = add_code(random, &mut book, 1);
    let mut draft = Draft::of(&book);
    draft.code(index).fill(0);
    draft.bytes
}

fn code_of_length_7(random: &mut Random, mut book: Book) -> Vec<u8> {
    let index = add_code(random, &mut book, code::LONGEST);
    let mut draft = Draft::of(&book);
    draft.code(index)[code::LENGTH] = random.pick(&[7, 8, 134, 255]);
    draft.bytes
}

fn code_of_length_7_with_its_bytes(random: &mut Random, mut book: Book) -> Vec<u8> {
    let index = add_code(random, &mut book, code::LONGEST);
    let mut draft = Draft::of(&book);
    let record = draft.code(index);
    record[code::LENGTH] = 7;
    record[code::ZERO] = b'A';
    draft.bytes
}

/// The neighbours of letters, digits and the dot, and bytes far off.
fn another_byte_in_a_code(random: &mut Random, mut book: Book) -> Vec<u8> {
    let length = random.between(1, code::LONGEST);
    let index = add_code(random, &mut book, length);
    let byte = random.pick(b"\0 -,/:@[`{_+\x7F\x80\xC1\xE1\xFF");
    let place = code::TEXT + random.below(length);
    let mut draft = Draft::of(&book);
    draft.code(index)[place] = byte;
    draft.bytes
}

fn byte_after_a_code(random: &mut Random, mut book: Book) -> Vec<u8> {
    let length = random.between(1, code::LONGEST - 1);
    let index = add_code(random, &mut book, length);
    let place = random.between(code::TEXT + length, code::ZERO - 1);
    let mut draft = Draft::of(&book);
    draft.code(index)[place] = random.pick(b"\x01A0.\xFF");
    draft.bytes
}

fn last_byte_of_a_code(random: &mut Random, mut book: Book) -> Vec<u8> {
    let length = random.between(1, code::LONGEST);
    let index = add_code(random, &mut book, length);
    let mut draft = Draft::of(&book);
    draft.code(index)[code::ZERO] = nonzero_byte(random);
    draft.bytes
}
