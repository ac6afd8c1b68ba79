//! Breaks the rules of the Prüfidentifikatoren.

use super::{damages, nonzero_byte, Draft};
use crate::book::edit::add_identifier;
use crate::book::encode::encode;
use crate::book::layout::identifier;
use crate::book::Book;
use crate::random::Random;

damages! {
    IdentifierDigit: byte_below_the_digits,
    IdentifierDigit: byte_above_the_digits,
    IdentifierZeros: last_bytes_of_an_identifier,
    IdentifiersRise: same_identifier_twice,
    IdentifiersRise: identifiers_fall,
}

/// In the first one, so that it still lies before the others.
fn byte_below_the_digits(random: &mut Random, book: Book) -> Vec<u8> {
    let place = identifier::DIGITS + random.below(5);
    let mut draft = Draft::of(&book);
    draft.identifier(0)[place] = random.pick(b"\0 /");
    draft.bytes
}

/// In the last one, so that it still lies after the others.
fn byte_above_the_digits(random: &mut Random, book: Book) -> Vec<u8> {
    let last = book.identifiers.len() - 1;
    let place = identifier::DIGITS + random.below(5);
    let mut draft = Draft::of(&book);
    draft.identifier(last)[place] = random.pick(b":AZaz\xB0\xFF");
    draft.bytes
}

fn last_bytes_of_an_identifier(random: &mut Random, book: Book) -> Vec<u8> {
    let index = random.below(book.identifiers.len());
    let place = identifier::ZEROS + random.below(3);
    let mut draft = Draft::of(&book);
    draft.identifier(index)[place] = nonzero_byte(random);
    draft.bytes
}

fn same_identifier_twice(random: &mut Random, mut book: Book) -> Vec<u8> {
    add_identifier(random, &mut book);
    let index = random.below(book.identifiers.len() - 1);
    book.identifiers[index + 1] = book.identifiers[index];
    encode(&book)
}

fn identifiers_fall(random: &mut Random, mut book: Book) -> Vec<u8> {
    add_identifier(random, &mut book);
    let index = random.below(book.identifiers.len() - 1);
    book.identifiers.swap(index, index + 1);
    encode(&book)
}
