//! Breaks the rules of a field, used by a line or by nobody.

use super::{damages, nonzero_byte, Draft};
use crate::book::edit::{add_codes, add_fields, add_line_with_fields};
use crate::book::encode::{encode, first_and_count};
use crate::book::layout::field;
use crate::book::Book;
use crate::random::Random;
use std::ops::Range;

damages! {
    FieldElement: element_0,
    FieldComponent: component_0,
    FieldPresence: presence_over_3,
    FieldForm: another_form,
    FieldLongest: longest_0,
    FieldCodesRange: codes_one_past_their_block,
    FieldCodesRange: codes_that_wrap,
    FieldCodesFirst: first_of_no_codes,
    FieldZeros: last_bytes_of_a_field,
    FieldsRise: same_place_twice,
    FieldsRise: component_falls,
    FieldsRise: element_falls,
    FieldsRise: last_field_falls,
}

/// A field that is nobody's or the only one of a line.
fn add_field(random: &mut Random, book: &mut Book) -> usize {
    if random.chance(50) {
        add_fields(book, &[(2, 2)]).start
    } else {
        add_line_with_fields(random, book, &[(2, 2)]);
        book.fields.len() - 1
    }
}

fn with_field_byte(random: &mut Random, mut book: Book, at: usize, byte: u8) -> Vec<u8> {
    let index = add_field(random, &mut book);
    let mut draft = Draft::of(&book);
    draft.field(index)[at] = byte;
    draft.bytes
}

fn with_field_codes(random: &mut Random, mut book: Book, codes: Range<usize>) -> Vec<u8> {
    let index = add_field(random, &mut book);
    let mut draft = Draft::of(&book);
    draft.field(index)[field::CODES..field::ZEROS].copy_from_slice(&first_and_count(&codes));
    draft.bytes
}

fn element_0(random: &mut Random, book: Book) -> Vec<u8> {
    with_field_byte(random, book, field::ELEMENT, 0)
}

fn component_0(random: &mut Random, book: Book) -> Vec<u8> {
    with_field_byte(random, book, field::COMPONENT, 0)
}

fn presence_over_3(random: &mut Random, book: Book) -> Vec<u8> {
    let presence = random.pick(&[4, 5, 128, 255]);
    with_field_byte(random, book, field::PRESENCE, presence)
}

fn another_form(random: &mut Random, book: Book) -> Vec<u8> {
    let form = random.pick(&[0, 3, 129, 255]);
    with_field_byte(random, book, field::FORM, form)
}

fn longest_0(random: &mut Random, mut book: Book) -> Vec<u8> {
    let index = add_field(random, &mut book);
    book.fields[index].longest = 0;
    encode(&book)
}

fn codes_one_past_their_block(random: &mut Random, mut book: Book) -> Vec<u8> {
    add_codes(random, &mut book, 1);
    let past = book.codes.len() + 1;
    let first = random.pick(&[0, past - 2, past - 1]);
    with_field_codes(random, book, first..past)
}

/// In 16 bits the range ends inside the block.
fn codes_that_wrap(random: &mut Random, book: Book) -> Vec<u8> {
    let end = 65_536 + random.below(book.codes.len() + 1);
    with_field_codes(random, book, 65_535..end)
}

fn first_of_no_codes(random: &mut Random, mut book: Book) -> Vec<u8> {
    add_codes(random, &mut book, 1);
    let first = random.pick(&[1, book.codes.len(), 256]);
    with_field_codes(random, book, first..first)
}

fn last_bytes_of_a_field(random: &mut Random, book: Book) -> Vec<u8> {
    let place = field::ZEROS + random.below(2);
    let byte = nonzero_byte(random);
    with_field_byte(random, book, place, byte)
}

fn with_places(random: &mut Random, mut book: Book, places: &[(u8, u8)]) -> Vec<u8> {
    add_line_with_fields(random, &mut book, places);
    encode(&book)
}

fn same_place_twice(random: &mut Random, book: Book) -> Vec<u8> {
    with_places(random, book, &[(1, 1), (1, 1)])
}

fn component_falls(random: &mut Random, book: Book) -> Vec<u8> {
    with_places(random, book, &[(2, 2), (2, 1)])
}

fn element_falls(random: &mut Random, book: Book) -> Vec<u8> {
    with_places(random, book, &[(2, 1), (1, 2)])
}

fn last_field_falls(random: &mut Random, book: Book) -> Vec<u8> {
    with_places(
        random,
        book,
        &[(1, 1), (1, 255), (2, 1), (255, 255), (255, 254)],
    )
}
