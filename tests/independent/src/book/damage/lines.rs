//! Breaks the rules of a single line's record.

use super::{damages, nonzero_byte, Draft};
use crate::book::edit::{
    add_codes, add_fields, add_group, add_line_with_fields, add_segment_line, add_selector_line,
    segment_mut, selector_mut, set_selector,
};
use crate::book::encode::{encode, first_and_count};
use crate::book::layout::line;
use crate::book::Book;
use crate::random::Random;
use std::ops::Range;

damages! {
    LineKind: another_kind,
    SegmentTag: another_byte_in_a_tag,
    GroupTag: tag_byte_of_a_group,
    RequiredFlag: another_required_flag,
    LineMaximum: maximum_0,
    LineMaximum: maximum_one_million,
    LineMaximum: maximum_far_over,
    LineCodesRange: codes_one_past_their_block,
    LineCodesRange: codes_beginning_after_their_block,
    LineCodesRange: codes_that_wrap,
    LineCodesFirst: first_of_no_codes,
    LineFieldsRange: fields_one_past_their_block,
    LineFieldsRange: fields_beginning_after_their_block,
    LineFieldsRange: fields_that_wrap,
    LineFieldsFirst: first_of_no_fields,
    GroupSelector: group_with_selector_and_codes,
    GroupSelector: group_with_selector_number,
    GroupCodes: group_with_codes,
    GroupFields: group_with_fields,
    HalfSelector: one_selector_number_with_codes,
    HalfSelector: one_selector_number_without_codes,
    SelectorWithoutCodes: selector_without_codes,
    CodesWithoutSelector: codes_without_selector,
}

const DEEPEST: u8 = 7;

fn with_line_byte(book: &Book, index: usize, at: usize, byte: u8) -> Vec<u8> {
    let mut draft = Draft::of(book);
    draft.line(index)[at] = byte;
    draft.bytes
}

fn with_line_range(book: &Book, index: usize, at: usize, range: Range<usize>) -> Vec<u8> {
    let mut draft = Draft::of(book);
    draft.line(index)[at..at + 4].copy_from_slice(&first_and_count(&range));
    draft.bytes
}

fn any_line(random: &mut Random, book: &Book) -> usize {
    random.below(book.lines.len())
}

/// An optional line, a segment's or a group's, that nothing else depends on.
fn add_free_line(random: &mut Random, book: &mut Book) -> usize {
    if random.chance(50) {
        add_segment_line(random, book)
    } else {
        add_group(random, book, DEEPEST)
    }
}

fn another_kind(random: &mut Random, book: Book) -> Vec<u8> {
    let index = any_line(random, &book);
    with_line_byte(&book, index, line::KIND, random.pick(&[0, 3, 4, 129, 255]))
}

/// The neighbours of letters and digits, and bytes far off.
fn another_byte_in_a_tag(random: &mut Random, mut book: Book) -> Vec<u8> {
    let index = add_segment_line(random, &mut book);
    let place = line::TAG + random.below(3);
    let byte = random.pick(b"\0 /:@[az\x7F\x80\xC1\xFF");
    with_line_byte(&book, index, place, byte)
}

fn tag_byte_of_a_group(random: &mut Random, mut book: Book) -> Vec<u8> {
    let index = add_group(random, &mut book, DEEPEST);
    let place = line::TAG + random.below(3);
    let byte = random.pick(b"\x01A09\xFF");
    with_line_byte(&book, index, place, byte)
}

fn another_required_flag(random: &mut Random, book: Book) -> Vec<u8> {
    let index = any_line(random, &book);
    with_line_byte(&book, index, line::REQUIRED, random.pick(&[2, 3, 128, 255]))
}

fn with_maximum(random: &mut Random, mut book: Book, maximum: u32) -> Vec<u8> {
    let index = add_free_line(random, &mut book);
    book.lines[index].maximum = maximum;
    encode(&book)
}

fn maximum_0(random: &mut Random, book: Book) -> Vec<u8> {
    with_maximum(random, book, 0)
}

fn maximum_one_million(random: &mut Random, book: Book) -> Vec<u8> {
    with_maximum(random, book, 1_000_000)
}

/// Numbers that are good in fewer bytes, or as negative ones.
fn maximum_far_over(random: &mut Random, book: Book) -> Vec<u8> {
    let maximum = random.pick(&[1_000_001, 0x0100_0001, 0x8000_0001, u32::MAX]);
    with_maximum(random, book, maximum)
}

fn codes_one_past_their_block(random: &mut Random, mut book: Book) -> Vec<u8> {
    let index = add_selector_line(random, &mut book);
    selector_mut(&mut book, index).codes.end += 1;
    encode(&book)
}

fn codes_beginning_after_their_block(random: &mut Random, mut book: Book) -> Vec<u8> {
    let index = add_selector_line(random, &mut book);
    let end = book.codes.len();
    selector_mut(&mut book, index).codes = end..end + 1;
    encode(&book)
}

/// In 16 bits the range ends inside the block.
fn codes_that_wrap(random: &mut Random, mut book: Book) -> Vec<u8> {
    let index = add_selector_line(random, &mut book);
    let codes = range_that_wraps(random, book.codes.len());
    selector_mut(&mut book, index).codes = codes;
    encode(&book)
}

fn range_that_wraps(random: &mut Random, block_count: usize) -> Range<usize> {
    let first = random.pick(&[65_535, 65_535 - block_count]);
    first..65_536 + random.below(block_count + 1)
}

fn first_of_no_codes(random: &mut Random, mut book: Book) -> Vec<u8> {
    add_codes(random, &mut book, 2);
    let index = add_free_line(random, &mut book);
    let first = random.pick(&[1, book.codes.len(), 256]);
    with_line_range(&book, index, line::CODES, first..first)
}

fn fields_one_past_their_block(random: &mut Random, mut book: Book) -> Vec<u8> {
    let index = add_line_with_fields(random, &mut book, &[(1, 1), (1, 2)]);
    segment_mut(&mut book, index).fields.end += 1;
    encode(&book)
}

fn fields_beginning_after_their_block(random: &mut Random, mut book: Book) -> Vec<u8> {
    let index = add_segment_line(random, &mut book);
    let end = book.fields.len();
    segment_mut(&mut book, index).fields = end..end + 1;
    encode(&book)
}

fn fields_that_wrap(random: &mut Random, mut book: Book) -> Vec<u8> {
    let index = add_line_with_fields(random, &mut book, &[(1, 1), (1, 2)]);
    let fields = range_that_wraps(random, book.fields.len());
    segment_mut(&mut book, index).fields = fields;
    encode(&book)
}

fn first_of_no_fields(random: &mut Random, mut book: Book) -> Vec<u8> {
    add_fields(&mut book, &[(1, 1), (2, 1)]);
    let index = add_free_line(random, &mut book);
    let first = random.pick(&[1, book.fields.len(), 256]);
    with_line_range(&book, index, line::FIELDS, first..first)
}

/// A whole selector, which would be good on a segment line.
fn group_with_selector_and_codes(random: &mut Random, mut book: Book) -> Vec<u8> {
    let codes = add_codes(random, &mut book, 2);
    let index = add_group(random, &mut book, DEEPEST);
    let mut draft = Draft::of(&book);
    let record = draft.line(index);
    record[line::SELECTOR_ELEMENT] = 1;
    record[line::SELECTOR_COMPONENT] = 1;
    record[line::CODES..line::MAXIMUM].copy_from_slice(&first_and_count(&codes));
    draft.bytes
}

fn group_with_selector_number(random: &mut Random, mut book: Book) -> Vec<u8> {
    let index = add_group(random, &mut book, DEEPEST);
    let place = random.pick(&[line::SELECTOR_ELEMENT, line::SELECTOR_COMPONENT]);
    let number = nonzero_byte(random);
    with_line_byte(&book, index, place, number)
}

fn group_with_codes(random: &mut Random, mut book: Book) -> Vec<u8> {
    let codes = add_codes(random, &mut book, 1);
    let index = add_group(random, &mut book, DEEPEST);
    with_line_range(&book, index, line::CODES, codes)
}

fn group_with_fields(random: &mut Random, mut book: Book) -> Vec<u8> {
    let fields = add_fields(&mut book, &[(1, 1)]);
    let index = add_group(random, &mut book, DEEPEST);
    with_line_range(&book, index, line::FIELDS, fields)
}

fn one_selector_number_with_codes(random: &mut Random, mut book: Book) -> Vec<u8> {
    let index = add_selector_line(random, &mut book);
    let place = random.pick(&[line::SELECTOR_ELEMENT, line::SELECTOR_COMPONENT]);
    with_line_byte(&book, index, place, 0)
}

fn one_selector_number_without_codes(random: &mut Random, mut book: Book) -> Vec<u8> {
    let index = add_segment_line(random, &mut book);
    let place = random.pick(&[line::SELECTOR_ELEMENT, line::SELECTOR_COMPONENT]);
    let number = nonzero_byte(random);
    with_line_byte(&book, index, place, number)
}

fn selector_without_codes(random: &mut Random, mut book: Book) -> Vec<u8> {
    let index = add_segment_line(random, &mut book);
    set_selector(&mut book, index, (1, 1), 0..0);
    encode(&book)
}

fn codes_without_selector(random: &mut Random, mut book: Book) -> Vec<u8> {
    let codes = add_codes(random, &mut book, 1);
    let index = add_segment_line(random, &mut book);
    with_line_range(&book, index, line::CODES, codes)
}
