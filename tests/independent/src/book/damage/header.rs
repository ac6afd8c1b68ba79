//! Breaks the rules of the header, the length and the offsets.

use super::{damages, nonzero_byte, Draft};
use crate::book::edit::{add_segment_line, random_code};
use crate::book::encode::encode;
use crate::book::layout::{header, Layout, HEADER_BYTES, LONGEST_BOOK};
use crate::book::limits::fill_with_fields;
use crate::book::Book;
use crate::random::Random;

damages! {
    HeaderCut: cut_in_the_header,
    Edition: another_edition,
    LineCount: too_few_lines,
    LineCount: too_many_lines,
    LineCount: line_count_alone,
    IdentifierCount: no_identifiers,
    ConditionCount: condition_65,
    ConditionCount: condition_count_far_over,
    CarrierNumber: carrier_0,
    CarrierNumber: carrier_after_the_last_line,
    CarrierNumber: carrier_with_a_high_byte,
    HeaderZero: low_byte_of_the_zero,
    HeaderZero: high_byte_of_the_zero,
    LengthLimit: length_one_over_16_bits,
    LengthLimit: length_over_16_bits,
    LengthLimit: code_count_that_wraps,
    LengthLimit: field_count_that_wraps,
    LengthLimit: identifier_count_that_wraps,
    TotalLength: total_length_off_by_one,
    TotalLength: high_byte_of_the_total_length,
    TotalLength: a_byte_more_than_the_formula,
    TotalLength: a_byte_less_than_the_formula,
    TotalLength: a_code_that_no_count_counts,
    SliceLength: slice_cut_after_the_header,
    SliceLength: slice_one_byte_short,
    SliceLength: slice_one_byte_long,
    SliceLength: slice_that_wraps,
    LinesOffset: lines_offset,
    CodesOffset: codes_offset,
    FieldsOffset: fields_offset,
    IdentifiersOffset: identifiers_offset,
    RowsOffset: rows_offset,
}

fn with_header_number(book: &Book, index: usize, number: usize) -> Vec<u8> {
    let mut draft = Draft::of(book);
    draft.set_header_number(index, number);
    draft.bytes
}

fn with_header_byte(book: &Book, at: usize, byte: u8) -> Vec<u8> {
    let mut bytes = encode(book);
    bytes[at] = byte;
    bytes
}

fn cut_in_the_header(random: &mut Random, book: Book) -> Vec<u8> {
    let mut bytes = encode(&book);
    bytes.truncate(random.below(HEADER_BYTES));
    bytes
}

fn another_edition(random: &mut Random, book: Book) -> Vec<u8> {
    let edition = random.pick(&[0, 2, 3, 255, 256, 257, 65_535]);
    with_header_number(&book, header::EDITION, edition)
}

fn too_few_lines(random: &mut Random, mut book: Book) -> Vec<u8> {
    let count = random.below(2);
    book.lines.truncate(count);
    for rows in &mut book.rows {
        rows.truncate(count);
    }
    book.carrier = 1;
    encode(&book)
}

/// All else is good, the length included.
fn too_many_lines(random: &mut Random, mut book: Book) -> Vec<u8> {
    let last = random.below(book.identifiers.len());
    book.identifiers.drain(..last);
    book.rows.drain(..last);
    book.identifiers.truncate(1);
    book.rows.truncate(1);
    let count = random.pick(&[257, 258, 300]);
    while book.lines.len() < count {
        add_segment_line(random, &mut book);
    }
    encode(&book)
}

fn line_count_alone(random: &mut Random, book: Book) -> Vec<u8> {
    let wrapped = book.lines.len() + 256;
    let count = random.pick(&[0, 1, 257, 258, 512, wrapped, 65_535]);
    with_header_number(&book, header::LINE_COUNT, count)
}

fn no_identifiers(_: &mut Random, mut book: Book) -> Vec<u8> {
    book.identifiers.clear();
    book.rows.clear();
    encode(&book)
}

fn condition_65(_: &mut Random, mut book: Book) -> Vec<u8> {
    book.conditions = 65;
    encode(&book)
}

fn condition_count_far_over(random: &mut Random, mut book: Book) -> Vec<u8> {
    book.conditions += random.pick(&[66, 128, 256, 512, 32_768]);
    encode(&book)
}

fn carrier_0(_: &mut Random, book: Book) -> Vec<u8> {
    with_header_number(&book, header::CARRIER, 0)
}

fn carrier_after_the_last_line(random: &mut Random, book: Book) -> Vec<u8> {
    let carrier = book.lines.len() + random.pick(&[1, 2, 100]);
    with_header_number(&book, header::CARRIER, carrier)
}

fn carrier_with_a_high_byte(random: &mut Random, book: Book) -> Vec<u8> {
    let carrier = book.carrier + 256 * random.between(1, 255);
    with_header_number(&book, header::CARRIER, carrier)
}

fn low_byte_of_the_zero(random: &mut Random, book: Book) -> Vec<u8> {
    with_header_byte(&book, 2 * header::ZERO, nonzero_byte(random))
}

fn high_byte_of_the_zero(random: &mut Random, book: Book) -> Vec<u8> {
    with_header_byte(&book, 2 * header::ZERO + 1, nonzero_byte(random))
}

/// A book of 65,536 bytes whose header says 0, all else good: the offsets fit.
fn length_one_over_16_bits(_: &mut Random, mut book: Book) -> Vec<u8> {
    fill_with_fields(&mut book, LONGEST_BOOK + 1);
    encode(&book)
}

fn length_over_16_bits(random: &mut Random, mut book: Book) -> Vec<u8> {
    let beyond = 4 * random.between(1, 2_000);
    fill_with_fields(&mut book, LONGEST_BOOK + 1 + beyond);
    encode(&book)
}

/// 8 · 8,192 is 65,536: in 16 bits no sum changes.
fn code_count_that_wraps(random: &mut Random, book: Book) -> Vec<u8> {
    let count = book.codes.len() + 8_192 * random.between(1, 6);
    with_header_number(&book, header::CODE_COUNT, count)
}

/// 12 · 16,384 is 3 · 65,536.
fn field_count_that_wraps(random: &mut Random, book: Book) -> Vec<u8> {
    let count = book.fields.len() + 16_384 * random.between(1, 3);
    with_header_number(&book, header::FIELD_COUNT, count)
}

/// 8 · 8,192 · (1 + L) is a multiple of 65,536.
fn identifier_count_that_wraps(random: &mut Random, book: Book) -> Vec<u8> {
    let count = book.identifiers.len() + 8_192 * random.between(1, 6);
    with_header_number(&book, header::IDENTIFIER_COUNT, count)
}

fn total_length_off_by_one(random: &mut Random, book: Book) -> Vec<u8> {
    let length = Layout::of_book(&book).length;
    let off_by_one = random.pick(&[length - 1, length + 1]);
    with_header_number(&book, header::TOTAL_LENGTH, off_by_one)
}

fn high_byte_of_the_total_length(random: &mut Random, book: Book) -> Vec<u8> {
    let mut bytes = encode(&book);
    bytes[2 * header::TOTAL_LENGTH + 1] ^= nonzero_byte(random);
    bytes
}

/// Header and slice agree, and the counts do not.
fn a_byte_more_than_the_formula(random: &mut Random, book: Book) -> Vec<u8> {
    let length = Layout::of_book(&book).length;
    let mut bytes = with_header_number(&book, header::TOTAL_LENGTH, length + 1);
    bytes.push(random.pick(&[0, 1]));
    bytes
}

fn a_byte_less_than_the_formula(_: &mut Random, book: Book) -> Vec<u8> {
    let length = Layout::of_book(&book).length;
    let mut bytes = with_header_number(&book, header::TOTAL_LENGTH, length - 1);
    bytes.pop();
    bytes
}

/// Header and slice agree, the offsets too, and the code count lacks one.
fn a_code_that_no_count_counts(random: &mut Random, mut book: Book) -> Vec<u8> {
    book.codes.push(random_code(random));
    with_header_number(&book, header::CODE_COUNT, book.codes.len() - 1)
}

fn slice_cut_after_the_header(random: &mut Random, book: Book) -> Vec<u8> {
    let mut bytes = encode(&book);
    let length = random.between(HEADER_BYTES, bytes.len() - 1);
    bytes.truncate(length);
    bytes
}

fn slice_one_byte_short(_: &mut Random, book: Book) -> Vec<u8> {
    let mut bytes = encode(&book);
    bytes.pop();
    bytes
}

fn slice_one_byte_long(random: &mut Random, book: Book) -> Vec<u8> {
    let mut bytes = encode(&book);
    bytes.push(random.pick(&[0, 1, 255]));
    bytes
}

/// The slice's length in 16 bits is the header's.
fn slice_that_wraps(random: &mut Random, book: Book) -> Vec<u8> {
    let mut bytes = encode(&book);
    let length = bytes.len() + 65_536 * random.between(1, 2);
    bytes.resize(length, 0);
    bytes
}

fn lines_offset(random: &mut Random, book: Book) -> Vec<u8> {
    with_another_offset(random, &book, header::LINES_OFFSET)
}

fn codes_offset(random: &mut Random, book: Book) -> Vec<u8> {
    with_another_offset(random, &book, header::CODES_OFFSET)
}

fn fields_offset(random: &mut Random, book: Book) -> Vec<u8> {
    with_another_offset(random, &book, header::FIELDS_OFFSET)
}

fn identifiers_offset(random: &mut Random, book: Book) -> Vec<u8> {
    with_another_offset(random, &book, header::IDENTIFIERS_OFFSET)
}

fn rows_offset(random: &mut Random, book: Book) -> Vec<u8> {
    with_another_offset(random, &book, header::ROWS_OFFSET)
}

/// 0 is what an empty block might be thought to have.
fn with_another_offset(random: &mut Random, book: &Book, index: usize) -> Vec<u8> {
    let offset = Draft::of(book).header_number(index);
    let other = random.pick(&[0, offset - 1, offset + 1, offset + 8, offset + 256]);
    with_header_number(book, index, other)
}
