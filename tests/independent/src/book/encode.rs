//! The bytes of a book. Any book can be written, also one that breaks rules:
//! [`check`](super::check) then refuses its bytes.

use super::layout::{
    code, field, header, identifier, line, row, Layout, CODE_BYTES, FIELD_BYTES, IDENTIFIER_BYTES,
    LINE_BYTES, ROW_BYTES,
};
use super::{
    Book, Code, Expression, Field, Form, Identifier, Joint, Kind, Line, Presence, Row, SegmentLine,
};
use std::ops::Range;

const SEGMENT: u8 = 1;
const GROUP: u8 = 2;

pub fn encode(book: &Book) -> Vec<u8> {
    let mut bytes = Vec::new();
    for number in header_numbers(book) {
        bytes.extend(low_16_bits(number));
    }
    bytes.extend(book.lines.iter().flat_map(encode_line));
    bytes.extend(book.codes.iter().flat_map(encode_code));
    bytes.extend(book.fields.iter().flat_map(encode_field));
    bytes.extend(book.identifiers.iter().flat_map(encode_identifier));
    bytes.extend(book.rows.iter().flatten().flat_map(encode_row));
    bytes
}

/// A number that does not fit two bytes is cut, as a careless writer cuts it:
/// the comparison needs such books.
fn low_16_bits(number: usize) -> [u8; 2] {
    (number as u16).to_le_bytes()
}

fn header_numbers(book: &Book) -> [usize; header::NUMBERS] {
    let layout = Layout::of_book(book);
    let mut numbers = [0; header::NUMBERS];
    numbers[header::EDITION] = 1;
    numbers[header::TOTAL_LENGTH] = layout.length;
    numbers[header::LINE_COUNT] = book.lines.len();
    numbers[header::LINES_OFFSET] = layout.lines;
    numbers[header::CODE_COUNT] = book.codes.len();
    numbers[header::CODES_OFFSET] = layout.codes;
    numbers[header::FIELD_COUNT] = book.fields.len();
    numbers[header::FIELDS_OFFSET] = layout.fields;
    numbers[header::IDENTIFIER_COUNT] = book.identifiers.len();
    numbers[header::IDENTIFIERS_OFFSET] = layout.identifiers;
    numbers[header::ROWS_OFFSET] = layout.rows;
    numbers[header::CONDITION_COUNT] = book.conditions;
    numbers[header::CARRIER] = book.carrier;
    numbers
}

pub fn encode_line(source: &Line) -> [u8; LINE_BYTES] {
    let mut record = [0; LINE_BYTES];
    record[line::DEPTH] = source.depth;
    record[line::REQUIRED] = u8::from(source.required);
    record[line::MAXIMUM..line::FIELDS].copy_from_slice(&source.maximum.to_le_bytes());
    match &source.kind {
        Kind::Group => record[line::KIND] = GROUP,
        Kind::Segment(segment) => encode_segment(segment, &mut record),
    }
    record
}

fn encode_segment(source: &SegmentLine, record: &mut [u8; LINE_BYTES]) {
    record[line::KIND] = SEGMENT;
    record[line::TAG..line::REQUIRED].copy_from_slice(&source.tag);
    record[line::FIELDS..].copy_from_slice(&first_and_count(&source.fields));
    if let Some(selector) = &source.selector {
        record[line::SELECTOR_ELEMENT] = selector.element;
        record[line::SELECTOR_COMPONENT] = selector.component;
        record[line::CODES..line::MAXIMUM].copy_from_slice(&first_and_count(&selector.codes));
    }
}

pub fn first_and_count(range: &Range<usize>) -> [u8; 4] {
    let [first_low, first_high] = low_16_bits(range.start);
    let [count_low, count_high] = low_16_bits(range.len());
    [first_low, first_high, count_low, count_high]
}

pub fn encode_code(source: &Code) -> [u8; CODE_BYTES] {
    let mut record = [0; CODE_BYTES];
    record[code::LENGTH] = source.len() as u8;
    record[code::TEXT..][..source.len()].copy_from_slice(source);
    record
}

pub fn encode_field(source: &Field) -> [u8; FIELD_BYTES] {
    let mut record = [0; FIELD_BYTES];
    record[field::ELEMENT] = source.element;
    record[field::COMPONENT] = source.component;
    record[field::PRESENCE] = match source.presence {
        Presence::MustBeEmpty => 0,
        Presence::MustHaveBytes => 1,
        Presence::MayHaveBytes => 2,
        Presence::MustIfItsElementHasBytes => 3,
    };
    record[field::FORM] = match source.form {
        Form::Alphanumeric => 1,
        Form::Numeric => 2,
    };
    record[field::LONGEST..field::CODES].copy_from_slice(&source.longest.to_le_bytes());
    record[field::CODES..field::ZEROS].copy_from_slice(&first_and_count(&source.codes));
    record
}

pub fn encode_identifier(source: &Identifier) -> [u8; IDENTIFIER_BYTES] {
    let mut record = [0; IDENTIFIER_BYTES];
    record[identifier::DIGITS..identifier::ZEROS].copy_from_slice(source);
    record
}

pub fn encode_row(source: &Row) -> [u8; ROW_BYTES] {
    match source {
        Row::Never => encode_mode(0),
        Row::Must => encode_mode(1),
        Row::May => encode_mode(2),
        Row::MustIf(expression) => encode_expression(3, expression),
        Row::MayIf(expression) => encode_expression(4, expression),
    }
}

fn encode_mode(mode: u8) -> [u8; ROW_BYTES] {
    let mut record = [0; ROW_BYTES];
    record[row::MODE] = mode;
    record
}

fn encode_expression(mode: u8, source: &Expression) -> [u8; ROW_BYTES] {
    let mut record = encode_mode(mode);
    record[row::JOINT] = match source.joint {
        Joint::All => 1,
        Joint::Any => 2,
    };
    let used = &mut record[row::CONDITIONS..row::ZEROS];
    for (byte, condition) in used.iter_mut().zip(&source.conditions) {
        *byte = condition.number + if condition.negated { row::NOT } else { 0 };
    }
    record
}
