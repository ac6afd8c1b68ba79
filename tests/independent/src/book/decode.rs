//! From bytes to a book: the rules of 01 that the header and single records
//! must keep, one function for each, in 01's order.

use super::fault::Fault;
use super::layout::{
    code, field, header, identifier, line, row, Counts, Layout, CODE_BYTES, FIELD_BYTES,
    HEADER_BYTES, IDENTIFIER_BYTES, LINE_BYTES, LONGEST_BOOK, ROW_BYTES,
};
use super::{
    Book, Code, Condition, Expression, Field, Form, Identifier, Joint, Kind, Line, Presence, Row,
    SegmentLine, Selector, Tag,
};
use crate::bytes::is_tag_byte;
use std::ops::Range;

const MOST_CONDITIONS: usize = 64;
const HIGHEST_MAXIMUM: u32 = 999_999;

/// The book in these bytes, if header and records are as 01 says. The rules
/// between records are still to be checked.
pub fn decode(bytes: &[u8]) -> Result<Book, Fault> {
    let header = read_header(bytes)?;
    check_header(&header, bytes.len())?;
    let layout = Layout::of(header.counts);
    Ok(Book {
        codes: decode_codes(&bytes[layout.codes..layout.fields])?,
        fields: decode_fields(&bytes[layout.fields..layout.identifiers], header.counts)?,
        lines: decode_lines(&bytes[layout.lines..layout.codes], header.counts)?,
        identifiers: decode_identifiers(&bytes[layout.identifiers..layout.rows])?,
        rows: decode_rows(&bytes[layout.rows..layout.length], &header)?,
        conditions: header.condition_count,
        carrier: header.carrier,
    })
}

pub fn require(holds: bool, otherwise: Fault) -> Result<(), Fault> {
    if holds {
        Ok(())
    } else {
        Err(otherwise)
    }
}

fn number_at(bytes: &[u8], at: usize) -> u16 {
    u16::from_le_bytes([bytes[at], bytes[at + 1]])
}

fn long_number_at(bytes: &[u8], at: usize) -> u32 {
    u32::from_le_bytes([bytes[at], bytes[at + 1], bytes[at + 2], bytes[at + 3]])
}

fn is_zero(bytes: &[u8]) -> bool {
    bytes.iter().all(|&byte| byte == 0)
}

// The header.

struct Header {
    edition: usize,
    total_length: usize,
    counts: Counts,
    lines_offset: usize,
    codes_offset: usize,
    fields_offset: usize,
    identifiers_offset: usize,
    rows_offset: usize,
    condition_count: usize,
    carrier: usize,
    zero: usize,
}

/// "Header of 14 two-byte numbers: edition 1; total length; line count L, lines
/// offset; code count C, offset; field count F, offset; Prüfidentifikator count
/// P, offset; rows offset; condition count (0–64); number of the line that
/// carries the Prüfidentifikator; 0."
fn read_header(bytes: &[u8]) -> Result<Header, Fault> {
    require(bytes.len() >= HEADER_BYTES, Fault::HeaderCut)?;
    let number = |index: usize| usize::from(number_at(bytes, 2 * index));
    Ok(Header {
        edition: number(header::EDITION),
        total_length: number(header::TOTAL_LENGTH),
        counts: Counts {
            lines: number(header::LINE_COUNT),
            codes: number(header::CODE_COUNT),
            fields: number(header::FIELD_COUNT),
            identifiers: number(header::IDENTIFIER_COUNT),
        },
        lines_offset: number(header::LINES_OFFSET),
        codes_offset: number(header::CODES_OFFSET),
        fields_offset: number(header::FIELDS_OFFSET),
        identifiers_offset: number(header::IDENTIFIERS_OFFSET),
        rows_offset: number(header::ROWS_OFFSET),
        condition_count: number(header::CONDITION_COUNT),
        carrier: number(header::CARRIER),
        zero: number(header::ZERO),
    })
}

fn check_header(header: &Header, slice_length: usize) -> Result<(), Fault> {
    edition_is_1(header)?;
    line_count_is_2_to_256(header)?;
    there_is_an_identifier(header)?;
    condition_count_is_0_to_64(header)?;
    carrier_is_the_number_of_a_line(header)?;
    last_number_is_0(header)?;
    length_is_as_the_counts_say(header, slice_length)?;
    blocks_follow_without_gaps(header)
}

/// "edition 1"
fn edition_is_1(header: &Header) -> Result<(), Fault> {
    require(header.edition == 1, Fault::Edition)
}

/// "L is 2–256"
fn line_count_is_2_to_256(header: &Header) -> Result<(), Fault> {
    require((2..=256).contains(&header.counts.lines), Fault::LineCount)
}

/// "P at least 1"
fn there_is_an_identifier(header: &Header) -> Result<(), Fault> {
    require(header.counts.identifiers >= 1, Fault::IdentifierCount)
}

/// "condition count (0–64)"
fn condition_count_is_0_to_64(header: &Header) -> Result<(), Fault> {
    require(
        header.condition_count <= MOST_CONDITIONS,
        Fault::ConditionCount,
    )
}

/// "number of the line that carries the Prüfidentifikator"; "Lines count from 1."
fn carrier_is_the_number_of_a_line(header: &Header) -> Result<(), Fault> {
    require(
        (1..=header.counts.lines).contains(&header.carrier),
        Fault::CarrierNumber,
    )
}

/// The header's last number: "0."
fn last_number_is_0(header: &Header) -> Result<(), Fault> {
    require(header.zero == 0, Fault::HeaderZero)
}

/// "so the length is 28 + 20L + 8C + 12F + 8P + 8PL. It is at most 65,535 and
/// equals the slice's length." The formula is worked out wide: a sum that only
/// fits the header's two bytes after wrapping is over the limit.
fn length_is_as_the_counts_say(header: &Header, slice_length: usize) -> Result<(), Fault> {
    let length = Layout::of(header.counts).length;
    require(length <= LONGEST_BOOK, Fault::LengthLimit)?;
    require(header.total_length == length, Fault::TotalLength)?;
    require(slice_length == length, Fault::SliceLength)
}

/// "Blocks follow in this order without gaps." An empty block lies where it
/// would lie if it had records.
fn blocks_follow_without_gaps(header: &Header) -> Result<(), Fault> {
    let layout = Layout::of(header.counts);
    require(header.lines_offset == layout.lines, Fault::LinesOffset)?;
    require(header.codes_offset == layout.codes, Fault::CodesOffset)?;
    require(header.fields_offset == layout.fields, Fault::FieldsOffset)?;
    require(
        header.identifiers_offset == layout.identifiers,
        Fault::IdentifiersOffset,
    )?;
    require(header.rows_offset == layout.rows, Fault::RowsOffset)
}

// Ranges, in lines and in fields.

/// "Firsts count from 0; ranges stay inside their block; a count of 0 goes with
/// a first of 0." The two numbers stand at the beginning of these bytes.
fn decode_range(
    first_and_count: &[u8],
    block_count: usize,
    outside: Fault,
    first_of_none: Fault,
) -> Result<Range<usize>, Fault> {
    let first = usize::from(number_at(first_and_count, 0));
    let count = usize::from(number_at(first_and_count, 2));
    require(count > 0 || first == 0, first_of_none)?;
    require(first + count <= block_count, outside)?;
    Ok(first..first + count)
}

// Lines.

fn decode_lines(block: &[u8], counts: Counts) -> Result<Vec<Line>, Fault> {
    let (records, _) = block.as_chunks();
    records
        .iter()
        .map(|record| decode_line(record, counts))
        .collect()
}

fn decode_line(record: &[u8; LINE_BYTES], counts: Counts) -> Result<Line, Fault> {
    let codes = decode_range(
        &record[line::CODES..],
        counts.codes,
        Fault::LineCodesRange,
        Fault::LineCodesFirst,
    )?;
    let fields = decode_range(
        &record[line::FIELDS..],
        counts.fields,
        Fault::LineFieldsRange,
        Fault::LineFieldsFirst,
    )?;
    Ok(Line {
        depth: record[line::DEPTH],
        required: decode_required(record)?,
        maximum: decode_maximum(record)?,
        kind: decode_kind(record, codes, fields)?,
    })
}

/// "required 0/1"
fn decode_required(record: &[u8; LINE_BYTES]) -> Result<bool, Fault> {
    match record[line::REQUIRED] {
        0 => Ok(false),
        1 => Ok(true),
        _ => Err(Fault::RequiredFlag),
    }
}

/// "maximum (4), 1–999,999"
fn decode_maximum(record: &[u8; LINE_BYTES]) -> Result<u32, Fault> {
    let maximum = long_number_at(record, line::MAXIMUM);
    require((1..=HIGHEST_MAXIMUM).contains(&maximum), Fault::LineMaximum)?;
    Ok(maximum)
}

/// "kind (1 segment, 2 group)"
fn decode_kind(
    record: &[u8; LINE_BYTES],
    codes: Range<usize>,
    fields: Range<usize>,
) -> Result<Kind, Fault> {
    match record[line::KIND] {
        1 => Ok(Kind::Segment(SegmentLine {
            tag: decode_tag(record)?,
            selector: decode_selector(record, codes)?,
            fields,
        })),
        2 => {
            group_has_no_tag(record)?;
            group_has_nothing_of_a_segment(record, codes, fields)?;
            Ok(Kind::Group)
        }
        _ => Err(Fault::LineKind),
    }
}

/// "tag (3 of A–Z, 0–9 ..."
fn decode_tag(record: &[u8; LINE_BYTES]) -> Result<Tag, Fault> {
    let tag = [0, 1, 2].map(|place| record[line::TAG + place]);
    require(tag.into_iter().all(is_tag_byte), Fault::SegmentTag)?;
    Ok(tag)
}

/// "... zero for a group)"
fn group_has_no_tag(record: &[u8; LINE_BYTES]) -> Result<(), Fault> {
    require(is_zero(&record[line::TAG..line::REQUIRED]), Fault::GroupTag)
}

/// "A group has no selector, codes or fields."
fn group_has_nothing_of_a_segment(
    record: &[u8; LINE_BYTES],
    codes: Range<usize>,
    fields: Range<usize>,
) -> Result<(), Fault> {
    let selector = &record[line::SELECTOR_ELEMENT..=line::SELECTOR_COMPONENT];
    require(is_zero(selector), Fault::GroupSelector)?;
    require(codes.is_empty(), Fault::GroupCodes)?;
    require(fields.is_empty(), Fault::GroupFields)
}

/// "A selector has both numbers 1–255 and at least one code, or both 0 and no
/// code."
fn decode_selector(
    record: &[u8; LINE_BYTES],
    codes: Range<usize>,
) -> Result<Option<Selector>, Fault> {
    let element = record[line::SELECTOR_ELEMENT];
    let component = record[line::SELECTOR_COMPONENT];
    require((element == 0) == (component == 0), Fault::HalfSelector)?;
    if element == 0 {
        require(codes.is_empty(), Fault::CodesWithoutSelector)?;
        return Ok(None);
    }
    require(!codes.is_empty(), Fault::SelectorWithoutCodes)?;
    Ok(Some(Selector {
        element,
        component,
        codes,
    }))
}

// Codes.

fn decode_codes(block: &[u8]) -> Result<Vec<Code>, Fault> {
    let (records, _) = block.as_chunks();
    records.iter().map(decode_code).collect()
}

fn decode_code(record: &[u8; CODE_BYTES]) -> Result<Code, Fault> {
    let length = decode_code_length(record)?;
    let (text, tail) = record[code::TEXT..code::ZERO].split_at(length);
    code_has_only_code_bytes(text)?;
    code_is_zero_after_its_length(tail)?;
    code_ends_with_a_zero(record)?;
    Ok(text.to_vec())
}

/// "length 1–6"
fn decode_code_length(record: &[u8; CODE_BYTES]) -> Result<usize, Fault> {
    let length = usize::from(record[code::LENGTH]);
    require((1..=code::LONGEST).contains(&length), Fault::CodeLength)?;
    Ok(length)
}

/// "six bytes from A–Z, a–z, 0–9 and `.` ..."
fn code_has_only_code_bytes(text: &[u8]) -> Result<(), Fault> {
    let is_code_byte = |&byte: &u8| byte.is_ascii_alphanumeric() || byte == b'.';
    require(text.iter().all(is_code_byte), Fault::CodeByte)
}

/// "... zero after the length"
fn code_is_zero_after_its_length(tail: &[u8]) -> Result<(), Fault> {
    require(is_zero(tail), Fault::CodeTail)
}

/// "a zero."
fn code_ends_with_a_zero(record: &[u8; CODE_BYTES]) -> Result<(), Fault> {
    require(record[code::ZERO] == 0, Fault::CodeZero)
}

// Fields.

fn decode_fields(block: &[u8], counts: Counts) -> Result<Vec<Field>, Fault> {
    let (records, _) = block.as_chunks();
    records
        .iter()
        .map(|record| decode_field(record, counts))
        .collect()
}

fn decode_field(record: &[u8; FIELD_BYTES], counts: Counts) -> Result<Field, Fault> {
    field_has_a_place(record)?;
    field_ends_with_zeros(record)?;
    Ok(Field {
        element: record[field::ELEMENT],
        component: record[field::COMPONENT],
        presence: decode_presence(record)?,
        form: decode_form(record)?,
        longest: decode_longest(record)?,
        codes: decode_range(
            &record[field::CODES..],
            counts.codes,
            Fault::FieldCodesRange,
            Fault::FieldCodesFirst,
        )?,
    })
}

/// "element, component (both 1–255)"
fn field_has_a_place(record: &[u8; FIELD_BYTES]) -> Result<(), Fault> {
    require(record[field::ELEMENT] != 0, Fault::FieldElement)?;
    require(record[field::COMPONENT] != 0, Fault::FieldComponent)
}

/// "2 zeros."
fn field_ends_with_zeros(record: &[u8; FIELD_BYTES]) -> Result<(), Fault> {
    require(is_zero(&record[field::ZEROS..]), Fault::FieldZeros)
}

/// "presence (0 must be empty, 1 must have bytes, 2 may, 3 must if any component
/// of its element has bytes)"
fn decode_presence(record: &[u8; FIELD_BYTES]) -> Result<Presence, Fault> {
    match record[field::PRESENCE] {
        0 => Ok(Presence::MustBeEmpty),
        1 => Ok(Presence::MustHaveBytes),
        2 => Ok(Presence::MayHaveBytes),
        3 => Ok(Presence::MustIfItsElementHasBytes),
        _ => Err(Fault::FieldPresence),
    }
}

/// "form (1 an, 2 n)"
fn decode_form(record: &[u8; FIELD_BYTES]) -> Result<Form, Fault> {
    match record[field::FORM] {
        1 => Ok(Form::Alphanumeric),
        2 => Ok(Form::Numeric),
        _ => Err(Fault::FieldForm),
    }
}

/// "longest (2), at least 1"
fn decode_longest(record: &[u8; FIELD_BYTES]) -> Result<u16, Fault> {
    let longest = number_at(record, field::LONGEST);
    require(longest >= 1, Fault::FieldLongest)?;
    Ok(longest)
}

// Prüfidentifikatoren.

fn decode_identifiers(block: &[u8]) -> Result<Vec<Identifier>, Fault> {
    let (records, _) = block.as_chunks();
    records.iter().map(decode_identifier).collect()
}

/// "five digits, three zeros"
fn decode_identifier(record: &[u8; IDENTIFIER_BYTES]) -> Result<Identifier, Fault> {
    let digits = [0, 1, 2, 3, 4].map(|place| record[identifier::DIGITS + place]);
    require(
        digits.iter().all(u8::is_ascii_digit),
        Fault::IdentifierDigit,
    )?;
    require(
        is_zero(&record[identifier::ZEROS..]),
        Fault::IdentifierZeros,
    )?;
    Ok(digits)
}

// Rows.

/// "one per Prüfidentifikator and line, lines running fastest"
fn decode_rows(block: &[u8], header: &Header) -> Result<Vec<Vec<Row>>, Fault> {
    let (records, _) = block.as_chunks();
    records
        .chunks(header.counts.lines)
        .map(|of_identifier| decode_rows_of_identifier(of_identifier, header.condition_count))
        .collect()
}

fn decode_rows_of_identifier(
    records: &[[u8; ROW_BYTES]],
    condition_count: usize,
) -> Result<Vec<Row>, Fault> {
    records
        .iter()
        .map(|record| decode_row(record, condition_count))
        .collect()
}

/// "Modes: 0 never, 1 must, 2 may, 3 must if the expression holds and otherwise
/// never, 4 may if it holds and otherwise never."
fn decode_row(record: &[u8; ROW_BYTES], condition_count: usize) -> Result<Row, Fault> {
    match record[row::MODE] {
        0 => plain_row(record, Row::Never),
        1 => plain_row(record, Row::Must),
        2 => plain_row(record, Row::May),
        3 => decode_expression(record, condition_count).map(Row::MustIf),
        4 => decode_expression(record, condition_count).map(Row::MayIf),
        _ => Err(Fault::RowMode),
    }
}

/// "Modes 0–2 have zeros elsewhere."
fn plain_row(record: &[u8; ROW_BYTES], plain: Row) -> Result<Row, Fault> {
    require(is_zero(&record[row::JOINT..]), Fault::PlainRow)?;
    Ok(plain)
}

fn decode_expression(
    record: &[u8; ROW_BYTES],
    condition_count: usize,
) -> Result<Expression, Fault> {
    row_ends_with_zeros(record)?;
    let conditions = decode_conditions(record)?;
    condition_numbers_are_1_to_the_count(&conditions, condition_count)?;
    condition_numbers_rise(&conditions)?;
    let joint = decode_joint(record)?;
    joint_of_one_is_all(joint, &conditions)?;
    Ok(Expression { joint, conditions })
}

/// "3 zeros."
fn row_ends_with_zeros(record: &[u8; ROW_BYTES]) -> Result<(), Fault> {
    require(is_zero(&record[row::ZEROS..]), Fault::RowZeros)
}

/// "Modes 3 and 4 have one to three conditions ..., unused bytes zero and last"
fn decode_conditions(record: &[u8; ROW_BYTES]) -> Result<Vec<Condition>, Fault> {
    let bytes = &record[row::CONDITIONS..row::ZEROS];
    require(!is_zero(bytes), Fault::NoCondition)?;
    let used = bytes.iter().take_while(|&&byte| byte != 0).count();
    require(is_zero(&bytes[used..]), Fault::ConditionGap)?;
    Ok(bytes[..used]
        .iter()
        .copied()
        .map(decode_condition)
        .collect())
}

/// "a byte is the number, plus 128 for \"not\""
fn decode_condition(byte: u8) -> Condition {
    Condition {
        number: byte % row::NOT,
        negated: byte >= row::NOT,
    }
}

/// "numbers at least 1"; "numbers reach the condition count at most"
fn condition_numbers_are_1_to_the_count(
    conditions: &[Condition],
    condition_count: usize,
) -> Result<(), Fault> {
    let numbers = || conditions.iter().map(|condition| condition.number);
    require(numbers().all(|number| number >= 1), Fault::ConditionZero)?;
    require(
        numbers().all(|number| usize::from(number) <= condition_count),
        Fault::ConditionOverCount,
    )
}

/// "rising strictly": by their numbers, whether negated or not.
fn condition_numbers_rise(conditions: &[Condition]) -> Result<(), Fault> {
    let rises = |pair: &[Condition]| pair[0].number < pair[1].number;
    require(conditions.windows(2).all(rises), Fault::ConditionsRise)
}

/// "Joint 1 is all, 2 is any ..."
fn decode_joint(record: &[u8; ROW_BYTES]) -> Result<Joint, Fault> {
    match record[row::JOINT] {
        1 => Ok(Joint::All),
        2 => Ok(Joint::Any),
        _ => Err(Fault::Joint),
    }
}

/// "... with one condition it is 1."
fn joint_of_one_is_all(joint: Joint, conditions: &[Condition]) -> Result<(), Fault> {
    require(
        conditions.len() > 1 || joint == Joint::All,
        Fault::JointOfOne,
    )
}
