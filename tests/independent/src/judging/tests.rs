//! The judge against 01's own messages, at its limits, and against the plain
//! judge by all fillings; the message alone against both.

use super::damage::damage;
use super::fitting::{fitting_message, livable_book, write_message, Purpose};
use super::message::judge_message;
use super::plain::judge_by_fillings;
use super::*;
use crate::book::edit::{insert_line, optional_line, smallest_book};
use crate::book::encode::encode;
use crate::book::{Condition, Expression, Field, Form, Joint, Presence, Row};
use crate::breaking::{damage_bytes, put_needless_separator};
use crate::enumeration::{for_each_text, ALPHABET};
use crate::envelope::{for_each_byte, for_each_closing, for_each_envelope};
use crate::needless::{needless_at, Causes};
use crate::random::Random;
use crate::reading::{read_message, read_segments};

const BOOK_K: &[u8] = include_bytes!("../../../../books/k.bin");
const SECOND_BOOK: &[u8] = include_bytes!("../../../../books/second.bin");
const HEAD: &str = "UNH+1'BGM+7'RFF+Z13:10001'";
const FALSE: u8 = 0;
const TRUE: u8 = 1;
const CANARY: u32 = 0xA5A5_A5A5;

/// The record over tables that are long enough, which must be as 01 says.
fn judged(message: &[u8], book: &[u8], conditions: &[u8]) -> Record {
    let length = message.iter().filter(|byte| **byte == b'\'').count() + 2;
    let mut tables = [(); 3].map(|()| vec![CANARY; length]);
    let [starts, homes, parents] = &mut tables;
    let record = judge(message, book, conditions, starts, homes, parents);
    let written = match record.number {
        1..=11 => 0,
        _ => Segments::of(message).count(),
    };
    for table in &tables {
        assert!(table[..written].iter().all(|entry| *entry != CANARY));
        assert!(table[written..].iter().all(|entry| *entry == CANARY));
    }
    record
}

fn judged_by_k(message: &str, condition: u8) -> Record {
    judged(message.as_bytes(), BOOK_K, &[condition])
}

/// For a tail after the head, and for every condition.
fn assert_always(tail: &str, expected: Record) {
    for condition in [FALSE, TRUE, UNKNOWN] {
        assert_eq!(judged_by_k(&format!("{HEAD}{tail}"), condition), expected);
    }
}

fn broken(line: u32, place: usize) -> Record {
    Record {
        line,
        ..Record::at(14, place)
    }
}

fn open(line: u32, place: usize, condition: u32) -> Record {
    Record {
        line,
        condition,
        ..Record::at(15, place)
    }
}

fn field_fault(place: usize, line: u32, element: u32, component: u32) -> Record {
    Record {
        line,
        element,
        component,
        ..Record::at(12, place)
    }
}

// 01, "Bench messages".

#[test]
fn the_closing_segment_of_the_bench_messages() {
    assert_always("UNT+4+1'", Record::at(0, 4));
    assert_always("UNT+5+1'", Record::at(8, 4));
    assert_always("UNT+5+2'", Record::at(8, 4));
    assert_always("UNT+4+2'", Record::at(9, 4));
}

#[test]
fn the_rows_of_the_bench_messages() {
    let judge = |tail: &str, condition| judged_by_k(&format!("{HEAD}{tail}"), condition);
    let with_quantity = "LIN+1'QTY+145:5'UNT+6+1'";
    assert_eq!(judge(with_quantity, TRUE), Record::at(0, 6));
    assert_eq!(judge(with_quantity, FALSE), broken(6, 5));
    assert_eq!(judge(with_quantity, UNKNOWN), open(6, 5, 1));
    let without = "LIN+1'UNT+5+1'";
    assert_eq!(judge(without, TRUE), broken(6, 4));
    assert_eq!(judge(without, FALSE), Record::at(0, 5));
    assert_eq!(judge(without, UNKNOWN), open(6, 4, 1));
    let both = "LIN+1'QTY+145:5'LIN+2'UNT+7+1'";
    assert_eq!(judge(both, TRUE), broken(6, 6));
    assert_eq!(judge(both, FALSE), broken(6, 5));
    assert_eq!(judge(both, UNKNOWN), open(6, 5, 1));
}

#[test]
fn the_order_and_the_fields_of_the_bench_messages() {
    assert_always("LIN+1'LIN+2'LIN+3'UNT+7+1'", Record::at(11, 6));
    assert_always("QTY+145:5'LIN+1'UNT+6+1'", Record::at(11, 4));
    assert_always("LIN+1,5'UNT+5+1'", field_fault(4, 5, 1, 1));
    for condition in [FALSE, TRUE, UNKNOWN] {
        let without_reference = judged_by_k("UNH+1'BGM+7'UNT+3+1'", condition);
        assert_eq!(without_reference, Record::at(11, 3));
    }
}

#[test]
fn the_bytes_of_the_bench_messages() {
    for condition in [FALSE, TRUE, UNKNOWN] {
        assert_eq!(judged_by_k("", condition), Record::new(3));
        assert_eq!(judged_by_k("UNH+1", condition), Record::at(4, 5));
        assert_eq!(judged_by_k("UNH+1?A'", condition), Record::at(4, 6));
    }
}

/// "65,544 segments ending in `UNT+8+1'`, envelope good: 8."
#[test]
fn a_count_of_16_bits_is_too_narrow() {
    let message = format!("UNH+1'{}UNT+8+1'", "LIN+1'".repeat(65_542));
    assert_eq!(judged_by_k(&message, TRUE), Record::at(8, 65_544));
}

#[test]
fn a_bench_message_writes_its_tables() {
    let message = format!("{HEAD}LIN+1'QTY+145:5'LIN+2'UNT+7+1'");
    for condition in [FALSE, TRUE, UNKNOWN] {
        let [mut starts, mut homes, mut parents] = [[CANARY; 8], [CANARY; 8], [CANARY; 8]];
        judge(
            message.as_bytes(),
            BOOK_K,
            &[condition],
            &mut starts,
            &mut homes,
            &mut parents,
        );
        assert_eq!(starts, [0, 6, 12, 26, 32, 42, 48, CANARY]);
        assert_eq!(homes, [1, 2, 3, 5, 6, 5, 7, CANARY]);
        assert_eq!(parents, [0, 0, 0, 0, 4, 0, 0, CANARY]);
    }
}

// Numbers in their order, and their limits.

#[test]
fn each_number_comes_before_the_next() {
    let good = format!("{HEAD}UNT+4+1'");
    let malformed = &BOOK_K[..339];
    assert_eq!(judged(b"", malformed, &[3, 3]), Record::new(1));
    for conditions in [&[][..], &[0, 0], &[3], &[255]] {
        assert_eq!(judged(b"", BOOK_K, conditions), Record::new(2));
    }
    let too_long = vec![b'\n'; LONGEST_MESSAGE + 1];
    assert_eq!(judged(&too_long, BOOK_K, &[0]), Record::new(3));
    let longest = &too_long[..LONGEST_MESSAGE];
    assert_eq!(judged(longest, BOOK_K, &[0]), Record::at(4, 0));
    assert_eq!(judged_by_k(&format!("{good}\n"), TRUE), Record::at(4, 34));
    assert_eq!(judged_by_k(&good, TRUE), Record::at(0, 4));
}

#[test]
fn number_4_has_the_place_of_the_first_byte_too_many() {
    let place = |message: &[u8]| {
        let record = judged(message, BOOK_K, &[0]);
        assert_eq!(record, Record::at(4, record.place as usize));
        record.place
    };
    assert_eq!(place(b"U"), 1);
    assert_eq!(place(b"UN+"), 2);
    assert_eq!(place(b"UNH"), 3);
    assert_eq!(place(b"UNHX"), 3);
    assert_eq!(place(b"unh'"), 0);
    assert_eq!(place(b"UNH+\x7F'"), 4);
    assert_eq!(place(b"UNH+\x9F'"), 4);
    assert_eq!(place(b"UNH+\xA0'\r\n"), 6);
    assert_eq!(place(b"UNH+?'"), 6);
    assert_eq!(place(b"UNH+?"), 5);
    assert_eq!(place(b"UNH+1'?"), 6);
    assert_eq!(judged(b"UNH+1??'", BOOK_K, &[0]), Record::at(7, 1));
}

/// T-05: in each segment, and before every number after 4.
#[test]
fn number_4_has_the_place_after_a_needless_separator() {
    for (message, place) in [
        ("UNH+'BGM+7'RFF+Z13:10001'UNT+4'", 4),
        ("UNH+1:'BGM+7'RFF+Z13:10001'UNT+4+1'", 6),
        ("UNH+1'BGM+7+'RFF+Z13:10001'UNT+4+1'", 12),
        ("UNH+1'BGM+7'RFF+Z13:10001:'UNT+4+1'", 26),
        ("UNH+1'BGM+7'RFF+Z13:+10001'UNT+4+1'", 20),
        ("UNH+1'BGM+7'RFF+Z13:10001'UNT+4+1+'", 34),
        ("UNH+1'BGM+7'RFF+Z13:10001'UNT+4+1:'", 34),
        ("UNH+1'BGM+7'RFF+Z13:10001'UNT+4:+1'", 32),
        ("UNH+1'BGM+7'RFF+Z13:10001'UNT+4+'", 32),
        ("UNH+1'XYZ+'", 10),
    ] {
        for condition in [FALSE, TRUE, UNKNOWN] {
            let record = judged_by_k(message, condition);
            assert_eq!(record, Record::at(4, place), "{message}");
        }
    }
    let released = "UNH+?:'BGM+7'RFF+:10001'UNT+4+?:'";
    assert_eq!(judged_by_k(released, TRUE), Record::at(0, 4));
}

fn book_with_many(maximum: u32) -> Vec<u8> {
    let mut book = check(BOOK_K).expect("a good book");
    book.lines[3].maximum = maximum;
    encode(&book)
}

#[test]
fn segments_are_counted_up_to_the_limit() {
    let book = book_with_many(999_999);
    let message = |positions: usize| {
        let positions_text = "LIN+1'".repeat(positions);
        format!("{HEAD}{positions_text}UNT+{}+1'", positions + 4)
    };
    let most = message(MOST_SEGMENTS - 4);
    assert_eq!(
        judged(most.as_bytes(), &book, &[FALSE]),
        Record::at(0, 999_999)
    );
    assert_eq!(
        judged(most.as_bytes(), &book, &[TRUE]),
        broken(6, 4),
        "the first position lacks its quantity"
    );
    assert_eq!(
        judged(most.as_bytes(), BOOK_K, &[TRUE]),
        Record::at(11, 6),
        "no more than two positions"
    );
    let over = message(MOST_SEGMENTS - 3);
    assert_eq!(judged(over.as_bytes(), &book, &[FALSE]), Record::new(5));
    let broken_off = &over.as_bytes()[..over.len() - 1];
    let place = broken_off.len();
    assert_eq!(judged(broken_off, &book, &[FALSE]), Record::at(4, place));
}

#[test]
fn every_table_needs_room_for_every_segment() {
    let message = format!("{HEAD}UNT+5+1'");
    for lengths in [[3, 4, 4], [4, 3, 4], [4, 4, 3], [0, 0, 0], [3, 9, 9]] {
        let mut tables = lengths.map(|length| vec![CANARY; length]);
        let [starts, homes, parents] = &mut tables;
        let record = judge(message.as_bytes(), BOOK_K, &[0], starts, homes, parents);
        assert_eq!(record, Record::at(6, 4));
        assert!(tables.iter().flatten().all(|entry| *entry == CANARY));
    }
}

#[test]
fn the_envelope_is_first_and_last_and_nowhere_else() {
    let place = |message: &str| {
        let record = judged_by_k(message, TRUE);
        assert_eq!(record, Record::at(7, record.place as usize), "{message}");
        record.place
    };
    assert_eq!(place("UNH+1'"), 1);
    assert_eq!(place("UNT+1'"), 1);
    assert_eq!(place("BGM+1'UNT+2'"), 1);
    assert_eq!(place("UNH+1'BGM+7'"), 2);
    assert_eq!(place("UNH+1'UNH+1'UNT+3+1'"), 2);
    assert_eq!(place("UNH+1'BGM'UNT+3+1'UNT+4+1'"), 3);
    assert_eq!(place("UNT+1'UNH+1'"), 1);
    assert_eq!(judged_by_k("UNH+1'UNT+2+1'", TRUE), Record::at(11, 2));
}

#[test]
fn count_and_reference_are_compared_by_value() {
    for count in ["", "04", "4 ", "-4", "?+4", "4?'", "5", "65540"] {
        assert_always(&format!("UNT+{count}+1'"), Record::at(8, 4));
    }
    assert_always("UNT+4'", Record::at(9, 4));
    assert_always("UNT+4:9+1'", field_fault(4, 7, 1, 2));
    assert_always("UNT+4+1:2'", field_fault(4, 7, 2, 2));
    let without = "UNH'BGM+7'RFF+Z13:10001'UNT+4'";
    assert_eq!(judged_by_k(without, TRUE), field_fault(1, 1, 1, 1));
    let released = "UNH+?+1'BGM+7'RFF+Z13:10001'UNT+4+?+1'";
    assert_eq!(judged_by_k(released, TRUE), Record::at(0, 4));
}

#[test]
fn a_segment_without_a_home_comes_before_the_order() {
    assert_always("QTY+1:1'LIN+1'UNS'UNS'UNT+8+1'", Record::at(10, 6));
}

#[test]
fn the_identifier_is_element_1_component_2() {
    for identifier in ["10002", "1000", "100010", "?+1000", "1000?+", "10001 ", "A"] {
        let message = format!("UNH+1'BGM+7'RFF+Z13:{identifier}'UNT+4+1'");
        assert_eq!(judged_by_k(&message, TRUE), Record::at(13, 3));
        let message = format!("UNH+1'BGM+7'RFF+Z13:{identifier}'LIN+1'UNT+5+1'");
        assert_eq!(judged_by_k(&message, TRUE), Record::at(13, 3), "before 14");
        let message = format!("UNH+1'BGM+7'RFF+Z13:{identifier}'UNT+4+1+X'");
        let fault = field_fault(4, 7, 3, 1);
        assert_eq!(judged_by_k(&message, TRUE), fault, "12 before 13");
    }
    let without_qualifier = "UNH+1'BGM+7'RFF+:10001'UNT+4+1'";
    assert_eq!(judged_by_k(without_qualifier, TRUE), Record::at(0, 4));
    let missing = "UNH+1'BGM+7'RFF+Z13'UNT+4+1'";
    assert_eq!(judged_by_k(missing, TRUE), field_fault(3, 3, 1, 2));
}

// The message alone.

/// The quick judge of the message alone, the plain one and the judge of the
/// whole must agree. Answers what they say.
fn alone(message: &[u8], shortest_table: usize) -> Record {
    let record = judge_message(message, shortest_table);
    let (segments, fault) = read_segments(message);
    let plain = plain::judge_message(message, &segments, fault, shortest_table);
    assert_eq!(record, plain, "{}", message.escape_ascii());
    let mut tables = [(); 3].map(|()| vec![CANARY; shortest_table]);
    let [starts, homes, parents] = &mut tables;
    let whole = judge(message, BOOK_K, &[0], starts, homes, parents);
    match record.number {
        0 => assert!(whole.number == 0 || whole.number > 9),
        _ => assert_eq!(record, whole, "{}", message.escape_ascii()),
    }
    record
}

#[test]
fn the_message_alone_has_numbers_3_to_9() {
    for (message, record) in [
        ("", Record::new(3)),
        ("UNH+1", Record::at(4, 5)),
        ("UNH+1?A'", Record::at(4, 6)),
        ("UNH+1'UNT+2+1'\n", Record::at(4, 14)),
        ("UNH+1'UNT+2+1:'", Record::at(4, 14)),
        ("UNH+1'UNT+2:+1'", Record::at(4, 12)),
        ("UNH+1'UNS+'UNT+3+1'", Record::at(4, 10)),
        ("UNH+1'UNT+2+", Record::at(4, 12)),
        ("UNH+1'BGM'BGM'BGM'UNT+5+1'", Record::at(6, 5)),
        ("UNH+1'", Record::at(7, 1)),
        ("UNH+1'UNT+2+1'UNT+3+1'", Record::at(7, 2)),
        ("UNH+?'UNT+2+1'", Record::at(7, 1)),
        ("UNH+1'UNT+02+1'", Record::at(8, 2)),
        ("UNH+1'UNT+3+2'", Record::at(8, 2)),
        ("UNH+1'UNT+2'", Record::at(9, 2)),
        ("UNH+??'UNT+2+??'", Record::at(0, 2)),
        ("UNH'UNT+2'", Record::at(0, 2)),
        ("UNH+1:2'FTX+?''UNT+3:0+1+3'", Record::at(0, 3)),
    ] {
        assert_eq!(alone(message.as_bytes(), 4), record, "{message}");
    }
}

#[test]
fn the_message_alone_has_its_limits() {
    let message = |n: usize, count: usize| format!("UNH+1'{}UNT+{count}+1'", "UNS'".repeat(n - 2));
    let judged = |message: &str| alone(message.as_bytes(), MOST_SEGMENTS);
    assert_eq!(judged(&message(65_544, 8)), Record::at(8, 65_544));
    assert_eq!(judged(&message(70_000, 70_000)), Record::at(0, 70_000));
    let most = message(MOST_SEGMENTS, MOST_SEGMENTS);
    assert_eq!(judged(&most), Record::at(0, MOST_SEGMENTS));
    let over = message(MOST_SEGMENTS + 1, MOST_SEGMENTS + 1);
    assert_eq!(judged(&over), Record::new(5));
    let around = "UNH+1'FTX+'UNT+3+1'".len();
    let filled = |length: usize| format!("UNH+1'FTX+{}'UNT+3+1'", "7".repeat(length - around));
    assert_eq!(judged(&filled(LONGEST_MESSAGE)), Record::at(0, 3));
    assert_eq!(judged(&filled(LONGEST_MESSAGE + 1)), Record::new(3));
}

#[test]
fn the_judges_of_the_message_alone_agree() {
    let mut met = [0; 10];
    let mut compare = |text: &[u8], table: usize| met[alone(text, table).number as usize] += 1;
    for beginning in ["", "UNH", "UNH+1'UNT+2+1"] {
        let beginning = beginning.as_bytes();
        for_each_text(&ALPHABET, beginning, 5, &mut |text| compare(text, 12));
    }
    for_each_envelope(2, &mut |text| compare(text, 12));
    for_each_envelope(2, &mut |text| compare(text, 3));
    for_each_closing(&mut |text| compare(text, 12));
    for_each_byte(&mut |text| compare(text, 12));
    for number in [0, 4, 6, 7, 8, 9] {
        assert!(met[number] >= 1_000, "number {number}: {met:?}");
    }
}

// Fields.

/// UNH, a line AAA with these fields, and UNT.
fn book_with_fields(fields: Vec<Field>, codes: &[&str]) -> Vec<u8> {
    let mut book = smallest_book();
    insert_line(&mut book, 1, optional_line(*b"AAA", 0));
    book.codes = codes.iter().map(|code| code.as_bytes().to_vec()).collect();
    let count = fields.len();
    book.fields = fields;
    for place in [(1, 1), (1, 2), (1, 1), (2, 1)] {
        book.fields.push(crate::book::edit::plain_field(place));
    }
    let ranges = [count..count + 2, 0..count, count + 2..count + 4];
    for (line, range) in book.lines.iter_mut().zip(ranges) {
        line.segment_mut().expect("a segment line").fields = range;
    }
    let bytes = encode(&book);
    assert!(check(&bytes).is_ok());
    bytes
}

fn field(element: u8, component: u8, presence: Presence) -> Field {
    Field {
        element,
        component,
        presence,
        form: Form::Alphanumeric,
        longest: 5,
        codes: 0..0,
    }
}

/// The place at fault of a segment AAA with these elements, (0, 0) if none is.
fn place_at_fault(book: &[u8], elements: &str) -> (u32, u32) {
    let message = format!("UNH+1:10001'AAA{elements}'UNT+3+1'");
    let record = judged(message.as_bytes(), book, &[]);
    match record.number {
        0 => (0, 0),
        _ => {
            assert_eq!(
                record,
                field_fault(2, 2, record.element, record.component),
                "{elements}"
            );
            (record.element, record.component)
        }
    }
}

#[test]
fn presence_speaks_of_its_component_and_element() {
    use Presence::*;
    let book = book_with_fields(
        vec![
            field(1, 2, MustIfItsElementHasBytes),
            field(2, 1, MustBeEmpty),
            field(2, 2, MayHaveBytes),
            field(3, 1, MustIfItsElementHasBytes),
            field(3, 3, MustIfItsElementHasBytes),
            field(4, 1, MustHaveBytes),
        ],
        &[],
    );
    for (elements, place) in [
        ("++++A", (0, 0)),
        ("", (4, 1)),
        ("++:A", (4, 1)),
        ("++++:A", (4, 1)),
        ("+A+++A", (1, 1)),
        ("+:A+++A", (0, 0)),
        ("+::A+++A", (1, 2)),
        ("++A++A", (2, 1)),
        ("++:A++A", (0, 0)),
        ("++::A++A", (2, 3)),
        ("+++A+A", (3, 3)),
        ("+++::A+A", (3, 1)),
        ("+++:A+A", (3, 1)),
        ("+++A::A+A", (0, 0)),
        ("+++A::A::A+A", (3, 5)),
        ("++++A++A", (6, 1)),
        ("+++A", (3, 3)),
        ("+?:", (1, 1)),
        ("+:?:+++A", (0, 0)),
    ] {
        assert_eq!(place_at_fault(&book, elements), place, "AAA{elements}'");
    }
    let far = format!("{}A", "+".repeat(257));
    assert_eq!(place_at_fault(&book, &format!("++++A{far}")), (261, 1));
    let far = format!("++++A{}A", ":".repeat(256));
    assert_eq!(place_at_fault(&book, &far), (4, 257));
    let aliases_1_2 = format!("++++A+{}A", "+".repeat(252));
    assert_eq!(place_at_fault(&book, &aliases_1_2), (257, 1));
}

#[test]
fn form_length_and_codes_are_of_the_value() {
    let numeric = Field {
        form: Form::Numeric,
        longest: 3,
        ..field(1, 1, Presence::MayHaveBytes)
    };
    let book = book_with_fields(vec![numeric.clone()], &[]);
    assert_eq!(place_at_fault(&book, ""), (0, 0));
    for good in ["0", "-1", "123", "-123", "12.3", "-1.23", "0.00"] {
        assert_eq!(place_at_fault(&book, &format!("+{good}")), (0, 0), "{good}");
    }
    for bad in [
        "-", ".", "1.", ".1", "-.1", "-1.", "--1", "1-", "1.1.", "1.1.1", "1..1", "1234", "-12.34",
        "1,5", " 1", "A", "?+1", "1?'", "1??",
    ] {
        assert_eq!(place_at_fault(&book, &format!("+{bad}")), (1, 1), "{bad}");
    }
    let book = book_with_fields(vec![field(1, 1, Presence::MayHaveBytes)], &[]);
    for good in ["12345", "-1234", "1?+?'?:??", "??????????"] {
        assert_eq!(place_at_fault(&book, &format!("+{good}")), (0, 0), "{good}");
    }
    for bad in ["123456", "-12345", "1?+?'?:??0"] {
        assert_eq!(place_at_fault(&book, &format!("+{bad}")), (1, 1), "{bad}");
    }
    let coded = Field {
        codes: 0..4,
        ..numeric
    };
    let book = book_with_fields(vec![coded], &["1", "AB", "2.5", "1234"]);
    for good in ["1", "2.5"] {
        assert_eq!(place_at_fault(&book, &format!("+{good}")), (0, 0), "{good}");
    }
    for bad in ["AB", "1234", "2", "25", "1.0", "-1"] {
        assert_eq!(place_at_fault(&book, &format!("+{bad}")), (1, 1), "{bad}");
    }
}

#[test]
fn a_line_without_fields_allows_no_bytes() {
    let book = book_with_fields(Vec::new(), &[]);
    assert_eq!(place_at_fault(&book, ""), (0, 0));
    assert_eq!(place_at_fault(&book, "+++:A"), (3, 2));
}

// Rows.

fn expression(joint: Joint, conditions: &[(u8, bool)]) -> Expression {
    let condition = |(number, negated): &(u8, bool)| Condition {
        number: *number,
        negated: *negated,
    };
    Expression {
        joint,
        conditions: conditions.iter().map(condition).collect(),
    }
}

#[test]
fn a_row_is_open_only_if_fillings_differ() {
    use rules::outcome;
    use Outcome::*;
    let lowest = |lowest_unknown| Open { lowest_unknown };
    let all = expression(Joint::All, &[(1, false), (2, true), (3, false)]);
    let any = expression(Joint::Any, &[(1, false), (2, true), (3, false)]);
    let must_all = Row::MustIf(all.clone());
    let may_all = Row::MayIf(all);
    let must_any = Row::MustIf(any.clone());
    let may_any = Row::MayIf(any);
    for (row, is_present, conditions, expected) in [
        (&must_all, true, [1, 0, 1], Kept),
        (&must_all, false, [1, 0, 1], Broken),
        (&must_all, true, [2, 1, 2], Broken),
        (&must_all, false, [2, 1, 2], Kept),
        (&must_all, true, [1, 2, 1], lowest(2)),
        (&must_all, false, [1, 2, 2], lowest(2)),
        (&must_all, true, [2, 2, 2], lowest(1)),
        (&may_all, true, [2, 0, 0], Broken),
        (&may_all, true, [1, 0, 2], lowest(3)),
        (&may_all, false, [2, 2, 2], Kept),
        (&must_any, true, [2, 0, 2], Kept),
        (&must_any, false, [2, 0, 2], Broken),
        (&must_any, true, [0, 2, 0], lowest(2)),
        (&may_any, true, [0, 1, 0], Broken),
        (&may_any, true, [0, 1, 2], lowest(3)),
        (&may_any, false, [0, 1, 2], Kept),
        (&Row::Never, true, [2, 2, 2], Broken),
        (&Row::Never, false, [2, 2, 2], Kept),
        (&Row::Must, false, [2, 2, 2], Broken),
        (&Row::Must, true, [2, 2, 2], Kept),
        (&Row::May, true, [2, 2, 2], Kept),
        (&Row::May, false, [2, 2, 2], Kept),
    ] {
        let found = outcome(row, is_present, &conditions);
        assert_eq!(found, expected, "{row:?} {is_present} {conditions:?}");
    }
}

/// Second book, identifier 13009: SG5 may if [2] and [3] and [4]; RFF must if
/// not [2] or not [3] or [4].
#[test]
fn a_row_speaks_of_the_instances_of_its_parent() {
    let delivery_point = "NAD+DP'LOC+172'";
    let order = "RFF+AAV:1'";
    let head = "UNH+1+MSCONS::::2.4c'BGM+7+1'NAD+MS+1::9'RFF+Z13:13009'";
    let judge = |tail: &str, conditions: &[u8; 6]| {
        let n = tail.matches('\'').count() + 5;
        let message = format!("{head}{tail}UNT+{n}+1'");
        judged(message.as_bytes(), SECOND_BOOK, conditions)
    };
    let both = format!("{delivery_point}{order}{delivery_point}{order}");
    let first = format!("{delivery_point}{order}{delivery_point}");
    let second = format!("{delivery_point}{delivery_point}{order}");
    let must = [0, 0, 0, 0, 0, 0];
    let never = [0, 1, 1, 0, 0, 0];
    let unknown = [2, 1, 1, 2, 2, 2];
    assert_eq!(judge(&both, &must), Record::at(0, 11));
    assert_eq!(judge(&first, &must), broken(22, 8));
    assert_eq!(judge(&second, &must), broken(22, 5));
    assert_eq!(judge(&both, &never), broken(22, 7));
    assert_eq!(judge(&second, &never), broken(22, 9));
    assert_eq!(judge(&second, &unknown), open(22, 5, 4));
    assert_eq!(judge(&both, &unknown), open(22, 7, 4));
    assert_eq!(judge("", &must), broken(7, 1), "no delivery point at all");
}

// Against the plain judge.

fn any_conditions(random: &mut Random, filling: &[u8]) -> Vec<u8> {
    let unknown_percent = random.pick(&[0, 10, 40, 100]);
    let change = |byte: &u8| match () {
        () if random.chance(unknown_percent) => UNKNOWN,
        () if random.chance(5) => 1 - byte,
        () => *byte,
    };
    filling.iter().map(change).collect()
}

#[test]
fn agrees_with_the_plain_judge_by_all_fillings() {
    let mut random = Random::from_seed(15);
    let mut met = [0; 16];
    let mut needless = Causes::default();
    for _ in 0..1_200 {
        let most_lines = random.pick(&[4, 8, 12, 20]);
        let book = livable_book(&mut random, most_lines);
        let bytes = encode(&book);
        for _ in 0..12 {
            let filling: Vec<u8> = (0..book.conditions)
                .map(|_| random.below(2) as u8)
                .collect();
            let purpose = Purpose {
                book: &book,
                identifier: random.below(book.identifiers.len()),
                filling: &filling,
                wanted: random.pick(&[3, 8, 20]),
                careless: random.pick(&[0, 0, 10]),
            };
            let mut drafts = fitting_message(&mut random, &purpose);
            for _ in 0..random.pick(&[0, 0, 1, 2]) {
                damage(&mut random, &book, &mut drafts);
            }
            let mut message = write_message(&drafts);
            assert!(read_message(&message).is_ok(), "only bytes are broken");
            if random.chance(5) {
                damage_bytes(&mut random, &mut message);
            }
            if random.chance(5) {
                put_needless_separator(&mut random, &mut message);
            }
            let conditions = any_conditions(&mut random, &filling);
            let record = judged(&message, &bytes, &conditions);
            let Some(plain) = judge_by_fillings(&message, &bytes, &conditions, usize::MAX) else {
                continue;
            };
            met[record.number as usize] += 1;
            if record.number == 4 {
                let cause = needless_at(&message, record.place as usize);
                cause.into_iter().for_each(|cause| needless.add(cause));
            }
            assert_eq!(
                record,
                plain,
                "{} {conditions:?} {book:?}",
                message.escape_ascii()
            );
        }
    }
    for number in [0, 4, 7, 8, 9, 10, 11, 12, 13, 14, 15] {
        assert!(met[number] >= 50, "number {number}: {met:?}");
    }
    assert_eq!(needless.first_below(10), None);
}
