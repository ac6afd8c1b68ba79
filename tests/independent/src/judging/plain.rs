//! The verdict once more, by definitions and with no thought of speed: every
//! number asks its question of the whole message, every component is copied,
//! every row looks through every segment. A condition is true or false here;
//! what unknown ones lead to is found by judging all their fillings, which is
//! demand 3 seen from outside.
//!
//! Only the book's check and the walk are shared with the quick judge: they
//! have been held against definitions of their own.

use super::{Record, LONGEST_MESSAGE, MOST_SEGMENTS, UNKNOWN};
use crate::book::{check, Book, Condition, Expression, Field, Form, Joint, Presence, Row};
use crate::placing::walk::{Outline, Walk};
use crate::reading::{read_message, read_segments, Segment};
use std::collections::BTreeSet;

/// More unknown conditions have too many fillings.
pub const MOST_UNKNOWN: usize = 6;

/// Judges every filling of the unknown conditions, unless they are too many. If
/// all have the same record, it is the verdict; if not, that is number 15, and
/// its row is the first of those that some filling breaks.
pub fn judge_by_fillings(
    message: &[u8],
    book: &[u8],
    conditions: &[u8],
    shortest_table: usize,
) -> Option<Record> {
    let indices = 0..conditions.len();
    let unknown: Vec<usize> = indices.filter(|&at| conditions[at] == UNKNOWN).collect();
    if unknown.len() > MOST_UNKNOWN {
        return None;
    }
    let mut records = Vec::new();
    for filling in 0..1 << unknown.len() {
        let mut filled = conditions.to_vec();
        for (bit, &at) in unknown.iter().enumerate() {
            filled[at] = (filling >> bit & 1) as u8;
        }
        records.push(judge_filled(message, book, &filled, shortest_table));
    }
    if records.iter().all(|record| *record == records[0]) {
        return Some(records[0]);
    }
    let broken = records.into_iter().filter(|record| record.number == 14);
    let first = broken.min_by_key(|record| (record.line, record.place));
    let first = first.expect("only rows depend on conditions");
    let row = row_in_force(message, book, first.line as usize);
    Some(Record {
        number: 15,
        condition: lowest_unknown(&row, conditions),
        ..first
    })
}

/// The line's row for the message's Prüfidentifikator, which the book has.
fn row_in_force(message: &[u8], book: &[u8], line: usize) -> Row {
    let book = check(book).expect("a good book");
    let segments = read_message(message).expect("a well-formed message");
    let is_carrier = |segment: &&Segment| home(&book, segment) == Some(book.carrier);
    let carrier = segments.iter().find(is_carrier).expect("a carrier");
    let entry = identifier_entry(&book, carrier).expect("an identifier of the book");
    book.rows[entry][line - 1].clone()
}

fn lowest_unknown(row: &Row, conditions: &[u8]) -> u32 {
    let (Row::MustIf(expression) | Row::MayIf(expression)) = row else {
        panic!("a row without conditions is never open");
    };
    let numbers = expression.conditions.iter().map(|one| one.number);
    let unknown = numbers.filter(|number| conditions[usize::from(*number) - 1] == UNKNOWN);
    unknown
        .min()
        .expect("an open row has an unknown condition")
        .into()
}

/// The verdict where no condition is unknown: a byte of 2 would be read as
/// false, so that this is for filled lists alone.
pub fn judge_filled(
    message: &[u8],
    book: &[u8],
    conditions: &[u8],
    shortest_table: usize,
) -> Record {
    let Ok(book) = check(book) else {
        return Record::new(1);
    };
    if conditions.len() != book.conditions || conditions.iter().any(|&byte| byte > 2) {
        return Record::new(2);
    }
    let (segments, fault) = read_segments(message);
    let alone = judge_message(message, &segments, fault, shortest_table);
    match alone.number {
        0 => judge_segments(&book, conditions, &segments),
        _ => alone,
    }
}

/// The message alone: numbers 3 to 9, or 0 with the segment count. What reading
/// it says is given.
pub fn judge_message(
    message: &[u8],
    segments: &[Segment],
    fault: Option<usize>,
    shortest_table: usize,
) -> Record {
    if message.is_empty() || message.len() > LONGEST_MESSAGE {
        return Record::new(3);
    }
    if let Some(place) = fault {
        return Record::at(4, place);
    }
    let n = segments.len();
    if n > MOST_SEGMENTS {
        return Record::new(5);
    }
    if n > shortest_table {
        return Record::at(6, n);
    }
    let tag = |number: usize| &segments[number - 1].tag;
    let is_misplaced = |&k: &usize| {
        k == 1 && tag(k) != b"UNH"
            || k == n && tag(k) != b"UNT"
            || k != 1 && tag(k) == b"UNH"
            || k != n && tag(k) == b"UNT"
    };
    if let Some(k) = (1..=n).find(is_misplaced) {
        return Record::at(7, k);
    }
    let (opening, closing) = (&segments[0], &segments[n - 1]);
    if value(closing, (1, 1)) != n.to_string().into_bytes() {
        return Record::at(8, n);
    }
    if value(closing, (2, 1)) != value(opening, (1, 1)) {
        return Record::at(9, n);
    }
    Record::at(0, n)
}

fn judge_segments(book: &Book, conditions: &[u8], segments: &[Segment]) -> Record {
    let homes: Vec<Option<usize>> = segments.iter().map(|one| home(book, one)).collect();
    if let Some(index) = homes.iter().position(Option::is_none) {
        return Record::at(10, index + 1);
    }
    let homes: Vec<usize> = homes.into_iter().flatten().collect();
    let outline = Outline::of(book);
    let mut walk = Walk::new(&outline);
    let mut placed = Placed {
        homes: Vec::new(),
        parents: Vec::new(),
    };
    for home in homes {
        let Ok(parent) = walk.advance(home) else {
            return Record::at(11, placed.homes.len() + 1);
        };
        placed.homes.push(home);
        placed.parents.push(parent as usize);
    }
    for (index, segment) in segments.iter().enumerate() {
        let line = placed.homes[index];
        if let Some((element, component)) = smallest_fault(book, line, segment) {
            return Record {
                line: line as u32,
                element: element as u32,
                component: component as u32,
                ..Record::at(12, index + 1)
            };
        }
    }
    let carrier = placed.number_of_the_first(book.carrier);
    let Some(entry) = identifier_entry(book, &segments[carrier - 1]) else {
        return Record::at(13, carrier);
    };
    match first_broken_row(book, &book.rows[entry], conditions, &placed) {
        Some((line, place)) => Record {
            line: line as u32,
            ..Record::at(14, place)
        },
        None => Record::at(0, segments.len()),
    }
}

/// "An absent component has the empty value."
fn value(segment: &Segment, (element, component): (usize, usize)) -> Vec<u8> {
    match segment.component(element, component) {
        Some(component) => component.value.clone(),
        None => Vec::new(),
    }
}

fn home(book: &Book, segment: &Segment) -> Option<usize> {
    let is_home = |index: &usize| {
        let Some(line) = book.lines[*index].segment() else {
            return false;
        };
        line.tag == segment.tag
            && line.selector.as_ref().is_none_or(|selector| {
                let place = (selector.element.into(), selector.component.into());
                book.codes[selector.codes.clone()].contains(&value(segment, place))
            })
    };
    (0..book.lines.len()).find(is_home).map(|index| index + 1)
}

fn identifier_entry(book: &Book, carrier: &Segment) -> Option<usize> {
    let identifier = value(carrier, (1, 2));
    let has_it = |entry: &[u8; 5]| entry[..] == identifier;
    book.identifiers.iter().position(has_it)
}

// Fields.

type Place = (usize, usize);

/// Of all places that a field names or where a component stands.
fn smallest_fault(book: &Book, line: usize, segment: &Segment) -> Option<Place> {
    let line = book.lines[line - 1].segment()?;
    let fields = &book.fields[line.fields.clone()];
    let mut places = BTreeSet::new();
    for (index, element) in segment.elements.iter().enumerate() {
        places.extend((1..=element.len()).map(|component| (index + 1, component)));
    }
    places.extend(fields.iter().map(place_of));
    let named = |place: &Place| fields.iter().find(|field| place_of(field) == *place);
    let is_at_fault = |place: &Place| match named(place) {
        Some(field) => is_field_at_fault(book, field, segment),
        None => !value(segment, *place).is_empty(),
    };
    places.into_iter().find(is_at_fault)
}

fn place_of(field: &Field) -> Place {
    (field.element.into(), field.component.into())
}

fn is_field_at_fault(book: &Book, field: &Field, segment: &Segment) -> bool {
    let value = value(segment, place_of(field));
    let element = segment.elements.get(usize::from(field.element) - 1);
    let any_component_has_bytes =
        element.is_some_and(|element| element.iter().any(|other| !other.value.is_empty()));
    if value.is_empty() {
        return match field.presence {
            Presence::MustBeEmpty | Presence::MayHaveBytes => false,
            Presence::MustHaveBytes => true,
            Presence::MustIfItsElementHasBytes => any_component_has_bytes,
        };
    }
    let (has_form, length) = match field.form {
        Form::Alphanumeric => (true, value.len()),
        Form::Numeric => {
            let does_not_count = |byte: &&u8| b"-.".contains(byte);
            let uncounted = value.iter().filter(does_not_count).count();
            (is_numeric(&value), value.len() - uncounted)
        }
    };
    let codes = &book.codes[field.codes.clone()];
    field.presence == Presence::MustBeEmpty
        || !has_form
        || length > usize::from(field.longest)
        || !codes.is_empty() && !codes.contains(&value)
}

/// Byte by byte, by what may follow what.
fn is_numeric(value: &[u8]) -> bool {
    #[derive(PartialEq)]
    enum After {
        Nothing,
        Minus,
        Digits,
        Mark,
        Decimals,
    }
    let mut after = After::Nothing;
    for byte in value {
        after = match (after, byte) {
            (After::Nothing, b'-') => After::Minus,
            (After::Nothing | After::Minus | After::Digits, b'0'..=b'9') => After::Digits,
            (After::Digits, b'.') => After::Mark,
            (After::Mark | After::Decimals, b'0'..=b'9') => After::Decimals,
            _ => return false,
        };
    }
    after == After::Digits || after == After::Decimals
}

// Rows.

/// Line numbers and the tree; segments have numbers from 1.
struct Placed {
    homes: Vec<usize>,
    parents: Vec<usize>,
}

impl Placed {
    fn numbers_of(&self, line: usize) -> Vec<usize> {
        let numbers = 1..=self.homes.len();
        numbers
            .filter(|number| self.homes[number - 1] == line)
            .collect()
    }

    fn number_of_the_first(&self, line: usize) -> usize {
        self.numbers_of(line)[0]
    }
}

/// Its line and place. An instance is named by its trigger's number, the root
/// by 0.
fn first_broken_row(
    book: &Book,
    rows: &[Row],
    conditions: &[u8],
    placed: &Placed,
) -> Option<(usize, usize)> {
    for line in 1..=book.lines.len() {
        let instances = match book.groups_around(line - 1).first() {
            None => vec![0],
            Some(group) => placed.numbers_of(group + 2),
        };
        for instance in instances {
            let first = segments_in(book, line, instance, placed).first().copied();
            if is_broken(&rows[line - 1], first.is_some(), conditions) {
                let trigger = if instance == 0 { 1 } else { instance };
                return Some((line, first.unwrap_or(trigger)));
            }
        }
    }
    None
}

/// The line's segments in an instance of its parent; of a group, the triggers
/// of its instances. A trigger's tree entry names the parent instance, though
/// it lies in the one that it opens.
fn segments_in(book: &Book, line: usize, instance: usize, placed: &Placed) -> Vec<usize> {
    if book.is_trigger(line - 1) {
        return vec![instance];
    }
    let is_group = book.lines[line - 1].is_group();
    let numbers = placed.numbers_of(if is_group { line + 1 } else { line });
    let is_inside = |number: &usize| placed.parents[number - 1] == instance;
    numbers.into_iter().filter(is_inside).collect()
}

fn is_broken(row: &Row, is_present: bool, conditions: &[u8]) -> bool {
    match row {
        Row::Never => is_present,
        Row::Must => !is_present,
        Row::May => false,
        Row::MustIf(expression) if holds(expression, conditions) => !is_present,
        Row::MayIf(expression) if holds(expression, conditions) => false,
        Row::MustIf(_) | Row::MayIf(_) => is_present,
    }
}

fn holds(expression: &Expression, conditions: &[u8]) -> bool {
    let is_met = |condition: &Condition| {
        let is_true = conditions[usize::from(condition.number) - 1] == 1;
        is_true ^ condition.negated
    };
    match expression.joint {
        Joint::All => expression.conditions.iter().all(is_met),
        Joint::Any => expression.conditions.iter().any(is_met),
    }
}
