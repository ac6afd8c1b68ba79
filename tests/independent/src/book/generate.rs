//! Random good books, reproducible from the seed of their [`Random`]:
//!
//! ```
//! use independent::book::{check, encode::encode, generate::{good_book, Size}};
//! use independent::random::Random;
//!
//! let mut random = Random::from_seed(1);
//! let size = Size::random(&mut random, 12);
//! let book = good_book(&mut random, &size);
//! assert_eq!(check(&encode(&book)), Ok(book));
//! ```
//!
//! Most books can be lived in: where a message must have a value for its
//! segments to find a home and for its envelope and Prüfidentifikator to be
//! good, some field allows one. Some books forbid it, since they are good too.

use super::edit::{
    insert_line, make_carrier, new_tag, optional_group, optional_line, plain_field, random_code,
    random_identifier, required_line, segment, segment_mut, set_selector, smallest_book,
};
use super::layout::{row, Layout, LONGEST_BOOK};
use super::{
    Book, Code, Condition, Expression, Field, Form, Identifier, Joint, Line, Presence, Row, Tag,
};
use crate::random::Random;
use std::collections::{BTreeMap, BTreeSet, HashSet};
use std::ops::Range;

/// How large a book becomes.
#[derive(Clone, Copy, Debug, PartialEq, Eq)]
pub struct Size {
    /// 2 to 256.
    pub lines: usize,
    /// How deep lines may lie, 0 to 7.
    pub deepest: u8,
    /// At least 1, and few enough for a book of that many lines.
    pub identifiers: usize,
    /// 0 to 64.
    pub conditions: usize,
    /// Whether UNH carries the Prüfidentifikator. Otherwise some line does, and
    /// it and the groups around it are required once.
    pub carried_by_the_first: bool,
    /// Whether the depth falls by one at a time, so that groups have lines after
    /// the groups in them. Otherwise it falls to any depth.
    pub falls_by_one: bool,
}

impl Size {
    /// Anything, with at most so many lines.
    pub fn random(random: &mut Random, most_lines: usize) -> Size {
        Size {
            lines: random.between(2, most_lines),
            deepest: random.pick(&[0, 1, 2, 3, 7, 7]),
            identifiers: random.between(1, 4),
            conditions: random.pick(&[0, 1, 2, 3, 4, 8, 64]),
            carried_by_the_first: false,
            falls_by_one: false,
        }
    }

    /// A book for placing: little but lines, and these as different as can be.
    pub fn random_lines(random: &mut Random, most_lines: usize) -> Size {
        Size {
            lines: random.between(2.max(most_lines / 2), most_lines),
            deepest: random.pick(&[1, 2, 3, 7, 7]),
            identifiers: 1,
            conditions: 0,
            carried_by_the_first: random.chance(80),
            falls_by_one: random.chance(60),
        }
    }
}

pub fn good_book(random: &mut Random, size: &Size) -> Book {
    let mut book = Book {
        lines: random_lines(random, size),
        codes: Vec::new(),
        fields: Vec::new(),
        identifiers: random_identifiers(random, size.identifiers),
        rows: Vec::new(),
        conditions: size.conditions,
        carrier: 1,
    };
    if !size.carried_by_the_first {
        choose_carrier(random, &mut book);
    }
    choose_tags(random, &mut book);
    choose_selectors(random, &mut book);
    choose_fields(random, &mut book);
    add_what_nobody_uses(random, &mut book);
    book.rows = random_rows(random, &book);
    assert!(
        Layout::of_book(&book).length <= LONGEST_BOOK,
        "a book of {size:?} does not fit"
    );
    book
}

// Lines: how they nest, how often they may come.

/// UNH, lines that stay at a depth, fall or open a group, and UNT. All but
/// these two still have the same tag.
fn random_lines(random: &mut Random, size: &Size) -> Vec<Line> {
    let undecided = *b"AAA";
    let group_chance = random.pick(&[10, 30, 60]);
    let fall_chance = random.pick(&[10, 30, 60]);
    let mut lines = vec![required_line(*b"UNH")];
    let mut depth: u8 = 0;
    while lines.len() + 1 < size.lines {
        if random.chance(fall_chance) {
            depth = if size.falls_by_one {
                depth.saturating_sub(1)
            } else {
                random.between(0, usize::from(depth)) as u8
            };
        }
        let room_for_a_group = lines.len() + 3 <= size.lines && depth < size.deepest;
        if room_for_a_group && random.chance(group_chance) {
            let [group, trigger] = optional_group(undecided, depth);
            lines.push(repeated(random, group));
            lines.push(trigger);
            depth += 1;
        } else {
            let line = optional_line(undecided, depth);
            lines.push(repeated(random, line));
        }
    }
    lines.push(required_line(*b"UNT"));
    lines
}

fn repeated(random: &mut Random, line: Line) -> Line {
    Line {
        required: random.chance(40),
        maximum: random.pick(&[1, 1, 1, 2, 2, 3, 99, 65_536, 999_999]),
        ..line
    }
}

/// Groups inside one another down to this depth, and after the groups at each
/// depth a line of the group around them, so that many instances close at once
/// and each may lack its last line.
pub fn nested_book(random: &mut Random, deepest: u8) -> Book {
    let mut book = smallest_book();
    for depth in 0..deepest {
        let [group, trigger] = optional_group(new_tag(random, &book), depth);
        insert_before_unt(&mut book, repeated(random, group));
        insert_before_unt(&mut book, trigger);
    }
    for depth in (1..=deepest).rev() {
        let line = optional_line(new_tag(random, &book), depth);
        insert_before_unt(&mut book, repeated(random, line));
    }
    book
}

fn insert_before_unt(book: &mut Book, line: Line) {
    let last = book.lines.len() - 1;
    insert_line(book, last, line);
}

fn choose_carrier(random: &mut Random, book: &mut Book) {
    let indices = 0..book.lines.len();
    let segment_lines: Vec<usize> = indices
        .filter(|&index| !book.lines[index].is_group())
        .collect();
    make_carrier(book, random.pick(&segment_lines));
}

/// The indices of the segment lines between UNH and UNT.
fn inner_segment_lines(book: &Book) -> Vec<usize> {
    let inner = 1..book.lines.len() - 1;
    inner
        .filter(|&index| !book.lines[index].is_group())
        .collect()
}

fn choose_tags(random: &mut Random, book: &mut Book) {
    let repeat_chance = random.pick(&[0, 20, 50]);
    let mut tags: Vec<Tag> = Vec::new();
    for index in inner_segment_lines(book) {
        let tag = if !tags.is_empty() && random.chance(repeat_chance) {
            random.pick(&tags)
        } else {
            new_tag(random, book)
        };
        tags.push(tag);
        segment_mut(book, index).tag = tag;
    }
}

// Selectors and codes.

/// Lines that share their tag need a selector; others may have one.
fn choose_selectors(random: &mut Random, book: &mut Book) {
    let mut lines_by_tag = BTreeMap::<Tag, Vec<usize>>::new();
    for index in inner_segment_lines(book) {
        let tag = segment(book, index).tag;
        lines_by_tag.entry(tag).or_default().push(index);
    }
    for indices in lines_by_tag.values() {
        if let [alone] = indices[..] {
            if random.chance(25) {
                let codes = codes_of_a_line_alone(random, book);
                set_selector(book, alone, random_place(random), codes);
            }
        } else {
            choose_distinct_selectors(random, book, indices);
        }
    }
}

/// Any codes do, also those of other tags' lines.
fn codes_of_a_line_alone(random: &mut Random, book: &mut Book) -> Range<usize> {
    if random.chance(40) && !book.codes.is_empty() {
        part_of(random, 0..book.codes.len())
    } else {
        push_codes(random, book, &mut HashSet::new())
    }
}

fn choose_distinct_selectors(random: &mut Random, book: &mut Book, indices: &[usize]) {
    let place = random_place(random);
    let mut taken = HashSet::new();
    for &index in indices {
        let codes = push_codes(random, book, &mut taken);
        set_selector(book, index, place, codes);
    }
}

/// Adds one to four codes that are not taken, one of them sometimes twice.
fn push_codes(random: &mut Random, book: &mut Book, taken: &mut HashSet<Code>) -> Range<usize> {
    let first = book.codes.len();
    for _ in 0..random.between(1, 4) {
        let mut code = random_code(random);
        while !taken.insert(code.clone()) {
            code = random_code(random);
        }
        book.codes.push(code);
    }
    if random.chance(15) {
        let again = random.between(first, book.codes.len() - 1);
        book.codes.push(book.codes[again].clone());
    }
    first..book.codes.len()
}

/// A part of a range that has at least one entry.
fn part_of(random: &mut Random, whole: Range<usize>) -> Range<usize> {
    let first = random.between(whole.start, whole.end - 1);
    first..random.between(first + 1, whole.end)
}

/// Mostly near the beginning of a segment.
fn random_place(random: &mut Random) -> (u8, u8) {
    (
        random.pick(&[1, 1, 1, 2, 3, 255]),
        random.pick(&[1, 1, 1, 2, 3, 255]),
    )
}

// Fields.

fn choose_fields(random: &mut Random, book: &mut Book) {
    for index in 0..book.lines.len() {
        if book.lines[index].is_group() {
            continue;
        }
        segment_mut(book, index).fields = fields_of_a_line(random, book, index);
    }
}

fn fields_of_a_line(random: &mut Random, book: &mut Book, index: usize) -> Range<usize> {
    if random.chance(5) {
        return fields_of_an_earlier_line(random, book, index);
    }
    let mut needed = BTreeSet::new();
    if random.chance(95) {
        needed.extend(needed_places(book, index));
    }
    let mut places = needed.clone();
    for _ in 0..random.below(5) {
        places.insert(random_place(random));
    }
    let first = book.fields.len();
    for place in places {
        let field = if needed.contains(&place) {
            generous_field(random, book, index, place)
        } else {
            random_field(random, book, place)
        };
        book.fields.push(field);
    }
    range_or_none(first..book.fields.len())
}

fn fields_of_an_earlier_line(random: &mut Random, book: &Book, index: usize) -> Range<usize> {
    let earlier = segment(book, random.pick(&segment_lines_before(book, index)));
    if earlier.fields.is_empty() {
        0..0
    } else {
        part_of(random, earlier.fields.clone())
    }
}

/// Line 1 stands for those before it.
fn segment_lines_before(book: &Book, index: usize) -> Vec<usize> {
    let mut earlier = vec![0];
    earlier.extend((1..index).filter(|&line| !book.lines[line].is_group()));
    earlier
}

/// "A count of 0 goes with a first of 0."
pub fn range_or_none(range: Range<usize>) -> Range<usize> {
    if range.is_empty() {
        0..0
    } else {
        range
    }
}

/// Where a message needs a value to get past the envelope, the homes and the
/// Prüfidentifikator.
pub fn needed_places(book: &Book, index: usize) -> Vec<(u8, u8)> {
    let mut places = Vec::new();
    if index == 0 {
        places.push((1, 1));
    }
    if index == book.lines.len() - 1 {
        places.extend([(1, 1), (2, 1)]);
    }
    if index == book.carrier_index() {
        places.push((1, 2));
    }
    if let Some(selector) = &segment(book, index).selector {
        places.push((selector.element, selector.component));
    }
    places
}

/// A field that lets through what a message needs there.
fn generous_field(random: &mut Random, book: &Book, index: usize, place: (u8, u8)) -> Field {
    let mut field = Field {
        presence: random.pick(&[
            Presence::MustHaveBytes,
            Presence::MayHaveBytes,
            Presence::MustIfItsElementHasBytes,
        ]),
        longest: random.pick(&[14, 35, 70]),
        ..plain_field(place)
    };
    let selector = segment(book, index).selector.as_ref();
    match selector.filter(|selector| (selector.element, selector.component) == place) {
        Some(selector) if random.chance(50) => field.codes = selector.codes.clone(),
        Some(_) => {}
        None if random.chance(30) => field.form = Form::Numeric,
        None => {}
    }
    field
}

fn random_field(random: &mut Random, book: &Book, place: (u8, u8)) -> Field {
    let (element, component) = place;
    let codes = if random.chance(20) && !book.codes.is_empty() {
        part_of(random, 0..book.codes.len())
    } else {
        0..0
    };
    Field {
        element,
        component,
        presence: random.pick(&[
            Presence::MustBeEmpty,
            Presence::MustHaveBytes,
            Presence::MayHaveBytes,
            Presence::MayHaveBytes,
            Presence::MustIfItsElementHasBytes,
        ]),
        form: random.pick(&[Form::Alphanumeric, Form::Numeric]),
        longest: random.pick(&[1, 2, 3, 6, 14, 35, 70, 256, u16::MAX]),
        codes,
    }
}

/// Codes and fields that no line refers to are allowed.
fn add_what_nobody_uses(random: &mut Random, book: &mut Book) {
    if random.chance(20) {
        book.codes.push(random_code(random));
    }
    if random.chance(20) {
        let place = random_place(random);
        book.fields.push(random_field(random, book, place));
    }
}

// Prüfidentifikatoren and rows.

fn random_identifiers(random: &mut Random, count: usize) -> Vec<Identifier> {
    let mut identifiers = BTreeSet::new();
    while identifiers.len() < count {
        identifiers.insert(random_identifier(random));
    }
    identifiers.into_iter().collect()
}

fn random_rows(random: &mut Random, book: &Book) -> Vec<Vec<Row>> {
    let mut rows = Vec::new();
    for _ in &book.identifiers {
        let mut of_identifier = Vec::new();
        for line in &book.lines {
            of_identifier.push(random_row(random, line, book.conditions));
        }
        rows.push(of_identifier);
    }
    rows
}

fn random_row(random: &mut Random, line: &Line, conditions: usize) -> Row {
    if line.required {
        return Row::Must;
    }
    let modes = if conditions == 0 { 3 } else { 5 };
    match random.below(modes) {
        0 => Row::Never,
        1 => Row::Must,
        2 => Row::May,
        3 => Row::MustIf(random_expression(random, conditions)),
        _ => Row::MayIf(random_expression(random, conditions)),
    }
}

/// One to three different conditions of those that the book has.
fn random_expression(random: &mut Random, conditions: usize) -> Expression {
    let count = random.between(1, conditions.min(row::MOST_CONDITIONS));
    let mut numbers = BTreeSet::new();
    while numbers.len() < count {
        numbers.insert(random.between(1, conditions) as u8);
    }
    let conditions: Vec<Condition> = numbers
        .into_iter()
        .map(|number| Condition {
            number,
            negated: random.chance(30),
        })
        .collect();
    Expression {
        joint: if conditions.len() > 1 && random.chance(50) {
            Joint::Any
        } else {
            Joint::All
        },
        conditions,
    }
}
