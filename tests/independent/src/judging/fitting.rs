//! Random books that a message can fit, and random messages that fit them in
//! placement, fields and, for one filling of the conditions, rows.

use super::fields::{allows, Place};
use crate::book::edit::{plain_field, segment, segment_mut};
use crate::book::generate::{good_book, needed_places, range_or_none, Size};
use crate::book::{Book, Expression, Field, Form, Joint, Presence, Row, Selector, Tag};
use crate::bytes::{is_data, Service};
use crate::random::Random;
use crate::writing::{byte_such_that, put, write_segment, Elements};
use std::collections::{BTreeMap, BTreeSet};
use std::ops::Range;

const SERVICE: Service = Service::STANDARD;
/// Repetitions beyond this are rare in a random message.
const MOST_REPETITIONS: usize = 4;
/// A value is longer only where it is as long as its field allows.
const USUAL_LENGTH: usize = 9;
const LONGEST_VALUE: usize = 300;

// Books.

/// A random book whose fields can be filled: each has a value, and those that
/// envelope, selector and Prüfidentifikator need let their values through.
pub fn livable_book(random: &mut Random, most_lines: usize) -> Book {
    let size = Size::random(random, most_lines);
    let mut book = good_book(random, &size);
    let mut fields = Vec::new();
    let mut ranges = Vec::new();
    for index in 0..book.lines.len() {
        if !book.lines[index].is_group() {
            let first = fields.len();
            fields.extend(livable_fields(&book, index).into_values());
            ranges.push((index, range_or_none(first..fields.len())));
        }
    }
    for (index, range) in ranges {
        segment_mut(&mut book, index).fields = range;
    }
    book.fields = fields;
    book
}

fn livable_fields(book: &Book, index: usize) -> BTreeMap<(u8, u8), Field> {
    let line = segment(book, index);
    let mut fields = BTreeMap::new();
    for field in &book.fields[line.fields.clone()] {
        let mut field = field.clone();
        if !book.codes[field.codes.clone()]
            .iter()
            .any(|code| allows(&field, code, &book.codes))
        {
            field.codes = 0..0;
        }
        fields.insert((field.element, field.component), field);
    }
    for place in needed_places(book, index) {
        let field = fields.entry(place).or_insert(plain_field(place));
        let selector = line.selector.as_ref();
        let selector = selector.filter(|one| (one.element, one.component) == place);
        let is_generous = match selector {
            Some(selector) => fitting_codes(book, &selector.codes, field).next().is_some(),
            None => {
                field.presence != Presence::MustBeEmpty
                    && field.longest >= 14
                    && field.codes.is_empty()
            }
        };
        if !is_generous {
            *field = plain_field(place);
        }
    }
    fields
}

fn fitting_codes<'a>(
    book: &'a Book,
    codes: &Range<usize>,
    field: &'a Field,
) -> impl Iterator<Item = &'a Vec<u8>> {
    let codes = book.codes[codes.clone()].iter();
    codes.filter(|code| allows(field, code, &book.codes))
}

// Messages.

/// A segment to be written.
#[derive(Clone, Debug)]
pub struct Draft {
    /// The line that it was made for.
    pub home: usize,
    pub tag: Tag,
    pub elements: Elements,
}

/// What a message is made for.
pub struct Purpose<'a> {
    pub book: &'a Book,
    /// The Prüfidentifikator's index.
    pub identifier: usize,
    /// For each condition 0 or 1.
    pub filling: &'a [u8],
    /// It grows longer only by what it must have.
    pub wanted: usize,
    /// How often, in percent, a line that is not required comes or stays away
    /// whatever its row says.
    pub careless: usize,
}

pub fn write_message(drafts: &[Draft]) -> Vec<u8> {
    let mut text = Vec::new();
    for draft in drafts {
        write_segment(draft.tag, &draft.elements, &mut text);
    }
    text
}

/// A message that fits its purpose, if the book lets it.
pub fn fitting_message(random: &mut Random, purpose: &Purpose) -> Vec<Draft> {
    let mut sequence = Sequence {
        purpose,
        generosity: random.pick(&[15, 40, 70, 95]),
        homes: Vec::new(),
    };
    sequence.write_lines(random, 0..purpose.book.lines.len());
    let homes = sequence.homes;
    let reference = random_digits(random, 8);
    let mut drafts = Vec::new();
    for &home in &homes {
        let given = given_values(random, purpose, home, homes.len(), &reference);
        drafts.push(fitting_segment(random, purpose.book, home, given));
    }
    drafts
}

struct Sequence<'a> {
    purpose: &'a Purpose<'a>,
    /// How often, in percent, a line comes more often than it must.
    generosity: usize,
    homes: Vec<usize>,
}

impl Sequence<'_> {
    fn write_lines(&mut self, random: &mut Random, range: Range<usize>) {
        let book = self.purpose.book;
        let mut index = range.start;
        while index < range.end {
            for _ in 0..self.repetitions(random, index) {
                if book.lines[index].is_group() {
                    self.write_lines(random, index + 1..book.end_of(index));
                } else {
                    self.homes.push(index + 1);
                }
            }
            index = book.end_of(index);
        }
    }

    fn repetitions(&self, random: &mut Random, index: usize) -> usize {
        let Purpose { book, filling, .. } = self.purpose;
        let line = &book.lines[index];
        let row = match &book.rows[self.purpose.identifier][index] {
            _ if !line.required && random.chance(self.purpose.careless) => {
                random.pick(&[&Row::Never, &Row::Must])
            }
            row => row,
        };
        let (least, most) = match row {
            Row::Never => (0, 0),
            Row::Must => (1, usize::MAX),
            Row::May => (0, usize::MAX),
            Row::MustIf(expression) if holds(expression, filling) => (1, usize::MAX),
            Row::MayIf(expression) if holds(expression, filling) => (0, usize::MAX),
            Row::MustIf(_) | Row::MayIf(_) => (0, 0),
        };
        let most = most.min(line.maximum as usize).min(MOST_REPETITIONS);
        if most > 0 && self.homes.len() < self.purpose.wanted && random.chance(self.generosity) {
            random.between(1, most)
        } else {
            least
        }
    }
}

fn holds(expression: &Expression, filling: &[u8]) -> bool {
    let wanted = expression.joint == Joint::Any;
    let mut conditions = expression.conditions.iter();
    let is_met = |number: u8, negated| (filling[usize::from(number) - 1] == 1) != negated;
    conditions.any(|one| is_met(one.number, one.negated) == wanted) == wanted
}

type Values = BTreeMap<Place, Vec<u8>>;

/// What envelope, Prüfidentifikator and selector ask for.
fn given_values(
    random: &mut Random,
    purpose: &Purpose,
    home: usize,
    count: usize,
    reference: &[u8],
) -> Values {
    let book = purpose.book;
    let mut values = Values::new();
    if home == book.carrier {
        values.insert((1, 2), book.identifiers[purpose.identifier].to_vec());
    }
    if let Some(selector) = &segment(book, home - 1).selector {
        let place = (selector.element.into(), selector.component.into());
        values.insert(place, any_fitting_code(random, book, home, selector));
    }
    if home == 1 {
        values.insert((1, 1), reference.to_vec());
    }
    if home == book.lines.len() {
        values.insert((1, 1), count.to_string().into_bytes());
        values.insert((2, 1), reference.to_vec());
    }
    values
}

fn any_fitting_code(random: &mut Random, book: &Book, home: usize, selector: &Selector) -> Vec<u8> {
    let fields = &book.fields[segment(book, home - 1).fields.clone()];
    let is_at_the_place =
        |field: &&Field| (field.element, field.component) == (selector.element, selector.component);
    let fitting: Vec<&Vec<u8>> = match fields.iter().find(is_at_the_place) {
        Some(field) => fitting_codes(book, &selector.codes, field).collect(),
        None => Vec::new(),
    };
    if fitting.is_empty() {
        book.codes[selector.codes.start].clone()
    } else {
        random.pick(&fitting).clone()
    }
}

fn fitting_segment(random: &mut Random, book: &Book, home: usize, mut values: Values) -> Draft {
    let line = segment(book, home - 1);
    let fields = &book.fields[line.fields.clone()];
    let mut used: BTreeSet<usize> = values.keys().map(|(element, _)| *element).collect();
    for field in fields {
        let may_percent = if is_far(field) { 5 } else { 45 };
        let wanted = match field.presence {
            Presence::MustBeEmpty => false,
            Presence::MustHaveBytes => true,
            Presence::MayHaveBytes => random.chance(may_percent),
            Presence::MustIfItsElementHasBytes => random.chance(may_percent / 2),
        };
        if wanted {
            add_value(random, book, field, &mut values);
            used.insert(field.element.into());
        }
    }
    for field in fields {
        let is_needed = field.presence == Presence::MustIfItsElementHasBytes
            && used.contains(&field.element.into());
        if is_needed {
            add_value(random, book, field, &mut values);
        }
    }
    let mut elements = Elements::new();
    for (place, text) in values {
        put(&mut elements, place, text);
    }
    Draft {
        home,
        tag: line.tag,
        elements,
    }
}

fn is_far(field: &Field) -> bool {
    field.element == u8::MAX || field.component == u8::MAX
}

fn add_value(random: &mut Random, book: &Book, field: &Field, values: &mut Values) {
    let place = (field.element.into(), field.component.into());
    values
        .entry(place)
        .or_insert_with(|| fitting_value(random, book, field));
}

/// A value that the field allows, as it is written, if there is one.
pub fn fitting_value(random: &mut Random, book: &Book, field: &Field) -> Vec<u8> {
    let codes = &book.codes[field.codes.clone()];
    if !codes.is_empty() {
        let fitting: Vec<&Vec<u8>> = fitting_codes(book, &field.codes, field).collect();
        return match fitting[..] {
            [] => codes[0].clone(),
            _ => random.pick(&fitting).clone(),
        };
    }
    let longest = usize::from(field.longest);
    let length = if longest <= LONGEST_VALUE && random.chance(20) {
        longest
    } else {
        random.between(1, longest.min(USUAL_LENGTH))
    };
    match field.form {
        Form::Alphanumeric => written_data(random, length),
        Form::Numeric => written_number(random, length),
    }
}

/// So many data bytes, with what must be released.
pub fn written_data(random: &mut Random, length: usize) -> Vec<u8> {
    let mut text = Vec::new();
    let mark_percent = random.pick(&[0, 0, 10, 40]);
    for _ in 0..length {
        if random.chance(mark_percent) {
            text.extend([SERVICE.release, random.pick(b":+'?")]);
        } else {
            let is_plain = |byte| is_data(byte) && !SERVICE.must_be_released(byte);
            text.push(byte_such_that(random, is_plain));
        }
    }
    text
}

/// So many digits, with what else a number may have.
pub fn written_number(random: &mut Random, digits: usize) -> Vec<u8> {
    let mut text: Vec<u8> = (0..digits).map(|_| random.pick(b"0123456789")).collect();
    if digits > 1 && random.chance(30) {
        text.insert(random.between(1, digits - 1), SERVICE.decimal);
    }
    if random.chance(25) {
        text.insert(0, b'-');
    }
    text
}

fn random_digits(random: &mut Random, most: usize) -> Vec<u8> {
    let count = random.between(1, most);
    (0..count).map(|_| random.pick(b"0123456789")).collect()
}
