//! The independent judge, from 01, "Placing and judging" and "Verdict numbers":
//! [`judge`] answers the record and writes the tables.
//!
//! - [`message`]: the message alone, numbers 3 to 9
//! - [`fields`]: the first field fault of a segment, number 12
//! - [`rules`]: the first row that some filling breaks, numbers 14 and 15
//! - [`plain`]: the same verdict a second time, as slow as its definition and
//!   without unknown conditions, and the verdict by all fillings
//! - [`fitting`]: random books and random messages that fit them
//! - [`damage`]: changes that mostly break such a message
//!
//! The bytes are split into segments once; what follows works on these. What a
//! table gets is kept until number 11 has passed, since the numbers up to it
//! change none.

pub mod damage;
pub mod fields;
pub mod fitting;
pub mod message;
pub mod plain;
pub mod rules;

use crate::book::{check, Book};
use crate::placing::homes::Homes;
use crate::placing::segments::{Segment, Segments};
use crate::placing::walk::{Outline, Walk};
use message::{check_closing, check_end, check_length, check_limits, is_in_its_place};
use rules::Outcome;

/// Number 3.
pub const LONGEST_MESSAGE: usize = 16_777_216;
/// Number 5.
pub const MOST_SEGMENTS: usize = 999_999;
/// A condition is 0 false, 1 true or this.
pub const UNKNOWN: u8 = 2;

/// "one answer record"; "entries not named are 0".
#[derive(Clone, Copy, Debug, Default, PartialEq, Eq)]
pub struct Record {
    pub number: u32,
    pub place: u32,
    pub line: u32,
    pub element: u32,
    pub component: u32,
    pub condition: u32,
}

impl Record {
    pub fn new(number: u32) -> Record {
        Record {
            number,
            ..Record::default()
        }
    }

    pub fn at(number: u32, place: usize) -> Record {
        Record {
            place: place as u32,
            ..Record::new(number)
        }
    }

    /// In the order of 01.
    pub fn entries(self) -> [u32; 6] {
        [
            self.number,
            self.place,
            self.line,
            self.element,
            self.component,
            self.condition,
        ]
    }
}

/// A fault's record, which ends the judging.
type Stop = Record;

/// Judges a message. Each table gets an entry for each segment, unless the
/// number is 1 to 11.
pub fn judge(
    message: &[u8],
    book: &[u8],
    conditions: &[u8],
    starts: &mut [u32],
    homes: &mut [u32],
    parents: &mut [u32],
) -> Record {
    let tables = [starts, homes, parents];
    match stop_at_the_first_fault(message, book, conditions, tables) {
        Ok(accepted) => accepted,
        Err(fault) => fault,
    }
}

fn stop_at_the_first_fault(
    message: &[u8],
    book: &[u8],
    conditions: &[u8],
    tables: [&mut [u32]; 3],
) -> Result<Record, Stop> {
    let book = check(book).map_err(|_| Record::new(1))?;
    check_conditions(&book, conditions)?;
    check_length(message)?;
    let split = Split::of(message)?;
    let n = split.starts.len();
    check_limits(n, shortest(&tables))?;
    check_envelope(&split)?;
    check_closing(n, split.segment(0), split.segment(n - 1))?;
    let homes = find_homes(&book, &split)?;
    let parents = find_parents(&book, &homes)?;
    for (table, entries) in tables.into_iter().zip([&split.starts, &homes, &parents]) {
        table[..n].copy_from_slice(entries);
    }
    check_fields(&book, &split, &homes)?;
    let identifier = find_identifier(&book, &split, &homes)?;
    check_rows(&book, identifier, conditions, &homes)?;
    Ok(Record::at(0, n))
}

/// A well-formed message and where its segments start.
struct Split<'a> {
    message: &'a [u8],
    starts: Vec<u32>,
}

impl<'a> Split<'a> {
    /// Number 4.
    fn of(message: &'a [u8]) -> Result<Split<'a>, Stop> {
        let mut starts = Vec::new();
        let mut end = 0;
        for segment in Segments::of(message) {
            starts.push(segment.start as u32);
            end = segment.end();
        }
        check_end(message, end)?;
        Ok(Split { message, starts })
    }

    /// By its index from 0.
    fn segment(&self, index: usize) -> Segment<'a> {
        let start = self.starts[index] as usize;
        let next = self.starts.get(index + 1);
        let end = next.map_or(self.message.len(), |next| *next as usize);
        Segment {
            start,
            bytes: &self.message[start..end],
        }
    }

    fn segments(&self) -> impl Iterator<Item = Segment<'a>> + '_ {
        (0..self.starts.len()).map(|index| self.segment(index))
    }
}

/// Number 2.
fn check_conditions(book: &Book, conditions: &[u8]) -> Result<(), Stop> {
    let are_good =
        conditions.len() == book.conditions && conditions.iter().all(|byte| *byte <= UNKNOWN);
    stop_unless(are_good, Record::new(2))
}

fn shortest(tables: &[&mut [u32]; 3]) -> usize {
    let lengths = tables.iter().map(|table| table.len());
    lengths.min().expect("three tables")
}

/// Number 7.
fn check_envelope(split: &Split) -> Result<(), Stop> {
    let last = split.starts.len() - 1;
    for (index, segment) in split.segments().enumerate() {
        let is_good = is_in_its_place(segment, index == 0, index == last);
        stop_unless(is_good, Record::at(7, index + 1))?;
    }
    Ok(())
}

/// Number 10, or each segment's line.
fn find_homes(book: &Book, split: &Split) -> Result<Vec<u32>, Stop> {
    let homes = Homes::of(book);
    let mut found = Vec::with_capacity(split.starts.len());
    for segment in split.segments() {
        match homes.home(segment) {
            Some(home) => found.push(home as u32),
            None => return Err(Record::at(10, found.len() + 1)),
        }
    }
    Ok(found)
}

/// Number 11, or the tree. The last home is UNT's, the last line, so that homes
/// which begin an allowed sequence are one.
fn find_parents(book: &Book, homes: &[u32]) -> Result<Vec<u32>, Stop> {
    let outline = Outline::of(book);
    let mut walk = Walk::new(&outline);
    let mut parents = Vec::with_capacity(homes.len());
    for &home in homes {
        match walk.advance(home as usize) {
            Ok(parent) => parents.push(parent),
            Err(_) => return Err(Record::at(11, parents.len() + 1)),
        }
    }
    Ok(parents)
}

/// Number 12.
fn check_fields(book: &Book, split: &Split, homes: &[u32]) -> Result<(), Stop> {
    let fields_by_line: Vec<_> = book
        .lines
        .iter()
        .map(|line| match line.segment() {
            Some(segment) => &book.fields[segment.fields.clone()],
            None => &[],
        })
        .collect();
    for (index, (segment, &line)) in split.segments().zip(homes).enumerate() {
        let fields = fields_by_line[line as usize - 1];
        if let Some((element, component)) = fields::first_fault(segment, fields, &book.codes) {
            return Err(Record {
                line,
                element: element as u32,
                component: component as u32,
                ..Record::at(12, index + 1)
            });
        }
    }
    Ok(())
}

/// Number 13, or the Prüfidentifikator's index in the book.
fn find_identifier(book: &Book, split: &Split, homes: &[u32]) -> Result<usize, Stop> {
    let is_carrier = |home: &u32| *home as usize == book.carrier;
    let carrier = homes.iter().position(is_carrier);
    let carrier = carrier.expect("its line and the groups around it are required");
    let value = split.segment(carrier).component(1, 2).unwrap_or_default();
    let found = book
        .identifiers
        .iter()
        .position(|identifier| identifier == value);
    found.ok_or(Record::at(13, carrier + 1))
}

/// Numbers 14 and 15.
fn check_rows(
    book: &Book,
    identifier: usize,
    conditions: &[u8],
    homes: &[u32],
) -> Result<(), Stop> {
    let rows = &book.rows[identifier];
    let Some(broken) = rules::first_broken(book, rows, conditions, homes) else {
        return Ok(());
    };
    let (number, condition) = match broken.outcome {
        Outcome::Open { lowest_unknown } => (15, u32::from(lowest_unknown)),
        _ => (14, 0),
    };
    Err(Record {
        line: broken.line as u32,
        condition,
        ..Record::at(number, broken.place)
    })
}

fn stop_unless(is_good: bool, fault: Record) -> Result<(), Stop> {
    if is_good {
        Ok(())
    } else {
        Err(fault)
    }
}

#[cfg(test)]
mod tests;
