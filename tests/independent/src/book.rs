//! The guide book from 01, "The guide book", in ordinary types, and the
//! independent check of its bytes: [`check`] decodes a good book or names the
//! first rule that it found broken.
//!
//! - [`fault`]: what can be wrong with a book, one case for each rule
//! - [`layout`]: where the records lie and what lies where within them
//! - `decode`: the rules that header and single records must keep
//! - `structure`: the rules between records
//! - [`encode`]: the bytes of a book
//! - [`generate`]: random good books
//! - [`limits`]: good books that stand at a limit of 01
//! - [`edit`], [`damage`]: changes that keep a book good, and changes that
//!   break exactly one rule

pub mod damage;
mod decode;
pub mod edit;
pub mod encode;
pub mod fault;
pub mod generate;
pub mod layout;
pub mod limits;
mod structure;

pub use decode::decode;

use fault::Fault;
use std::ops::Range;

/// A guide book. Lines have numbers from 1 in 01 and indices from 0 here.
#[derive(Clone, Debug, PartialEq, Eq)]
pub struct Book {
    pub lines: Vec<Line>,
    pub codes: Vec<Code>,
    pub fields: Vec<Field>,
    pub identifiers: Vec<Identifier>,
    /// For each Prüfidentifikator one row for each line.
    pub rows: Vec<Vec<Row>>,
    /// How many conditions a caller answers.
    pub conditions: usize,
    /// The number, from 1, of the line that carries the Prüfidentifikator.
    pub carrier: usize,
}

#[derive(Clone, Debug, PartialEq, Eq)]
pub struct Line {
    pub depth: u8,
    pub required: bool,
    pub maximum: u32,
    pub kind: Kind,
}

#[derive(Clone, Debug, PartialEq, Eq)]
pub enum Kind {
    Segment(SegmentLine),
    Group,
}

#[derive(Clone, Debug, PartialEq, Eq)]
pub struct SegmentLine {
    pub tag: Tag,
    pub selector: Option<Selector>,
    /// Which of the book's fields are this line's.
    pub fields: Range<usize>,
}

pub type Tag = [u8; 3];

/// The component that tells lines of the same tag apart, and its values here.
#[derive(Clone, Debug, PartialEq, Eq)]
pub struct Selector {
    pub element: u8,
    pub component: u8,
    /// Which of the book's codes are this line's.
    pub codes: Range<usize>,
}

/// A code's bytes, one to six.
pub type Code = Vec<u8>;

#[derive(Clone, Debug, PartialEq, Eq)]
pub struct Field {
    pub element: u8,
    pub component: u8,
    pub presence: Presence,
    pub form: Form,
    pub longest: u16,
    /// Which of the book's codes are allowed here; empty for any value.
    pub codes: Range<usize>,
}

#[derive(Clone, Copy, Debug, PartialEq, Eq)]
pub enum Presence {
    MustBeEmpty,
    MustHaveBytes,
    MayHaveBytes,
    MustIfItsElementHasBytes,
}

#[derive(Clone, Copy, Debug, PartialEq, Eq)]
pub enum Form {
    Alphanumeric,
    Numeric,
}

/// A Prüfidentifikator's five digits.
pub type Identifier = [u8; 5];

#[derive(Clone, Debug, PartialEq, Eq)]
pub enum Row {
    Never,
    Must,
    May,
    /// Must if the expression holds and otherwise never.
    MustIf(Expression),
    /// May if the expression holds and otherwise never.
    MayIf(Expression),
}

#[derive(Clone, Debug, PartialEq, Eq)]
pub struct Expression {
    pub joint: Joint,
    pub conditions: Vec<Condition>,
}

#[derive(Clone, Copy, Debug, PartialEq, Eq)]
pub enum Joint {
    All,
    Any,
}

#[derive(Clone, Copy, Debug, PartialEq, Eq)]
pub struct Condition {
    pub number: u8,
    pub negated: bool,
}

/// The book that these bytes are, or the first rule that they break.
pub fn check(bytes: &[u8]) -> Result<Book, Fault> {
    let book = decode(bytes)?;
    structure::check_structure(&book)?;
    Ok(book)
}

impl Book {
    /// The index of the line that carries the Prüfidentifikator.
    pub fn carrier_index(&self) -> usize {
        self.carrier - 1
    }

    /// The indices of the groups around a line, the innermost first. The lines
    /// must nest as 01 says: then the innermost is the last earlier group whose
    /// depth is one less.
    pub fn groups_around(&self, index: usize) -> Vec<usize> {
        let mut depth = self.lines[index].depth;
        let mut groups = Vec::new();
        for (earlier, line) in self.lines[..index].iter().enumerate().rev() {
            if line.is_group() && line.depth + 1 == depth {
                groups.push(earlier);
                depth = line.depth;
            }
        }
        groups
    }

    /// The index after the line and, if it is a group, after all lines in it.
    pub fn end_of(&self, index: usize) -> usize {
        let line = &self.lines[index];
        let after = &self.lines[index + 1..];
        let deeper = after.iter().take_while(|other| other.depth > line.depth);
        index + 1 + deeper.count()
    }

    /// Whether the line opens the instances of a group.
    pub fn is_trigger(&self, index: usize) -> bool {
        index > 0 && self.lines[index - 1].is_group()
    }
}

impl Line {
    pub fn is_group(&self) -> bool {
        self.kind == Kind::Group
    }

    pub fn segment(&self) -> Option<&SegmentLine> {
        match &self.kind {
            Kind::Segment(segment) => Some(segment),
            Kind::Group => None,
        }
    }

    pub fn segment_mut(&mut self) -> Option<&mut SegmentLine> {
        match &mut self.kind {
            Kind::Segment(segment) => Some(segment),
            Kind::Group => None,
        }
    }
}

#[cfg(test)]
mod tests;
