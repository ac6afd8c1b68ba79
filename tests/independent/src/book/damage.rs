//! Changes that break exactly one rule of a good book, one function for each
//! way to break it, by the smallest step that does: a check that forgets the
//! rule, or is off by one in it, accepts what comes out.
//!
//! Rules that another rule implies cannot be broken alone: a second UNH also
//! breaks one home, a group at the end leaves no room for UNT.

mod carrier;
mod codes;
mod fields;
mod header;
mod home;
mod identifiers;
mod lines;
mod rows;
mod structure;

use super::encode::encode;
use super::fault::Fault;
use super::layout::{
    Layout, CODE_BYTES, FIELD_BYTES, IDENTIFIER_BYTES, LINE_BYTES, LONGEST_BOOK, ROW_BYTES,
};
use super::Book;
use crate::random::Random;

/// One way to break one rule.
#[derive(Clone, Copy)]
pub struct Damage {
    /// The rule.
    pub fault: Fault,
    /// The way, in words.
    pub name: &'static str,
    change: fn(&mut Random, Book) -> Vec<u8>,
}

impl Damage {
    /// The bytes of the book after the change. The book must be good and
    /// [leave room](has_room).
    pub fn apply(&self, random: &mut Random, book: &Book) -> Vec<u8> {
        (self.change)(random, book.clone())
    }
}

/// Most lines that a change adds, and most bytes.
const ROOM_LINES: usize = 20;
const ROOM_BYTES: usize = 12_000;

/// Whether a change can add its lines and records and still break no limit but
/// its own.
pub fn has_room(book: &Book) -> bool {
    book.lines.len() + ROOM_LINES <= 256
        && Layout::of_book(book).length + ROOM_BYTES <= LONGEST_BOOK
}

/// Every way to break a rule.
pub fn every_damage() -> impl Iterator<Item = Damage> {
    [
        header::DAMAGES,
        lines::DAMAGES,
        codes::DAMAGES,
        fields::DAMAGES,
        identifiers::DAMAGES,
        rows::DAMAGES,
        structure::DAMAGES,
        home::DAMAGES,
        carrier::DAMAGES,
    ]
    .concat()
    .into_iter()
}

/// The table of a module's changes: the rule, and the function that breaks it.
macro_rules! damages {
    ($($fault:ident: $change:ident,)+) => {
        pub const DAMAGES: &[crate::book::damage::Damage] = &[
            $(crate::book::damage::Damage {
                fault: crate::book::fault::Fault::$fault,
                name: stringify!($change),
                change: $change,
            },)+
        ];
    };
}
use damages;

/// The bytes of a book, to be changed record by record.
struct Draft {
    bytes: Vec<u8>,
    layout: Layout,
    line_count: usize,
}

impl Draft {
    fn of(book: &Book) -> Draft {
        Draft {
            bytes: encode(book),
            layout: Layout::of_book(book),
            line_count: book.lines.len(),
        }
    }

    fn header_number(&self, index: usize) -> usize {
        usize::from(u16::from_le_bytes([
            self.bytes[2 * index],
            self.bytes[2 * index + 1],
        ]))
    }

    /// Writes the low 16 bits.
    fn set_header_number(&mut self, index: usize, number: usize) {
        self.bytes[2 * index..][..2].copy_from_slice(&(number as u16).to_le_bytes());
    }

    fn line(&mut self, index: usize) -> &mut [u8] {
        &mut self.bytes[self.layout.lines + index * LINE_BYTES..][..LINE_BYTES]
    }

    fn code(&mut self, index: usize) -> &mut [u8] {
        &mut self.bytes[self.layout.codes + index * CODE_BYTES..][..CODE_BYTES]
    }

    fn field(&mut self, index: usize) -> &mut [u8] {
        &mut self.bytes[self.layout.fields + index * FIELD_BYTES..][..FIELD_BYTES]
    }

    fn identifier(&mut self, index: usize) -> &mut [u8] {
        &mut self.bytes[self.layout.identifiers + index * IDENTIFIER_BYTES..][..IDENTIFIER_BYTES]
    }

    fn row(&mut self, identifier: usize, line: usize) -> &mut [u8] {
        let index = identifier * self.line_count + line;
        &mut self.bytes[self.layout.rows + index * ROW_BYTES..][..ROW_BYTES]
    }
}

/// Any byte but 0.
fn nonzero_byte(random: &mut Random) -> u8 {
    random.between(1, 255) as u8
}
