//! Where the blocks of a guide book lie, and what lies where in a record. All
//! numbers are little-endian.

use super::Book;

pub const HEADER_BYTES: usize = 28;
pub const LINE_BYTES: usize = 20;
pub const CODE_BYTES: usize = 8;
pub const FIELD_BYTES: usize = 12;
pub const IDENTIFIER_BYTES: usize = 8;
pub const ROW_BYTES: usize = 8;

/// "It is at most 65,535."
pub const LONGEST_BOOK: usize = 65_535;

/// Which of the header's two-byte numbers is which.
pub mod header {
    pub const EDITION: usize = 0;
    pub const TOTAL_LENGTH: usize = 1;
    pub const LINE_COUNT: usize = 2;
    pub const LINES_OFFSET: usize = 3;
    pub const CODE_COUNT: usize = 4;
    pub const CODES_OFFSET: usize = 5;
    pub const FIELD_COUNT: usize = 6;
    pub const FIELDS_OFFSET: usize = 7;
    pub const IDENTIFIER_COUNT: usize = 8;
    pub const IDENTIFIERS_OFFSET: usize = 9;
    pub const ROWS_OFFSET: usize = 10;
    pub const CONDITION_COUNT: usize = 11;
    pub const CARRIER: usize = 12;
    pub const ZERO: usize = 13;
    pub const NUMBERS: usize = 14;
}

/// Offsets within a line.
pub mod line {
    pub const KIND: usize = 0;
    pub const DEPTH: usize = 1;
    pub const TAG: usize = 2;
    pub const REQUIRED: usize = 5;
    pub const SELECTOR_ELEMENT: usize = 6;
    pub const SELECTOR_COMPONENT: usize = 7;
    /// First and count.
    pub const CODES: usize = 8;
    pub const MAXIMUM: usize = 12;
    /// First and count.
    pub const FIELDS: usize = 16;
}

/// Offsets within a code.
pub mod code {
    pub const LENGTH: usize = 0;
    pub const TEXT: usize = 1;
    pub const ZERO: usize = 7;
    pub const LONGEST: usize = ZERO - TEXT;
}

/// Offsets within a field.
pub mod field {
    pub const ELEMENT: usize = 0;
    pub const COMPONENT: usize = 1;
    pub const PRESENCE: usize = 2;
    pub const FORM: usize = 3;
    pub const LONGEST: usize = 4;
    /// First and count.
    pub const CODES: usize = 6;
    pub const ZEROS: usize = 10;
}

/// Offsets within a Prüfidentifikator.
pub mod identifier {
    pub const DIGITS: usize = 0;
    pub const ZEROS: usize = 5;
}

/// Offsets within a row.
pub mod row {
    pub const MODE: usize = 0;
    pub const JOINT: usize = 1;
    pub const CONDITIONS: usize = 2;
    pub const ZEROS: usize = 5;
    pub const MOST_CONDITIONS: usize = ZEROS - CONDITIONS;
    /// Added to a condition's number for "not".
    pub const NOT: u8 = 128;
}

/// L, C, F and P.
#[derive(Clone, Copy, Debug, PartialEq, Eq)]
pub struct Counts {
    pub lines: usize,
    pub codes: usize,
    pub fields: usize,
    pub identifiers: usize,
}

/// Where each block starts, and where the last one ends.
#[derive(Clone, Copy, Debug, PartialEq, Eq)]
pub struct Layout {
    pub lines: usize,
    pub codes: usize,
    pub fields: usize,
    pub identifiers: usize,
    pub rows: usize,
    pub length: usize,
}

impl Counts {
    pub fn of(book: &Book) -> Counts {
        Counts {
            lines: book.lines.len(),
            codes: book.codes.len(),
            fields: book.fields.len(),
            identifiers: book.identifiers.len(),
        }
    }
}

impl Layout {
    /// "Blocks follow in this order without gaps, so the length is
    /// 28 + 20L + 8C + 12F + 8P + 8PL."
    pub fn of(counts: Counts) -> Layout {
        let lines = HEADER_BYTES;
        let codes = lines + LINE_BYTES * counts.lines;
        let fields = codes + CODE_BYTES * counts.codes;
        let identifiers = fields + FIELD_BYTES * counts.fields;
        let rows = identifiers + IDENTIFIER_BYTES * counts.identifiers;
        let length = rows + ROW_BYTES * counts.identifiers * counts.lines;
        Layout {
            lines,
            codes,
            fields,
            identifiers,
            rows,
            length,
        }
    }

    pub fn of_book(book: &Book) -> Layout {
        Layout::of(Counts::of(book))
    }
}
