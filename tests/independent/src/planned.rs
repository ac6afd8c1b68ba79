//! Books that the benchmarks and comparisons are run over: written as plans, and
//! small book K with room.

use crate::book::edit::{insert_line, optional_line, set_selector, smallest_book};
use crate::book::{check, Book, Kind, Line};

/// Small book K of 01, as it is compiled.
pub const BOOK_K: &[u8] = include_bytes!("../../../books/k.bin");

/// A line of a book: depth, tag (none for a group), whether required, maximum,
/// and the codes at element 1, component 1.
pub type Plan = (u8, &'static str, bool, u32, &'static [&'static str]);

pub const GROUP: &str = "";
pub const M: bool = true;
pub const O: bool = false;

/// Of the first book's size, and with tags that share lines as there.
pub const LARGE_BOOK: [Plan; 40] = [
    (0, "UNH", M, 1, &[]),
    (0, "BGM", M, 1, &[]),
    (0, "DTM", M, 1, &["137"]),
    (0, "IMD", O, 1, &[]),
    (0, "ALI", O, 1, &[]),
    (0, "FTX", O, 1, &[]),
    (0, GROUP, M, 1, &[]),
    (1, "RFF", M, 1, &["Z13"]),
    (0, GROUP, O, 1, &[]),
    (1, "RFF", M, 1, &["ACW", "AAV"]),
    (1, "DTM", O, 1, &["171"]),
    (0, GROUP, M, 1, &[]),
    (1, "NAD", M, 1, &["MS"]),
    (1, GROUP, O, 1, &[]),
    (2, "CTA", M, 1, &[]),
    (2, "COM", O, 5, &[]),
    (0, GROUP, M, 1, &[]),
    (1, "NAD", M, 1, &["MR"]),
    (0, GROUP, O, 9, &[]),
    (1, "NAD", M, 1, &["DP", "VY"]),
    (1, "LOC", O, 1, &["172"]),
    (0, GROUP, O, 200_000, &[]),
    (1, "LIN", M, 1, &[]),
    (1, "PIA", O, 1, &[]),
    (1, "QTY", O, 1, &["145", "220"]),
    (1, "DTM", O, 1, &["163"]),
    (1, "DTM", O, 1, &["164"]),
    (1, "MOA", O, 1, &["203"]),
    (1, GROUP, O, 3, &[]),
    (2, "RFF", M, 1, &["MG"]),
    (1, GROUP, O, 1, &[]),
    (2, "RFF", M, 1, &["Z09", "Z10"]),
    (2, "DTM", O, 1, &["203"]),
    (1, GROUP, O, 5, &[]),
    (2, "CCI", M, 1, &["Z15", "Z16", "Z17"]),
    (2, "CAV", O, 9, &[]),
    (0, "UNS", M, 1, &[]),
    (0, "MOA", O, 1, &["9"]),
    (0, "CNT", O, 1, &[]),
    (0, "UNT", M, 1, &[]),
];

/// Without fields and conditions. UNH and UNT, which every plan has, are there
/// from the start.
pub fn planned_book(plans: &[Plan]) -> Book {
    let mut book = smallest_book();
    for (index, plan) in plans.iter().enumerate().take(plans.len() - 1).skip(1) {
        insert_line(&mut book, index, planned_line(*plan));
        let (_, _, _, _, codes) = *plan;
        if !codes.is_empty() {
            let first = book.codes.len();
            book.codes
                .extend(codes.iter().map(|code| code.as_bytes().to_vec()));
            set_selector(&mut book, index, (1, 1), first..first + codes.len());
        }
    }
    book
}

fn planned_line((depth, tag, required, maximum, _): Plan) -> Line {
    let kind = match tag.as_bytes().try_into() {
        Ok(tag) => optional_line(tag, depth).kind,
        Err(_) => Kind::Group,
    };
    Line {
        depth,
        required,
        maximum,
        kind,
    }
}

/// What messages over book K begin with, and a position.
pub const HEAD_OF_K: &str = "UNH+1'BGM+7'RFF+Z13:10001'";
pub const POSITION_OF_K: [&str; 2] = ["LIN+1'", "QTY+145:5'"];

/// Book K with room for as many positions as there can be.
pub fn book_k_with_room() -> Book {
    let mut book = check(BOOK_K).expect("a good book");
    book.lines[3].maximum = 999_999;
    book
}

/// Of text without released terminators.
pub fn count_segments(text: &str) -> usize {
    text.matches('\'').count()
}
