//! Changes to a good book that keep it good, and the pieces they add. Lines are
//! named by their index from 0, as everywhere in a [`Book`].

use super::{
    Book, Code, Field, Form, Identifier, Kind, Line, Presence, Row, SegmentLine, Selector, Tag,
};
use crate::random::Random;
use std::ops::Range;

/// The smallest book of 01: UNH and UNT, and one Prüfidentifikator on line 1.
pub fn smallest_book() -> Book {
    Book {
        lines: vec![required_line(*b"UNH"), required_line(*b"UNT")],
        codes: Vec::new(),
        fields: Vec::new(),
        identifiers: vec![*b"10001"],
        rows: vec![vec![Row::Must; 2]],
        conditions: 0,
        carrier: 1,
    }
}

/// A segment line at the root, required once, without selector and fields.
pub fn required_line(tag: Tag) -> Line {
    Line {
        depth: 0,
        required: true,
        maximum: 1,
        kind: Kind::Segment(SegmentLine {
            tag,
            selector: None,
            fields: 0..0,
        }),
    }
}

pub fn optional_line(tag: Tag, depth: u8) -> Line {
    Line {
        depth,
        required: false,
        ..required_line(tag)
    }
}

/// A group that may be left out, and its trigger.
pub fn optional_group(trigger: Tag, depth: u8) -> [Line; 2] {
    let group = Line {
        depth,
        required: false,
        maximum: 1,
        kind: Kind::Group,
    };
    let trigger = Line {
        depth: depth + 1,
        ..required_line(trigger)
    };
    [group, trigger]
}

/// Puts a line before the one at this index, with the row that 01 demands of a
/// required line and "may" otherwise.
pub fn insert_line(book: &mut Book, index: usize, line: Line) {
    let row = if line.required { Row::Must } else { Row::May };
    for rows in &mut book.rows {
        rows.insert(index, row.clone());
    }
    book.lines.insert(index, line);
    if book.carrier_index() >= index {
        book.carrier += 1;
    }
}

/// Adds an optional segment line with a new tag after some segment line.
pub fn add_segment_line(random: &mut Random, book: &mut Book) -> usize {
    let tag = new_tag(random, book);
    let (index, depth) = place_after_a_segment_line(random, book, u8::MAX);
    insert_line(book, index, optional_line(tag, depth));
    index
}

/// Adds an optional group with a trigger of a new tag, and answers the group's
/// index. The trigger is at most as deep as said.
pub fn add_group(random: &mut Random, book: &mut Book, deepest: u8) -> usize {
    let (index, depth) = place_after_a_segment_line(random, book, deepest - 1);
    insert_group(random, book, index, depth);
    index
}

pub fn insert_group(random: &mut Random, book: &mut Book, index: usize, depth: u8) {
    let [group, trigger] = optional_group(new_tag(random, book), depth);
    insert_line(book, index, group);
    insert_line(book, index + 1, trigger);
}

/// An index after a segment line that is not the last, and that line's depth.
/// Line 1 always offers itself.
fn place_after_a_segment_line(random: &mut Random, book: &Book, deepest: u8) -> (usize, u8) {
    let before_the_last = &book.lines[..book.lines.len() - 1];
    let places: Vec<(usize, u8)> = before_the_last
        .iter()
        .enumerate()
        .filter(|(_, line)| !line.is_group() && line.depth <= deepest)
        .map(|(index, line)| (index + 1, line.depth))
        .collect();
    random.pick(&places)
}

/// A tag that no line has.
pub fn new_tag(random: &mut Random, book: &Book) -> Tag {
    loop {
        let tag = [(); 3].map(|()| random.pick(b"ABCDEFGHIJKLMNOPQRSTUVWXYZ0123456789"));
        let is_taken = |line: &Line| line.segment().is_some_and(|segment| segment.tag == tag);
        if tag != *b"UNH" && tag != *b"UNT" && !book.lines.iter().any(is_taken) {
            return tag;
        }
    }
}

/// Makes a line required, with the rows that go with it.
pub fn require_line(book: &mut Book, index: usize) {
    book.lines[index].required = true;
    for rows in &mut book.rows {
        rows[index] = Row::Must;
    }
}

/// Makes a segment line the Prüfidentifikator's.
pub fn make_carrier(book: &mut Book, index: usize) {
    book.carrier = index + 1;
    let mut lines = book.groups_around(index);
    lines.push(index);
    for line in lines {
        require_line(book, line);
        book.lines[line].maximum = 1;
    }
}

/// Adds codes with new values at the end of the block.
pub fn add_codes(random: &mut Random, book: &mut Book, count: usize) -> Range<usize> {
    let first = book.codes.len();
    while book.codes.len() < first + count {
        let code = random_code(random);
        if !book.codes.contains(&code) {
            book.codes.push(code);
        }
    }
    first..first + count
}

/// Short codes and the same few bytes often, so that codes begin one another.
pub fn random_code(random: &mut Random) -> Code {
    let alphabet: &[u8] = if random.chance(50) {
        b"AZaz09."
    } else {
        b"ABCDEFGHIJKLMNOPQRSTUVWXYZabcdefghijklmnopqrstuvwxyz0123456789."
    };
    let length = random.between(1, 6);
    (0..length).map(|_| random.pick(alphabet)).collect()
}

/// Gives a segment line a selector. The book stays good if no other line has
/// its tag.
pub fn set_selector(book: &mut Book, index: usize, place: (u8, u8), codes: Range<usize>) {
    let (element, component) = place;
    segment_mut(book, index).selector = Some(Selector {
        element,
        component,
        codes,
    });
}

/// Adds an optional segment line with a new tag, a selector and new codes.
pub fn add_selector_line(random: &mut Random, book: &mut Book) -> usize {
    let index = add_segment_line(random, book);
    let count = random.between(1, 3);
    let codes = add_codes(random, book, count);
    let place = (random.pick(&[1, 2, 255]), random.pick(&[1, 2, 255]));
    set_selector(book, index, place, codes);
    index
}

/// Adds lines of one new tag and one selector place, each with codes of its own,
/// and answers their indices.
pub fn add_lines_of_one_tag(random: &mut Random, book: &mut Book, count: usize) -> Vec<usize> {
    let first = add_selector_line(random, book);
    let SegmentLine { tag, selector, .. } = segment(book, first).clone();
    for _ in 1..count {
        let index = add_selector_line(random, book);
        let own_codes = selector_mut(book, index).codes.clone();
        let line = segment_mut(book, index);
        line.tag = tag;
        line.selector = selector.clone();
        selector_mut(book, index).codes = own_codes;
    }
    let has_the_tag = |line: &Line| line.segment().is_some_and(|line| line.tag == tag);
    let indices = 0..book.lines.len();
    indices
        .filter(|&index| has_the_tag(&book.lines[index]))
        .collect()
}

pub fn segment(book: &Book, index: usize) -> &SegmentLine {
    book.lines[index].segment().expect("a segment line")
}

pub fn segment_mut(book: &mut Book, index: usize) -> &mut SegmentLine {
    book.lines[index].segment_mut().expect("a segment line")
}

pub fn selector_mut(book: &mut Book, index: usize) -> &mut Selector {
    let selector = &mut segment_mut(book, index).selector;
    selector.as_mut().expect("a line with a selector")
}

/// Adds fields at these places at the end of the block.
pub fn add_fields(book: &mut Book, places: &[(u8, u8)]) -> Range<usize> {
    let first = book.fields.len();
    for &place in places {
        book.fields.push(plain_field(place));
    }
    first..book.fields.len()
}

/// A field that allows much.
pub fn plain_field((element, component): (u8, u8)) -> Field {
    Field {
        element,
        component,
        presence: Presence::MayHaveBytes,
        form: Form::Alphanumeric,
        longest: 70,
        codes: 0..0,
    }
}

/// Adds an optional segment line with a new tag and fields at these places.
pub fn add_line_with_fields(random: &mut Random, book: &mut Book, places: &[(u8, u8)]) -> usize {
    let index = add_segment_line(random, book);
    segment_mut(book, index).fields = add_fields(book, places);
    index
}

/// Adds a Prüfidentifikator in its order, with the rows of another.
pub fn add_identifier(random: &mut Random, book: &mut Book) {
    loop {
        let identifier = random_identifier(random);
        if let Err(index) = book.identifiers.binary_search(&identifier) {
            let rows = book.rows[random.below(book.rows.len())].clone();
            book.identifiers.insert(index, identifier);
            book.rows.insert(index, rows);
            return;
        }
    }
}

pub fn random_identifier(random: &mut Random) -> Identifier {
    [(); 5].map(|()| random.pick(b"0123456789"))
}
