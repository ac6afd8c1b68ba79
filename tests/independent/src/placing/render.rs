//! Segments for homes: the shortest, random ones, and ones that have no home.

use crate::book::edit::{new_tag, segment};
use crate::book::{Book, SegmentLine, Selector, Tag};
use crate::bytes::Service;
use crate::random::Random;
use crate::writing::{any_elements, put, write_segment, Elements};

const SERVICE: Service = Service::STANDARD;

/// The shortest segment with this home and, if it has a selector, its first code.
pub fn plain_segment(book: &Book, home: usize) -> Vec<u8> {
    let line = segment(book, home - 1);
    let mut elements = Elements::new();
    if let Some(selector) = &line.selector {
        let code = book.codes[selector.codes.start].clone();
        put(&mut elements, place_of(selector), code);
    }
    let mut text = Vec::new();
    write_segment(line.tag, &elements, &mut text);
    text
}

/// The shortest segments with these homes.
pub fn plain_message(book: &Book, homes: &[usize]) -> Vec<u8> {
    let segments = homes.iter().map(|home| plain_segment(book, *home));
    segments.collect::<Vec<_>>().concat()
}

/// A segment with this home, one of its codes, and any data elsewhere.
pub fn write_at_home(random: &mut Random, book: &Book, home: usize, text: &mut Vec<u8>) {
    let line = segment(book, home - 1);
    let mut elements = any_elements(random);
    if let Some(selector) = &line.selector {
        let code = any_code(random, book, selector);
        put(&mut elements, place_of(selector), code);
    }
    write_segment(line.tag, &elements, text);
}

/// A segment that has no home, but for rare chances.
pub fn write_homeless(random: &mut Random, book: &Book, text: &mut Vec<u8>) {
    let lines = book.lines.iter().filter_map(|line| line.segment());
    let with_selector: Vec<&SegmentLine> = lines.filter(|line| line.selector.is_some()).collect();
    if with_selector.is_empty() || random.chance(25) {
        let tag = unknown_tag(random, book);
        write_segment(tag, &any_elements(random), text);
        return;
    }
    let line = random.pick(&with_selector);
    let mut elements = any_elements(random);
    if let Some(selector) = &line.selector {
        spoil_the_value(random, book, selector, &mut elements);
    }
    write_segment(line.tag, &elements, text);
}

/// Often a known tag with one byte changed.
fn unknown_tag(random: &mut Random, book: &Book) -> Tag {
    let mut tag = new_tag(random, book);
    let known = book.lines[random.below(book.lines.len())].segment();
    if let (Some(known), true) = (known, random.chance(70)) {
        let kept = random.below(tag.len());
        let changed = tag[kept];
        tag = known.tag;
        tag[kept] = changed;
    }
    tag
}

/// Something else at the selector's place: nothing, what almost is a code, or a
/// code of some other line. A code may stand beside the place.
fn spoil_the_value(random: &mut Random, book: &Book, selector: &Selector, elements: &mut Elements) {
    let place @ (element, component) = place_of(selector);
    let code = any_code(random, book, selector);
    match random.below(9) {
        0 => elements.truncate(element - 1),
        1 => put(elements, place, Vec::new()),
        2 => put(elements, place, with_last(code, random.pick(b"AZaz09. "))),
        3 => put(elements, place, code[..code.len() - 1].to_vec()),
        4 => put(elements, place, with_other_case(code)),
        5 => put(
            elements,
            place,
            [code.as_slice(), b"?", &[any_mark(random)]].concat(),
        ),
        6 => put(
            elements,
            place,
            [b"?", &[any_mark(random)][..], &code].concat(),
        ),
        7 => put(
            elements,
            place,
            book.codes[random.below(book.codes.len())].clone(),
        ),
        _ => {
            put(elements, place, Vec::new());
            let beside = random.pick(&[(element + 1, component), (element, component + 1)]);
            put(elements, beside, code);
        }
    }
}

fn with_last(mut code: Vec<u8>, byte: u8) -> Vec<u8> {
    code.push(byte);
    code
}

fn with_other_case(mut code: Vec<u8>) -> Vec<u8> {
    for byte in &mut code {
        *byte = match *byte {
            b'A'..=b'Z' => byte.to_ascii_lowercase(),
            other => other.to_ascii_uppercase(),
        };
    }
    code
}

fn any_mark(random: &mut Random) -> u8 {
    random.pick(&[
        SERVICE.component,
        SERVICE.element,
        SERVICE.release,
        SERVICE.terminator,
    ])
}

fn place_of(selector: &Selector) -> (usize, usize) {
    (
        usize::from(selector.element),
        usize::from(selector.component),
    )
}

fn any_code(random: &mut Random, book: &Book, selector: &Selector) -> Vec<u8> {
    let codes = &book.codes[selector.codes.clone()];
    codes[random.below(codes.len())].clone()
}
