//! Segments as a good writer writes them, random data for them, and random
//! messages.

use crate::bytes::{is_data, is_tag_byte, Service};
use crate::random::Random;

const SERVICE: Service = Service::STANDARD;

/// The elements of a segment to be written: components as they are written,
/// release bytes included.
pub type Elements = Vec<Vec<Vec<u8>>>;

/// Puts a component in its place, with empty ones before it where none are.
pub fn put(elements: &mut Elements, (element, component): (usize, usize), text: Vec<u8>) {
    if elements.len() < element {
        elements.resize(element, vec![Vec::new()]);
    }
    let element = &mut elements[element - 1];
    if element.len() < component {
        element.resize(component, Vec::new());
    }
    element[component - 1] = text;
}

/// Empty components at an element's end and empty elements at the segment's end
/// are left out: T-05 lets no separator stand before them.
pub fn write_segment(tag: [u8; 3], elements: &Elements, text: &mut Vec<u8>) {
    text.extend(tag);
    let elements: Vec<&[Vec<u8>]> = elements.iter().map(|one| needed(one)).collect();
    let count = needed_count(&elements, |element| element.is_empty());
    for element in &elements[..count] {
        text.push(SERVICE.element);
        text.extend(element.join(&SERVICE.component));
    }
    text.push(SERVICE.terminator);
}

/// Of an empty element none.
fn needed(element: &[Vec<u8>]) -> &[Vec<u8>] {
    &element[..needed_count(element, Vec::is_empty)]
}

/// Up to the last one that is not empty.
fn needed_count<T>(all: &[T], is_empty: impl Fn(&T) -> bool) -> usize {
    let last = all.iter().rposition(|one| !is_empty(one));
    last.map_or(0, |index| index + 1)
}

/// A value's text: "A separator or `?` as data has `?` before it."
pub fn written_value(value: &[u8]) -> Vec<u8> {
    let mut text = Vec::with_capacity(value.len());
    for &byte in value {
        if SERVICE.must_be_released(byte) {
            text.push(SERVICE.release);
        }
        text.push(byte);
    }
    text
}

/// Of up to eight segments.
pub fn short_message(random: &mut Random) -> Vec<u8> {
    let segments = random.between(1, 8);
    any_message(random, |so_far| so_far.segments >= segments)
}

/// What there is of a message that is being written.
pub struct SoFar {
    pub segments: usize,
    pub bytes: usize,
}

pub fn any_message(random: &mut Random, is_enough: impl Fn(SoFar) -> bool) -> Vec<u8> {
    let mut text = Vec::new();
    let mut segments = 0;
    loop {
        write_any_segment(random, &mut text);
        segments += 1;
        let bytes = text.len();
        if is_enough(SoFar { segments, bytes }) {
            return text;
        }
    }
}

pub fn write_any_segment(random: &mut Random, text: &mut Vec<u8>) {
    let tag = [(); 3].map(|()| byte_such_that(random, is_tag_byte));
    write_segment(tag, &any_elements(random), text);
}

/// Up to five elements of up to four components. Many are empty, before others
/// that are not.
pub fn any_elements(random: &mut Random) -> Elements {
    let mut elements = Elements::new();
    for _ in 0..random.between(0, 5) {
        let components = 0..random.between(1, 4);
        elements.push(components.map(|_| any_component(random)).collect());
    }
    elements
}

/// Any data, often none, now and then with something that looks like a tag.
pub fn any_component(random: &mut Random) -> Vec<u8> {
    let mut value = Vec::new();
    if random.chance(20) {
        return value;
    }
    // Texts that look like segments lead lookups inside data to an answer.
    if random.chance(5) {
        value.extend(b"UNT");
    }
    for _ in 0..random.below(9) {
        value.push(data_byte(random));
    }
    written_value(&value)
}

fn data_byte(random: &mut Random) -> u8 {
    if random.chance(15) {
        random.pick(b":+'?")
    } else {
        byte_such_that(random, is_data)
    }
}

pub fn byte_such_that(random: &mut Random, is_wanted: fn(u8) -> bool) -> u8 {
    loop {
        let byte = random.byte();
        if is_wanted(byte) {
            return byte;
        }
    }
}

#[cfg(test)]
mod tests {
    use super::*;

    fn written(elements: &[&[&str]]) -> String {
        let bytes = |component: &&str| component.as_bytes().to_vec();
        let elements: Elements = elements
            .iter()
            .map(|element| element.iter().map(bytes).collect())
            .collect();
        let mut text = Vec::new();
        write_segment(*b"AAA", &elements, &mut text);
        String::from_utf8(text).expect("ASCII")
    }

    #[test]
    fn needless_separators_are_left_out() {
        assert_eq!(written(&[]), "AAA'");
        assert_eq!(written(&[&[""], &["", ""], &[]]), "AAA'");
        assert_eq!(written(&[&["1", "", ""], &[""]]), "AAA+1'");
        assert_eq!(
            written(&[&["1", ""], &["", ""], &["", "2", ""]]),
            "AAA+1++:2'"
        );
        assert_eq!(written(&[&["?:"], &["", "", "3"]]), "AAA+?:+::3'");
    }
}
