//! A segment without its text: its tag and its component values, which is all
//! that T-11 tells messages apart by. It is written again from them alone: where
//! that gives the very text, no other such text has the same.

use crate::bytes::Service;
use crate::writing::{put, write_segment, written_value, Elements};

const SERVICE: Service = Service::STANDARD;

/// An element's number and the number of a component in it, both from 1.
pub type Place = (usize, usize);

/// What T-11 compares of a segment.
#[derive(Clone, Debug, PartialEq, Eq)]
pub struct Content {
    tag: [u8; 3],
    /// The values that are not empty, in the order of their places. "An absent
    /// component has the empty value", so nothing may be known of the others,
    /// not even which of them are present.
    values: Vec<(Place, Vec<u8>)>,
}

impl Content {
    /// Of a segment, whose components are looked up at every place.
    pub fn of<'a>(segment: &[u8], part_at: impl Fn(Place) -> &'a [u8]) -> Content {
        let tag = segment.first_chunk().expect("a segment has a tag");
        let values = places(segment).map(|place| (place, value_of(part_at(place))));
        Content {
            tag: *tag,
            values: values.filter(|(_, value)| !value.is_empty()).collect(),
        }
    }

    pub fn write(&self, text: &mut Vec<u8>) {
        let mut elements = Elements::new();
        for (place, value) in &self.values {
            put(&mut elements, *place, written_value(value));
        }
        write_segment(self.tag, &elements, text);
    }

    pub fn has_a_value(&self) -> bool {
        !self.values.is_empty()
    }

    /// Whether a value has a byte that must be released.
    pub fn has_a_mark(&self) -> bool {
        let mut bytes = self.values.iter().flat_map(|(_, value)| value);
        bytes.any(|byte| SERVICE.must_be_released(*byte))
    }

    /// Whether an empty value lies before another one, in the same element or in
    /// one before it.
    pub fn has_a_gap(&self) -> bool {
        let mut before = (0, 0);
        for &(place, _) in &self.values {
            let (element, component) = before;
            if ![(element, component + 1), (element + 1, 1)].contains(&place) {
                return true;
            }
            before = place;
        }
        false
    }
}

/// Every place where a segment can have a component, found without reading it:
/// each element begins with a `+`, each component of it but the first with a `:`,
/// so neither has more of them than there are such bytes, be these marks or data.
/// One more element and one more component are always absent, and must be empty.
/// All these are few places, unless a segment has many bytes of both kinds.
fn places(segment: &[u8]) -> impl Iterator<Item = Place> {
    let count = |mark| segment.iter().filter(|byte| **byte == mark).count();
    let most_elements = count(SERVICE.element);
    let most_components = 1 + count(SERVICE.component);
    let elements = 1..=most_elements + 1;
    elements.flat_map(move |element| {
        let components = 1..=most_components + 1;
        components.map(move |component| (element, component))
    })
}

/// A component's bytes with each releasing `?` removed.
fn value_of(part: &[u8]) -> Vec<u8> {
    let mut value = Vec::new();
    let mut bytes = part.iter();
    while let Some(byte) = bytes.next() {
        let is_release = *byte == SERVICE.release;
        value.extend(if is_release { bytes.next() } else { Some(byte) });
    }
    value
}

#[cfg(test)]
mod tests {
    use super::*;
    use crate::enumeration::{for_each_text, ALPHABET};
    use crate::reading::{find_component, read_segment};

    fn written_again(content: &Content) -> Vec<u8> {
        let mut text = Vec::new();
        content.write(&mut text);
        text
    }

    /// Of a text that is a well-formed segment, by the independent reading.
    fn read(text: &[u8]) -> Content {
        Content::of(text, |(element, component)| {
            let part = find_component(text, 0, element, component);
            &text[part.offset..part.offset + part.length]
        })
    }

    /// As if T-05 did not forbid needless separators, in a text without `?`.
    fn read_without_t05(text: &str) -> Content {
        let elements = text.trim_end_matches('\'');
        Content::of(text.as_bytes(), |(element, component)| {
            let element = elements.split('+').nth(element).unwrap_or("");
            let component = element.split(':').nth(component - 1);
            component.unwrap_or("").as_bytes()
        })
    }

    #[test]
    fn every_short_segment_is_written_again() {
        let mut segments = 0;
        for_each_text(&ALPHABET, b"A1A", 6, &mut |text| {
            if read_segment(text, 0).is_ok_and(|segment| segment.end == text.len()) {
                assert_eq!(written_again(&read(text)), text);
                segments += 1;
            }
        });
        // As many as a regular expression for such segments finds.
        assert_eq!(segments, 704);
    }

    #[test]
    fn a_text_with_needless_separators_is_written_without_them() {
        for (needless, written) in [
            ("AAA+A:+A'", "AAA+A+A'"),
            ("AAA+A:'", "AAA+A'"),
            ("AAA+A+'", "AAA+A'"),
            ("AAA+:A::+:+:A+:'", "AAA+:A++:A'"),
            ("AAA+'", "AAA'"),
        ] {
            let content = read_without_t05(needless);
            assert_eq!(written_again(&content), written.as_bytes(), "{needless}");
            assert_eq!(content, read(written.as_bytes()), "{needless}");
        }
    }

    #[test]
    fn marks_and_gaps_are_seen() {
        for (text, has_a_value, has_a_mark, has_a_gap) in [
            ("AAA'", false, false, false),
            ("AAA+A:A+A'", true, false, false),
            ("AAA+A+?::??'", true, true, false),
            ("AAA++A'", true, false, true),
            ("AAA+:A'", true, false, true),
            ("AAA+A::A'", true, false, true),
            ("AAA+A:A++A'", true, false, true),
            ("AAA+A+:?''", true, true, true),
        ] {
            let content = read(text.as_bytes());
            assert_eq!(content.has_a_value(), has_a_value, "{text}");
            assert_eq!(content.has_a_mark(), has_a_mark, "{text}");
            assert_eq!(content.has_a_gap(), has_a_gap, "{text}");
        }
    }
}
