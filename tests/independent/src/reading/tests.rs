//! The reading against the definition: 01's own examples, those of T-05, and for
//! tiny texts a brute-force search. The search writes every message up to a
//! length from the writer's side and looks for one that continues the text, so
//! it shares no thought with the reading.

use super::*;
use crate::enumeration::for_each_text;
use std::collections::HashSet;

fn place(text: &[u8]) -> usize {
    read_message(text).expect_err("the text should not be well-formed")
}

fn part(offset: usize, length: usize) -> Part {
    Part { offset, length }
}

#[test]
fn bench_messages_of_01_that_get_number_4() {
    assert_eq!(place(b"UNH+1"), 5);
    assert_eq!(place(b"UNH+1?A'"), 6);
}

#[test]
fn an_empty_message_is_cut_short_at_0() {
    assert_eq!(place(b""), 0);
}

#[test]
fn released_marks_end_nothing_and_a_released_release_releases_nothing() {
    let segments = read_message(b"AAA+?'B'BBB+??'CCC'").unwrap();
    assert_eq!(starts(&segments), [0, 8, 15]);
    assert_eq!(segments[0].component(1, 1).unwrap().value, b"'B");
    assert_eq!(segments[1].component(1, 1).unwrap().value, b"?");
}

#[test]
fn faults_lie_at_their_own_offset() {
    assert_eq!(place(b"AAA'\r\nBBB'"), 4);
    assert_eq!(place(b"AAA+\x7F'"), 4);
    assert_eq!(place(b"AAA+?\x9F'"), 5);
    assert_eq!(place(b"AAA:1'"), 3);
    assert_eq!(place(b"AaA'"), 1);
    assert_eq!(place(b"AAA'B"), 5);
}

#[test]
fn a_separator_before_an_end_is_needless_wherever_it_stands() {
    for (segment, fault) in [
        ("AAA+'", 4),
        ("AAA++'", 5),
        ("AAA+B+'", 6),
        ("AAA+:'", 5),
        ("AAA+B:'", 6),
        ("AAA+B::'", 7),
        ("AAA+:+B'", 5),
        ("AAA+B:+C'", 6),
        ("AAA+B::+C'", 7),
        ("AAA+B:++C'", 6),
        ("AAA+B:+'", 6),
    ] {
        for before in ["", "BBB+1'", "BBB'CCC+:?+'"] {
            for after in ["", "DDD+1'", "DDD'EEE+'", "\n"] {
                let text = [before, segment, after].concat();
                assert_eq!(place(text.as_bytes()), before.len() + fault, "{text}");
            }
        }
    }
}

#[test]
fn needless_separators_of_the_envelope() {
    assert_eq!(place(b"UNH+'UNT+2'"), 4);
    assert_eq!(place(b"UNH+1:'UNT+2+1'"), 6);
    assert_eq!(place(b"UNH+1:+2'UNT+2+1'"), 6);
    assert_eq!(place(b"UNH+1'UNT+2+'"), 12);
    assert_eq!(place(b"UNH+1'UNT+2+1+'"), 14);
    assert_eq!(place(b"UNH+1'UNT+2+1:'"), 14);
    assert_eq!(place(b"UNH+1'UNT+2:+1'"), 12);
    assert_eq!(place(b"UNH+1'UNS+'UNT+3+1'"), 10);
}

#[test]
fn the_separator_after_a_released_one_is_not_needless() {
    for good in [
        "AAA+?:'",
        "AAA+?+'",
        "AAA+?''",
        "AAA+??'",
        "AAA+?:+B'",
        "AAA+?++B'",
        "AAA+?'+B'",
        "AAA+??+B'",
        "AAA+B:?:+C'",
        "AAA+?::B'",
        "AAA+??:B'",
        "AAA+???:'",
        "AAA+:?:'",
    ] {
        assert!(read_message(good.as_bytes()).is_ok(), "{good}");
    }
    let segments = read_message(b"AAA+B:?:+C'").unwrap();
    assert_eq!(segments[0].component(1, 2).unwrap().value, b":");
    assert_eq!(place(b"AAA+?::'"), 7);
    assert_eq!(place(b"AAA+?++'"), 7);
    assert_eq!(place(b"AAA+??:+B'"), 7);
    assert_eq!(place(b"AAA+???::'"), 9);
}

#[test]
fn separators_before_data_part_empty_components_from_it() {
    let segments = read_message(b"CTA+IC+:P GETTY'AAA++B+::C++:D'UNS'").unwrap();
    assert_eq!(starts(&segments), [0, 16, 31]);
    assert_eq!(segments[0].component(2, 2).unwrap().value, b"P GETTY");
    let lengths = |segment: &Segment| segment.elements.iter().map(Vec::len).collect::<Vec<_>>();
    assert_eq!(lengths(&segments[0]), [1, 2]);
    assert_eq!(lengths(&segments[1]), [1, 1, 3, 1, 2]);
    assert_eq!(lengths(&segments[2]), []);
}

#[test]
fn a_text_cut_behind_a_separator_still_begins_a_message() {
    for cut in [
        "AAA+", "AAA++", "AAA+:", "AAA+B:", "AAA+B::", "AAA+?::", "AAA'AAA+",
    ] {
        assert_eq!(place(cut.as_bytes()), cut.len(), "{cut}");
    }
}

#[test]
fn components_are_found_at_their_own_place() {
    let text = b"AAA+B:E+?+C:D++:F'";
    assert_eq!(find_component(text, 0, 1, 1), part(4, 1));
    assert_eq!(find_component(text, 0, 1, 2), part(6, 1));
    assert_eq!(find_component(text, 0, 2, 1), part(8, 3));
    assert_eq!(find_component(text, 0, 2, 2), part(12, 1));
    assert_eq!(find_component(text, 0, 3, 1), part(14, 0));
    assert_eq!(find_component(text, 0, 4, 1), part(15, 0));
    assert_eq!(find_component(text, 0, 4, 2), part(16, 1));
    assert_eq!(find_component(text, 0, 5, 1), part(17, 0));
}

#[test]
fn absent_components_lie_at_the_terminator() {
    assert_eq!(find_component(b"UNS'AAA'", 0, 1, 1), part(3, 0));
    assert_eq!(find_component(b"AAA+B'AAA'", 0, 1, 2), part(5, 0));
    assert_eq!(find_component(b"AAA+B'AAA'", 0, 2, 1), part(5, 0));
}

#[test]
fn without_a_segment_or_a_number_the_part_lies_at_the_end() {
    let text = b"AAA+B'CC";
    for at in [1, 3, 5, 6, 8, 9, usize::MAX] {
        assert_eq!(find_component(text, at, 1, 1), part(8, 0));
    }
    assert_eq!(find_component(text, 0, 0, 1), part(8, 0));
    assert_eq!(find_component(text, 0, 1, 0), part(8, 0));
}

#[test]
fn a_needless_separator_leaves_no_segment_to_look_into() {
    for text in [
        "AAA+B+'BBB+C'",
        "AAA+B:'BBB+C'",
        "AAA+B:+D'BBB+C'",
        "AAA+B+?::'BBB'",
        "AAA+'",
        "AAA+B:'",
    ] {
        let end = text.len();
        assert_eq!(find_component(text.as_bytes(), 0, 1, 1), part(end, 0));
        assert_eq!(find_component(text.as_bytes(), 0, 9, 9), part(end, 0));
    }
    let text = b"AAA+B'BBB+C:'CCC+D'";
    assert_eq!(find_component(text, 0, 1, 1), part(4, 1));
    assert_eq!(find_component(text, 6, 1, 1), part(19, 0));
    assert_eq!(find_component(text, 13, 1, 1), part(17, 1));
}

/// A segment as its writer has it in mind.
#[derive(Clone, Debug, PartialEq, Eq)]
struct Intended {
    tag: Vec<u8>,
    elements: Vec<Vec<Vec<u8>>>,
}

const TAG: &[u8] = b"AAA";
const VALUE_BYTES: &[u8] = b"Aa+:'?";
const TEXT_BYTES: &[u8] = b"Aa+:'?\n";
/// Beginnings of the texts, and how many bytes follow them at most.
const BEGINNINGS: [(&[u8], usize); 3] = [(b"", 5), (b"AAA", 6), (b"AAA'AAA", 3)];
const LONGEST_TEXT: usize = 10;
/// A byte more than any text needs: of a tag whose first byte is there, two
/// bytes and `'` are missing, and nowhere more.
const LONGEST_COMPLETION: usize = 4;

fn bare_segment() -> Intended {
    Intended {
        tag: TAG.to_vec(),
        elements: Vec::new(),
    }
}

/// T-05: "An element is one empty component, or its last component has bytes; a
/// segment's last element has bytes".
fn is_valid(segment: &Intended) -> bool {
    let last = segment.elements.last();
    segment.elements.iter().all(is_valid_element) && last.is_none_or(|last| has_bytes(last))
}

fn is_valid_element(element: &Vec<Vec<u8>>) -> bool {
    let is_one_empty = *element == [b""];
    is_one_empty || element.last().is_some_and(|last| !last.is_empty())
}

fn has_bytes(element: &[Vec<u8>]) -> bool {
    element.iter().any(|component| !component.is_empty())
}

fn written_value(value: &[u8]) -> Vec<u8> {
    let mut text = Vec::new();
    for &byte in value {
        if b"+:'?".contains(&byte) {
            text.push(b'?');
        }
        text.push(byte);
    }
    text
}

fn written_segment(segment: &Intended) -> Vec<u8> {
    let mut text = segment.tag.clone();
    for element in &segment.elements {
        let components: Vec<Vec<u8>> = element.iter().map(|value| written_value(value)).collect();
        text.push(b'+');
        text.extend(components.join(&b':'));
    }
    text.push(b'\'');
    text
}

/// The message with one segment, element, component or byte more. Every valid
/// message comes from one bare segment by exactly one row of such steps. On the
/// way only what stands last may be invalid: nothing else changes any more.
fn grown(message: &[Intended]) -> Vec<Vec<Intended>> {
    let last = message.last().expect("a segment");
    let last_element = last.elements.last();
    let mut all = Vec::new();
    if is_valid(last) {
        all.push([message, &[bare_segment()]].concat());
    }
    if last_element.is_none_or(is_valid_element) {
        all.push(changed_at_the_end(message, |last| {
            last.elements.push(vec![Vec::new()])
        }));
    }
    if last_element.is_some() {
        all.push(changed_at_the_end(message, |last| {
            last.elements.last_mut().unwrap().push(Vec::new())
        }));
        all.extend(VALUE_BYTES.iter().map(|&byte| {
            changed_at_the_end(message, |last| {
                let element = last.elements.last_mut().unwrap();
                element.last_mut().unwrap().push(byte)
            })
        }));
    }
    all
}

fn changed_at_the_end(message: &[Intended], change: impl Fn(&mut Intended)) -> Vec<Intended> {
    let mut changed = message.to_vec();
    change(changed.last_mut().unwrap());
    changed
}

/// Visits every valid message of at most this length, with its text, and those
/// invalid ones that lead to them.
fn for_each_message(longest: usize, visit: &mut impl FnMut(&[u8], &[Intended])) {
    let mut waiting = vec![vec![bare_segment()]];
    while let Some(message) = waiting.pop() {
        let text: Vec<u8> = message.iter().flat_map(written_segment).collect();
        if text.len() <= longest {
            visit(&text, &message);
        }
        if text.len() < longest {
            waiting.extend(grown(&message));
        }
    }
}

/// What the writer had in mind, taken from what was read.
fn understood(segments: &[Segment]) -> Vec<Intended> {
    let values = |element: &Element| element.iter().map(|found| found.value.clone()).collect();
    segments
        .iter()
        .map(|segment| Intended {
            tag: segment.tag.to_vec(),
            elements: segment.elements.iter().map(values).collect(),
        })
        .collect()
}

/// The well-formed texts, and the texts that begin one.
#[derive(Default)]
struct Definition {
    well_formed: HashSet<Vec<u8>>,
    beginnings: HashSet<Vec<u8>>,
}

impl Definition {
    fn add(&mut self, text: &[u8]) {
        self.well_formed.insert(text.to_vec());
        for length in 0..=text.len().min(LONGEST_TEXT) {
            self.beginnings.insert(text[..length].to_vec());
        }
    }

    /// Number 4's place, word for word: the smallest offset k such that the
    /// first k+1 bytes begin no well-formed message; if none, the length.
    fn place(&self, text: &[u8]) -> usize {
        (0..text.len())
            .find(|&offset| !self.beginnings.contains(&text[..offset + 1]))
            .unwrap_or(text.len())
    }

    fn assert_read_accordingly(&self, text: &[u8]) {
        let shown = text.escape_ascii();
        let read = read_message(text);
        assert_eq!(read.is_ok(), self.well_formed.contains(text), "on {shown}");
        if let Err(place) = read {
            assert_eq!(place, self.place(text), "on {shown}");
        }
    }
}

#[test]
fn tiny_texts_are_read_as_the_definition_says() {
    let mut definition = Definition::default();
    for_each_message(LONGEST_TEXT + LONGEST_COMPLETION, &mut |text, intended| {
        let read = read_message(text);
        if !intended.iter().all(is_valid) {
            assert!(read.is_err(), "on {}", text.escape_ascii());
            return;
        }
        let segments = read.expect("a valid message is well-formed");
        assert_eq!(understood(&segments), intended);
        definition.add(text);
    });
    for (beginning, longest_tail) in BEGINNINGS {
        assert!(beginning.len() + longest_tail <= LONGEST_TEXT);
        for_each_text(TEXT_BYTES, beginning, longest_tail, &mut |text| {
            definition.assert_read_accordingly(text)
        });
    }
}
