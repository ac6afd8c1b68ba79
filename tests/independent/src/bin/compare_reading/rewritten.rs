//! T-11 from the outside: "two messages which are well-formed under the same
//! service characters and have the same tags and the same component values at
//! all places are the same bytes." The archives alone say whether a text is
//! well-formed and what its tags and values are. The independent writer sees
//! nothing else and must write the very text, so no other text has the same.

use crate::comparison::{report, Comparison};
use independent::archives;
use independent::breaking::damage_bytes;
use independent::content::{Content, Place};
use independent::enumeration::for_each_text;
use independent::random::Random;
use independent::writing::short_message;
use std::ops::Range;

/// A byte of tags and of data, and every mark.
const ALPHABET: [u8; 5] = *b"A+:'?";
/// Beginnings of texts, and how many bytes follow them at most.
const BEGINNINGS: [(&str, usize); 2] = [("AAA", 10), ("AAA+A:A'A1A", 9)];
const RANDOM_TEXTS: usize = 15_000;
/// A tag and `'`.
const SHORTEST_SEGMENT: usize = 4;

pub fn compare_all(comparison: &mut Comparison, random: &mut Random) {
    for (beginning, longest_tail) in BEGINNINGS {
        for_each_text(&ALPHABET, beginning.as_bytes(), longest_tail, &mut |text| {
            compare_if_well_formed(comparison, text);
        });
    }
    for _ in 0..RANDOM_TEXTS {
        compare_random(comparison, random);
    }
}

/// A message, and what is still one with some byte changed: that is not always
/// the work of the writer.
fn compare_random(comparison: &mut Comparison, random: &mut Random) {
    let mut text = short_message(random);
    if !compare_if_well_formed(comparison, &text) {
        report(&text, 0, "is it well-formed?", &true, &false);
    }
    damage_bytes(random, &mut text);
    compare_if_well_formed(comparison, &text);
}

/// Answers whether it is.
fn compare_if_well_formed(comparison: &mut Comparison, text: &[u8]) -> bool {
    let Some(segments) = segments(text) else {
        return false;
    };
    let contents: Vec<Content> = segments
        .into_iter()
        .map(|segment| content(text, segment))
        .collect();
    comparison.compare_written_again(text, &contents);
    true
}

/// Where the segments of a well-formed text lie.
fn segments(text: &[u8]) -> Option<Vec<Range<usize>>> {
    let mut at = 0;
    let mut segments = Vec::new();
    // "A message is one or more segments": the first is asked for even in no
    // bytes.
    while at < text.len() || segments.is_empty() {
        let end = end_of_segment(text, at)?;
        segments.push(at..end);
        at = end;
    }
    Some(segments)
}

/// The offset after the segment that starts at `at`, if one does.
fn end_of_segment(text: &[u8], at: usize) -> Option<usize> {
    let possible = at + SHORTEST_SEGMENT..=text.len();
    match archives::next(text, at) {
        0 => None,
        end if possible.contains(&end) => Some(end),
        end => {
            let question = format!("offset after the segment at {at}");
            report(text, at, &question, &possible, &end)
        }
    }
}

fn content(text: &[u8], segment: Range<usize>) -> Content {
    let at = segment.start;
    Content::of(&text[segment], |place| part_at(text, at, place))
}

/// The component's text, nothing if it is absent.
fn part_at(text: &[u8], at: usize, (element, component): Place) -> &[u8] {
    let mut part = [0; 2];
    archives::find_component(text, at, element, component, &mut part);
    let [offset, length] = part;
    let rest = text.get(offset..).unwrap_or_default();
    rest.get(..length).unwrap_or_else(|| {
        let question = format!(
            "offset and length, in the text, for the segment at {at}, \
             element {element}, component {component}"
        );
        report(text, at, &question, &(0..=text.len()), &part)
    })
}
