//! Messages in an envelope, for numbers 7, 8, 9 and 0: every short one, every
//! byte in tag, count and reference, and random ones, right and wrong.

use crate::comparison::Comparison;
use independent::breaking::damage_bytes;
use independent::envelope::{for_each_byte, for_each_closing, for_each_envelope};
use independent::random::Random;
use independent::writing::{any_component, write_any_segment, write_segment, Elements};

const LONGEST_MIDDLE: usize = 3;
const SHORT_MESSAGES: usize = 30_000;
const LONG_MESSAGES: usize = 24;
const LONG_MESSAGE_SEGMENTS: usize = 20_000;

pub fn compare_every_short_one(comparison: &mut Comparison) {
    let mut compare = |text: &[u8]| {
        comparison.compare_answer(text);
    };
    for_each_envelope(LONGEST_MIDDLE, &mut compare);
    for_each_closing(&mut compare);
    for_each_byte(&mut compare);
}

pub fn compare_random_ones(comparison: &mut Comparison, random: &mut Random) {
    for _ in 0..SHORT_MESSAGES {
        let segments = random.below(9);
        compare_random(comparison, random, segments);
    }
    for _ in 0..LONG_MESSAGES {
        let segments = random.between(1, LONG_MESSAGE_SEGMENTS);
        compare_random(comparison, random, segments);
    }
}

/// The message as it is, and with some byte changed.
fn compare_random(comparison: &mut Comparison, random: &mut Random, segments: usize) {
    let mut text = message(random, segments);
    comparison.compare_text(&text);
    damage_bytes(random, &mut text);
    comparison.compare_text(&text);
}

/// So many segments between UNH and UNT, in half of the messages with nothing
/// wrong.
fn message(random: &mut Random, segments: usize) -> Vec<u8> {
    let mut middle: Vec<Vec<u8>> = (0..segments).map(|_| segment(random)).collect();
    let mut count = (segments + 2).to_string();
    let mut opening = any_component(random);
    let mut closing = opening.clone();
    match random.below(10) {
        0 => {
            let another = random.pick(&["UNH+1'", "UNT+3+1'", "UNT'"]);
            middle.insert(random.between(0, segments), another.into());
            count = (segments + 3).to_string();
        }
        1 => count = wrong_count(random, segments + 2),
        2 => closing = any_component(random),
        3 => damage_bytes(random, &mut closing),
        4 => damage_bytes(random, &mut opening),
        _ => {}
    }
    let mut text = Vec::new();
    write_segment(*b"UNH", &with_more(random, vec![vec![opening]]), &mut text);
    text.extend(middle.concat());
    let elements = vec![vec![count.into_bytes()], vec![closing]];
    write_segment(*b"UNT", &with_more(random, elements), &mut text);
    text
}

/// In a third of the cases with more data, which nothing looks at.
fn with_more(random: &mut Random, mut elements: Elements) -> Elements {
    let [unt, one, nine] = ["UNT", "1", "9"].map(|text| text.as_bytes().to_vec());
    match random.below(6) {
        0 => elements.extend([vec![Vec::new()], vec![Vec::new(), nine]]),
        1 => {
            let last = elements.len() - 1;
            elements[last].push(nine);
            elements.extend([vec![unt], vec![one]]);
        }
        _ => {}
    }
    elements
}

fn segment(random: &mut Random) -> Vec<u8> {
    let mut text = Vec::new();
    write_any_segment(random, &mut text);
    text
}

fn wrong_count(random: &mut Random, n: usize) -> String {
    match random.below(4) {
        0 => (n + 1).to_string(),
        1 => (n - 1).to_string(),
        2 => format!("0{n}"),
        _ => (n + 65_536).to_string(),
    }
}
