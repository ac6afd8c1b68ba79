//! Bytes of any kind: messages that break off or are none, malformed books, and
//! bytes that are no book at all.

use crate::comparison::Comparison;
use crate::generated::random_message;
use crate::subject::Subject;
use independent::book::damage::{every_damage, has_room};
use independent::book::generate::{good_book, Size};
use independent::breaking::damage_bytes;
use independent::random::Random;

const BOOKS: usize = 60;
const MOST_LINES: usize = 14;
const BROKEN_MESSAGES_PER_BOOK: usize = 200;
const CHANGED_BOOKS_PER_BOOK: usize = 200;
const RANDOM_TEXTS: usize = 10_000;
const LONGEST_TEXT: usize = 400;

pub fn compare_all(comparison: &mut Comparison, random: &mut Random, given: &[Subject]) {
    for subject in given {
        compare_every_byte(comparison, random, subject);
        compare_every_length(comparison, random, subject);
        compare_around(comparison, random, subject);
    }
    for number in 1..=BOOKS {
        let size = Size::random_lines(random, MOST_LINES);
        let book = good_book(random, &size);
        let subject = Subject::good(format!("random book {number}"), book);
        compare_around(comparison, random, &subject);
    }
    compare_noise(comparison, random, given);
}

fn compare_around(comparison: &mut Comparison, random: &mut Random, subject: &Subject) {
    compare_broken_messages(comparison, random, subject);
    compare_damaged_books(comparison, random, subject);
    compare_changed_books(comparison, random, subject);
}

/// Messages with a byte changed, put in or taken out, a separator that is
/// needless, or a cut somewhere.
fn compare_broken_messages(comparison: &mut Comparison, random: &mut Random, subject: &Subject) {
    for _ in 0..BROKEN_MESSAGES_PER_BOOK {
        let mut message = random_message(random, subject);
        damage_bytes(random, &mut message);
        comparison.compare(subject, &message);
    }
}

/// Each rule of a book broken in each way.
fn compare_damaged_books(comparison: &mut Comparison, random: &mut Random, subject: &Subject) {
    if !has_room(subject.book()) {
        return;
    }
    for damage in every_damage() {
        let bytes = damage.apply(random, subject.book());
        let name = format!("{}, {}", subject.name, damage.name);
        let damaged = Subject::from_bytes(name, bytes);
        for _ in 0..3 {
            let message = random_message(random, subject);
            comparison.compare(&damaged, &message);
        }
    }
}

/// Books with some bytes changed, mostly to such as mean something.
fn compare_changed_books(comparison: &mut Comparison, random: &mut Random, subject: &Subject) {
    for _ in 0..CHANGED_BOOKS_PER_BOOK {
        let mut bytes = subject.bytes.clone();
        for _ in 0..random.between(1, 3) {
            let at = random.below(bytes.len());
            bytes[at] = match random.below(3) {
                0 => bytes[at].wrapping_add(1),
                1 => random.pick(b"\0\x01\x02\x03\x07\x08\x80\xFFA0"),
                _ => random.byte(),
            };
        }
        let name = format!("{}, some bytes changed", subject.name);
        let changed = Subject::from_bytes(name, bytes);
        let message = random_message(random, subject);
        comparison.compare(&changed, &message);
    }
}

/// The book with other values at each of its bytes.
fn compare_every_byte(comparison: &mut Comparison, random: &mut Random, subject: &Subject) {
    for at in 0..subject.bytes.len() {
        let byte = subject.bytes[at];
        let others = [
            byte.wrapping_add(1),
            byte.wrapping_sub(1),
            0,
            255,
            random.byte(),
        ];
        for other in others {
            let mut bytes = subject.bytes.clone();
            bytes[at] = other;
            let name = format!("{} with {other} at offset {at}", subject.name);
            let message = random_message(random, subject);
            comparison.compare(&Subject::from_bytes(name, bytes), &message);
        }
    }
}

/// Every beginning of the book, and some bytes more.
fn compare_every_length(comparison: &mut Comparison, random: &mut Random, subject: &Subject) {
    for length in 0..subject.bytes.len() + 30 {
        let mut bytes = subject.bytes.clone();
        bytes.resize(length, 0);
        let name = format!("{} in {length} bytes", subject.name);
        let message = random_message(random, subject);
        comparison.compare(&Subject::from_bytes(name, bytes), &message);
    }
}

/// Random bytes as a book, as a message, and as both.
fn compare_noise(comparison: &mut Comparison, random: &mut Random, given: &[Subject]) {
    for _ in 0..RANDOM_TEXTS {
        let noise = Subject::from_bytes("random bytes".to_string(), random_text(random));
        let subject = &given[random.below(given.len())];
        let message = random_message(random, subject);
        comparison.compare(&noise, &message);
        let text = random_text(random);
        comparison.compare(&noise, &text);
        comparison.compare(subject, &text);
    }
}

/// Any bytes, or only small ones, which get further as a book.
fn random_text(random: &mut Random) -> Vec<u8> {
    let only_small = random.chance(50);
    let length = random.below(LONGEST_TEXT);
    let byte = |_| match only_small {
        true => random.below(4) as u8,
        false => random.byte(),
    };
    (0..length).map(byte).collect()
}
