//! Random messages over given books, books at a limit and random ones: fitting
//! in every respect, or changed in one or two; with condition lists near the
//! filling that they were made for; and over broken books.

use crate::comparison::{Case, Comparison};
use independent::book::damage::{every_damage, has_room, Damage};
use independent::book::encode::encode;
use independent::book::generate::{good_book, Size};
use independent::book::limits::every_limit;
use independent::book::Book;
use independent::breaking::{damage_bytes, put_needless_separator};
use independent::judging::damage::damage;
use independent::judging::fitting::{fitting_message, livable_book, write_message, Purpose};
use independent::judging::UNKNOWN;
use independent::random::Random;

const MESSAGES_OF_A_GIVEN_BOOK: usize = 10_000;
const MESSAGES_AT_A_LIMIT: usize = 60;
/// How many books of how many lines at most, and how many messages for each.
const LIVABLE_BOOKS: [(usize, usize, usize); 4] = [
    (1_500, 6, 14),
    (6_000, 14, 23),
    (900, 40, 20),
    (20, 256, 20),
];
/// Books in which many messages have no chance.
const ANY_BOOKS: (usize, usize, usize) = (1_000, 14, 8);
/// In percent.
const BROKEN_BOOKS: usize = 4;
const BROKEN_CONDITIONS: usize = 3;
const BROKEN_BYTES: usize = 4;
const NEEDLESS_SEPARATORS: usize = 3;
const EMPTY_MESSAGES: usize = 2;
const NOISE: usize = 1;

pub fn compare_all(comparison: &mut Comparison, random: &mut Random, given: &[(String, Book)]) {
    let damages: Vec<Damage> = every_damage().collect();
    for (name, book) in given {
        let subject = Subject::new(name, book, &damages);
        subject.compare(comparison, random, MESSAGES_OF_A_GIVEN_BOOK);
    }
    for (name, book) in every_limit() {
        let subject = Subject::new(name, &book, &damages);
        subject.compare(comparison, random, MESSAGES_AT_A_LIMIT);
    }
    for (count, most_lines, messages) in LIVABLE_BOOKS {
        for number in 1..=count {
            let book = livable_book(random, most_lines);
            let name = format!("livable book {number} of at most {most_lines} lines");
            let subject = Subject::new(&name, &book, &damages);
            subject.compare(comparison, random, messages);
        }
    }
    let (count, most_lines, messages) = ANY_BOOKS;
    for number in 1..=count {
        let size = Size::random(random, most_lines);
        let book = good_book(random, &size);
        let name = format!("random book {number} of at most {most_lines} lines");
        let subject = Subject::new(&name, &book, &damages);
        subject.compare(comparison, random, messages);
    }
}

struct Subject<'a> {
    name: &'a str,
    book: &'a Book,
    bytes: Vec<u8>,
    damages: &'a [Damage],
}

impl Subject<'_> {
    fn new<'a>(name: &'a str, book: &'a Book, damages: &'a [Damage]) -> Subject<'a> {
        Subject {
            name,
            book,
            bytes: encode(book),
            damages,
        }
    }

    fn compare(&self, comparison: &mut Comparison, random: &mut Random, count: usize) {
        for _ in 0..count {
            let filling: Vec<u8> = (0..self.book.conditions)
                .map(|_| random.below(2) as u8)
                .collect();
            let message = self.random_message(random, &filling);
            let conditions = random_conditions(random, &filling);
            let mut case = Case {
                name: self.name,
                message: &message,
                book: &self.bytes,
                conditions: &conditions,
            };
            if random.chance(BROKEN_BOOKS) {
                let (name, broken) = self.broken_book(random);
                case.name = &name;
                case.book = &broken;
                comparison.compare(&case);
            } else {
                comparison.compare(&case);
            }
        }
    }

    /// A message that fits this filling, or is changed in one or two ways.
    fn random_message(&self, random: &mut Random, filling: &[u8]) -> Vec<u8> {
        if random.chance(EMPTY_MESSAGES) {
            return Vec::new();
        }
        if random.chance(NOISE) {
            return random_text(random);
        }
        let purpose = Purpose {
            book: self.book,
            identifier: random.below(self.book.identifiers.len()),
            filling,
            wanted: random.pick(&[3, 8, 15, 15, 40]),
            careless: random.pick(&[0, 0, 5, 20]),
        };
        let mut drafts = fitting_message(random, &purpose);
        for _ in 0..random.pick(&[0, 0, 1, 1, 2]) {
            damage(random, self.book, &mut drafts);
        }
        let mut message = write_message(&drafts);
        if random.chance(BROKEN_BYTES) {
            for _ in 0..random.between(1, 2) {
                damage_bytes(random, &mut message);
            }
        }
        if random.chance(NEEDLESS_SEPARATORS) {
            put_needless_separator(random, &mut message);
        }
        message
    }

    /// One rule broken, or some bytes changed: then it may still be good.
    fn broken_book(&self, random: &mut Random) -> (String, Vec<u8>) {
        if has_room(self.book) && random.chance(70) {
            let damage = random.pick(self.damages);
            let name = format!("{}, {}", self.name, damage.name);
            return (name, damage.apply(random, self.book));
        }
        let mut bytes = self.bytes.clone();
        if random.chance(10) {
            bytes.resize(random.below(bytes.len() + 30), 0);
        }
        for _ in 0..random.between(1, 2) {
            if !bytes.is_empty() {
                let at = random.below(bytes.len());
                bytes[at] = match random.below(3) {
                    0 => bytes[at].wrapping_add(1),
                    1 => random.pick(b"\0\x01\x02\x03\x07\x08\x80\xFFA0"),
                    _ => random.byte(),
                };
            }
        }
        (format!("{}, some bytes changed", self.name), bytes)
    }
}

/// Any bytes, or such as mean something.
fn random_text(random: &mut Random) -> Vec<u8> {
    let is_any = random.chance(30);
    let length = random.between(1, 40);
    let byte = |_| match is_any {
        true => random.byte(),
        false => random.pick(b"UNHTA1+:'?"),
    };
    (0..length).map(byte).collect()
}

/// The filling itself, or with conditions that are not known, or are otherwise;
/// now and then no list for the book at all.
fn random_conditions(random: &mut Random, filling: &[u8]) -> Vec<u8> {
    let unknown_percent = random.pick(&[0, 5, 10, 30, 60, 100]);
    let other_percent = random.pick(&[0, 0, 10, 50]);
    let mut conditions: Vec<u8> = filling
        .iter()
        .map(|byte| {
            if random.chance(unknown_percent) {
                UNKNOWN
            } else if random.chance(other_percent) {
                1 - byte
            } else {
                *byte
            }
        })
        .collect();
    if random.chance(BROKEN_CONDITIONS) {
        break_conditions(random, &mut conditions);
    }
    conditions
}

fn break_conditions(random: &mut Random, conditions: &mut Vec<u8>) {
    match random.below(3) {
        0 if !conditions.is_empty() => {
            let at = random.below(conditions.len());
            conditions[at] = random.pick(&[3, 4, 127, 128, 129, 130, 255]);
        }
        1 if !conditions.is_empty() => drop(conditions.pop()),
        _ => conditions.push(random.pick(&[0, 1, 2, 3])),
    }
}
