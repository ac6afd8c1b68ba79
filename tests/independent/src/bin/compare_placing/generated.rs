//! Random sequences of homes over random books and books at a limit: allowed
//! ones, spoiled ones, and with segments that have no home.

use crate::comparison::Comparison;
use crate::subject::{Subject, Verdict};
use independent::book::generate::{good_book, nested_book, Size};
use independent::book::limits::every_limit;
use independent::placing::render::{plain_segment, write_at_home, write_homeless};
use independent::placing::sequences::allowed_sequence;
use independent::placing::spoil::spoil;
use independent::placing::Answer;
use independent::random::Random;

/// How many books of how many lines at most, and how many messages for each.
const BOOKS: [(usize, usize, usize); 4] = [
    (2_000, 7, 12),
    (3_000, 14, 16),
    (1_500, 40, 30),
    (60, 256, 40),
];
const MESSAGES_OF_A_GIVEN_BOOK: usize = 10_000;
const MESSAGES_AT_A_LIMIT: usize = 40;
const NESTED_BOOKS: usize = 700;
const MESSAGES_OF_A_NESTED_BOOK: usize = 50;

pub fn compare_all(comparison: &mut Comparison, random: &mut Random, given: &[Subject]) {
    for subject in given {
        compare_messages(comparison, random, subject, MESSAGES_OF_A_GIVEN_BOOK);
    }
    for (name, book) in every_limit() {
        let subject = Subject::good(name.to_string(), book);
        compare_messages(comparison, random, &subject, MESSAGES_AT_A_LIMIT);
    }
    for number in 1..=NESTED_BOOKS {
        let deepest = random.between(2, 7) as u8;
        let book = nested_book(random, deepest);
        let subject = Subject::good(format!("nested book {number} of depth {deepest}"), book);
        compare_messages(comparison, random, &subject, MESSAGES_OF_A_NESTED_BOOK);
    }
    for (count, most_lines, messages) in BOOKS {
        for number in 1..=count {
            let size = Size::random_lines(random, most_lines);
            let book = good_book(random, &size);
            let name = format!("random book {number} of at most {most_lines} lines");
            compare_messages(comparison, random, &Subject::good(name, book), messages);
        }
    }
}

fn compare_messages(
    comparison: &mut Comparison,
    random: &mut Random,
    subject: &Subject,
    count: usize,
) {
    for _ in 0..count {
        let message = random_message(random, subject);
        let expected = comparison.compare(subject, &message);
        // "smallest k": without that segment, the homes before it are allowed.
        if let Verdict::Exactly(Answer::Refused { place, .. }) = expected.verdict {
            let end = expected.starts[place - 1] as usize;
            comparison.compare(subject, &message[..end]);
        }
    }
}

/// Any message over the book, mostly near an allowed one.
pub fn random_message(random: &mut Random, subject: &Subject) -> Vec<u8> {
    let book = subject.book();
    let wanted = random.pick(&[3, 8, 15, 40, 80]);
    let mut homes = allowed_sequence(random, book, wanted);
    if random.chance(75) {
        for _ in 0..random.pick(&[1, 1, 1, 2, 3]) {
            spoil(random, book, &mut homes);
        }
    }
    let is_plain = random.chance(30);
    let homeless_chance = random.pick(&[0, 0, 0, 0, 2, 10]);
    let mut message = Vec::new();
    for home in homes {
        if random.chance(homeless_chance) {
            write_homeless(random, book, &mut message);
        }
        if is_plain {
            message.extend(plain_segment(book, home));
        } else {
            write_at_home(random, book, home, &mut message);
        }
    }
    message
}
