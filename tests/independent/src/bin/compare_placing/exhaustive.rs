//! Small books: every sequence of homes up to a length, with a segment without
//! a home among them, and longer ones as long as all but their last segment
//! have homes that begin an allowed sequence.

use crate::comparison::Comparison;
use crate::subject::{Subject, Verdict};
use independent::book::generate::{good_book, Size};
use independent::placing::render::plain_segment;
use independent::placing::Answer;
use independent::random::Random;

/// For one of the given books, and for one of the generated ones.
const GIVEN: Limits = Limits {
    of_all: 120_000,
    in_total: 180_000,
};
const GENERATED: Limits = Limits {
    of_all: 4_000,
    in_total: 8_000,
};
const GENERATED_BOOKS: usize = 40;
const MOST_LINES: usize = 7;
const LONGEST: u32 = 40;
const HOMELESS: &[u8] = b"ZZ0'";

#[derive(Clone, Copy)]
struct Limits {
    /// Lengths with more sequences than this are not compared in full.
    of_all: usize,
    /// No longer sequences after so many.
    in_total: usize,
}

pub fn compare_all(comparison: &mut Comparison, random: &mut Random, given: &[Subject]) {
    for subject in given {
        compare_book(comparison, subject, GIVEN);
    }
    for number in 1..=GENERATED_BOOKS {
        let size = Size::random_lines(random, MOST_LINES);
        let book = good_book(random, &size);
        let subject = Subject::good(format!("small random book {number}"), book);
        compare_book(comparison, &subject, GENERATED);
    }
}

/// Goes from length to length.
fn compare_book(comparison: &mut Comparison, subject: &Subject, limits: Limits) {
    let segments = every_segment(subject);
    let mut beginnings = vec![Vec::new()];
    let mut compared = 0;
    for length in 1..=LONGEST {
        let keeps_all = segments.len().saturating_pow(length + 1) <= limits.of_all;
        let mut longer = Vec::new();
        for beginning in &beginnings {
            for segment in &segments {
                let message = [beginning, segment.as_slice()].concat();
                let verdict = comparison.compare(subject, &message).verdict;
                if keeps_all || matches!(verdict, Verdict::Exactly(Answer::Begins { .. })) {
                    longer.push(message);
                }
            }
        }
        compared += beginnings.len() * segments.len();
        if longer.is_empty() || compared + longer.len() * segments.len() > limits.in_total {
            return;
        }
        beginnings = longer;
    }
}

/// The shortest segment of each segment line, and one without a home.
fn every_segment(subject: &Subject) -> Vec<Vec<u8>> {
    let lines = subject.book().lines.iter().enumerate();
    let homes = lines.filter(|(_, line)| !line.is_group());
    let at_home = homes.map(|(index, _)| plain_segment(subject.book(), index + 1));
    at_home.chain([HOMELESS.to_vec()]).collect()
}
