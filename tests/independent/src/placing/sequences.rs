//! Random allowed sequences of homes, written line by line from a good book.

use crate::book::Book;
use crate::random::Random;
use std::ops::Range;

/// Repetitions beyond this are rare in a random sequence: only a maximum this
/// small is reached.
const MOST_REPETITIONS: usize = 4;

/// An allowed sequence, from UNH to UNT. It grows longer than `wanted` only by
/// what is required.
pub fn allowed_sequence(random: &mut Random, book: &Book, wanted: usize) -> Vec<usize> {
    let generosity = random.pick(&[15, 40, 70, 95]);
    let mut sequence = Sequence {
        book,
        wanted,
        generosity,
        homes: Vec::new(),
    };
    sequence.write_lines(random, 0..book.lines.len());
    sequence.homes
}

struct Sequence<'a> {
    book: &'a Book,
    wanted: usize,
    /// How often, in percent, a line comes more often than it must.
    generosity: usize,
    homes: Vec<usize>,
}

impl Sequence<'_> {
    fn write_lines(&mut self, random: &mut Random, range: Range<usize>) {
        let mut index = range.start;
        while index < range.end {
            for _ in 0..self.repetitions(random, index) {
                self.write_once(random, index);
            }
            index = self.book.end_of(index);
        }
    }

    fn write_once(&mut self, random: &mut Random, index: usize) {
        if self.book.lines[index].is_group() {
            self.write_lines(random, index + 1..self.book.end_of(index));
        } else {
            self.homes.push(index + 1);
        }
    }

    fn repetitions(&self, random: &mut Random, index: usize) -> usize {
        let line = &self.book.lines[index];
        let least = usize::from(line.required);
        let most = MOST_REPETITIONS.min(line.maximum as usize);
        if self.homes.len() < self.wanted && random.chance(self.generosity) {
            random.between(1, most)
        } else {
            least
        }
    }
}
