//! What "homes begin an allowed sequence" means, twice, both with no thought of
//! speed and with no state but the lines themselves:
//!
//! - [`Definition`] writes down all allowed sequences of a book as 01 says,
//!   each with its tree, and cuts each after some segments.
//! - [`begins`] looks for the sequence among the lines, with the set of all
//!   places in it that a line may have come to.

use crate::book::{Book, Line};
use std::collections::{BTreeMap, BTreeSet};
use std::ops::Range;

/// A segment of a written sequence: the number of its home, and the index in
/// the sequence of the trigger that its tree entry names, if one does.
type Written = (usize, Option<usize>);
type Sequences = BTreeSet<Vec<Written>>;

/// Every beginning of an allowed sequence up to a length, with its tree.
pub struct Definition {
    longest: usize,
    trees: BTreeMap<Vec<usize>, Vec<u32>>,
}

impl Definition {
    pub fn of(book: &Book, longest: usize) -> Definition {
        let writer = Writer { book, longest };
        let mut trees = BTreeMap::new();
        for sequence in writer.lines(0..book.lines.len()) {
            for length in 0..=sequence.len() {
                add_beginning(&mut trees, &sequence[..length]);
            }
        }
        Definition { longest, trees }
    }

    /// The tree's entries, if the homes begin an allowed sequence.
    pub fn tree(&self, homes: &[usize]) -> Option<&[u32]> {
        self.trees.get(homes).map(Vec::as_slice)
    }

    pub fn longest(&self) -> usize {
        self.longest
    }

    pub fn beginnings(&self) -> usize {
        self.trees.len()
    }
}

/// Two allowed sequences that begin with the same homes must have the same tree
/// there, or 01's tree would not be one.
fn add_beginning(trees: &mut BTreeMap<Vec<usize>, Vec<u32>>, beginning: &[Written]) {
    let homes = beginning.iter().map(|(home, _)| *home).collect();
    let number = |index: Option<usize>| index.map_or(0, |index| index as u32 + 1);
    let tree: Vec<u32> = beginning
        .iter()
        .map(|(_, trigger)| number(*trigger))
        .collect();
    let written = trees.entry(homes).or_insert_with(|| tree.clone());
    assert_eq!(*written, tree, "two trees");
}

struct Writer<'a> {
    book: &'a Book,
    longest: usize,
}

impl Writer<'_> {
    /// "runs through the lines in printed order"
    fn lines(&self, range: Range<usize>) -> Sequences {
        let mut sequences = empty_sequence_alone();
        let mut index = range.start;
        while index < range.end {
            sequences = self.joined(&sequences, &self.repetitions(index));
            index = self.book.end_of(index);
        }
        sequences
    }

    /// "0 (1 if required) up to its maximum". Each repetition has at least one
    /// segment, so that after the longest length more of them are cut away.
    fn repetitions(&self, index: usize) -> Sequences {
        let Line {
            required, maximum, ..
        } = self.book.lines[index];
        let once = self.once(index);
        let mut repeated = empty_sequence_alone();
        let mut sequences = Sequences::new();
        if !required {
            sequences.extend(repeated.clone());
        }
        for _ in 0..self.longest.min(maximum as usize) {
            repeated = self.joined(&repeated, &once);
            sequences.extend(repeated.clone());
        }
        sequences
    }

    /// One segment, or one instance.
    fn once(&self, index: usize) -> Sequences {
        if !self.book.lines[index].is_group() {
            return Sequences::from([vec![(index + 1, None)]]);
        }
        let inside = self.lines(index + 1..self.book.end_of(index));
        inside.into_iter().map(held_by_the_first).collect()
    }

    /// One after the other, cut. What follows a first is cut to the room that
    /// the first leaves, so that each result is made only once.
    fn joined(&self, firsts: &Sequences, seconds: &Sequences) -> Sequences {
        let rooms = 0..=self.longest;
        let cut: Vec<Sequences> = rooms.map(|room| cut_to(seconds, room)).collect();
        let mut sequences = Sequences::new();
        for first in firsts {
            for second in &cut[self.longest - first.len()] {
                sequences.insert(followed(first, second));
            }
        }
        sequences
    }
}

fn cut_to(sequences: &Sequences, longest: usize) -> Sequences {
    let cut = |sequence: &Vec<Written>| sequence.iter().take(longest).copied().collect();
    sequences.iter().map(cut).collect()
}

/// The second one's triggers move with it.
fn followed(first: &[Written], second: &[Written]) -> Vec<Written> {
    let moved = |trigger: Option<usize>| trigger.map(|index| first.len() + index);
    let second = second
        .iter()
        .map(|(home, trigger)| (*home, moved(*trigger)));
    first.iter().copied().chain(second).collect()
}

fn empty_sequence_alone() -> Sequences {
    Sequences::from([Vec::new()])
}

/// Of an instance's segments, the first is its trigger, which does not hold
/// itself; those that no inner instance holds are held by it.
fn held_by_the_first(mut instance: Vec<Written>) -> Vec<Written> {
    for (_, trigger) in instance.iter_mut().skip(1) {
        trigger.get_or_insert(0);
    }
    instance
}

/// Whether the homes begin an allowed sequence. A place in the homes is how
/// many of them lie before it; at the end, anything may still follow them.
pub fn begins(book: &Book, homes: &[usize]) -> bool {
    let finder = Finder { book, homes };
    let ends = finder.after_lines(0..book.lines.len(), BTreeSet::from([0]));
    ends.contains(&homes.len())
}

struct Finder<'a> {
    book: &'a Book,
    homes: &'a [usize],
}

type Places = BTreeSet<usize>;

impl Finder<'_> {
    fn after_lines(&self, range: Range<usize>, mut places: Places) -> Places {
        let mut index = range.start;
        while index < range.end {
            places = self.after_repetitions(index, places);
            index = self.book.end_of(index);
        }
        places
    }

    fn after_repetitions(&self, index: usize, before: Places) -> Places {
        let line = &self.book.lines[index];
        let mut after = Places::new();
        if !line.required {
            after.extend(&before);
        }
        let mut repeated = before;
        for _ in 0..line.maximum {
            let once_more = self.after_one(index, &repeated);
            after.extend(&once_more);
            if once_more == repeated {
                break;
            }
            repeated = once_more;
        }
        after
    }

    fn after_one(&self, index: usize, places: &Places) -> Places {
        if self.book.lines[index].is_group() {
            return self.after_lines(index + 1..self.book.end_of(index), places.clone());
        }
        let end = self.homes.len();
        let follows = |place: usize| match self.homes.get(place) {
            None => Some(end),
            Some(home) => (*home == index + 1).then_some(place + 1),
        };
        places.iter().filter_map(|place| follows(*place)).collect()
    }
}
