//! The independent placing of a message's segments in a guide book, from 01,
//! "Placing and judging", first paragraph, and numbers 10 and 11 of the table.
//! A [`Placer`] is a book prepared once; it places any message.
//!
//! - [`segments`]: the segments of any bytes, without copying them
//! - [`homes`]: the segment line that a segment belongs to
//! - [`walk`]: how far homes have come in an allowed sequence, and the tree
//! - [`sequences`], [`spoil`]: random allowed sequences of homes, and changes
//!   that mostly break them
//! - [`render`]: segments for homes, and segments without a home
//!
//! The tests hold all this against two plainer definitions.

pub mod homes;
pub mod render;
pub mod segments;
pub mod sequences;
pub mod spoil;
pub mod walk;

use crate::book::Book;
use homes::Homes;
use segments::Segments;
use walk::{Outline, Refusal, Walk};

/// The home of a segment that has none, where a number is asked for.
pub const NO_HOME: u32 = 0;

/// What placing says of a message's segments.
#[derive(Clone, Copy, Debug, PartialEq, Eq)]
pub enum Answer {
    /// Every segment has a home, and the homes begin an allowed sequence.
    Begins { segments: usize },
    /// The first segment without a home, whatever the homes before it.
    Homeless { place: usize },
    /// The smallest k whose first k homes begin no allowed sequence.
    Refused { place: usize, refusal: Refusal },
}

impl Answer {
    /// The table's number.
    pub fn number(self) -> u32 {
        match self {
            Answer::Begins { .. } => 0,
            Answer::Homeless { .. } => 10,
            Answer::Refused { .. } => 11,
        }
    }

    /// The table's place; for number 0 the segment count.
    pub fn place(self) -> usize {
        match self {
            Answer::Begins { segments } => segments,
            Answer::Homeless { place } | Answer::Refused { place, .. } => place,
        }
    }
}

/// A good book, prepared for placing.
pub struct Placer {
    homes: Homes,
    outline: Outline,
}

impl Placer {
    pub fn new(book: &Book) -> Placer {
        Placer {
            homes: Homes::of(book),
            outline: Outline::of(book),
        }
    }

    /// Number 10 is asked of the whole message before number 11.
    pub fn place(&self, message: &[u8]) -> Answer {
        let mut walk = Walk::new(&self.outline);
        let mut refused = None;
        let mut count = 0;
        for segment in Segments::of(message) {
            count += 1;
            let Some(home) = self.homes.home(segment) else {
                return Answer::Homeless { place: count };
            };
            if refused.is_none() {
                refused = walk.advance(home).err().map(|refusal| (count, refusal));
            }
        }
        match refused {
            Some((place, refusal)) => Answer::Refused { place, refusal },
            None => Answer::Begins { segments: count },
        }
    }

    /// Writes tag offsets, line numbers and the tree, for as many segments as
    /// there are and as fit into the shortest table. 01 has a tree for allowed
    /// homes only: from the first other segment on its entries mean nothing.
    pub fn write_tree(
        &self,
        message: &[u8],
        starts: &mut [u32],
        homes: &mut [u32],
        parents: &mut [u32],
    ) {
        let mut walk = Walk::new(&self.outline);
        let entries = starts.iter_mut().zip(homes).zip(parents);
        for (((start, home), parent), segment) in entries.zip(Segments::of(message)) {
            let found = self.homes.home(segment);
            *start = segment.start as u32;
            *home = found.map_or(NO_HOME, |line| line as u32);
            *parent = found.map_or(0, |line| walk.advance(line).unwrap_or(0));
        }
    }
}

#[cfg(test)]
mod definition;
#[cfg(test)]
mod tests;
