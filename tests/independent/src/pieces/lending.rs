//! Random ways to lend tables for the starts: one table throughout, or one that
//! grows, shrinks or changes in any way between the calls.

use crate::described;
use crate::random::Random;
use crate::reading::read_segments;

described! {
    /// How many entries the tables have.
    Lending {
        Ample: "more than there are segments",
        Exact: "as many as there are segments",
        OneShort: "one fewer than there are segments",
        Short: "fewer than there are segments",
        Nothing: "none",
        JustEnough: "as many as there are segments so far",
        SometimesBehind: "as many as there are segments so far, or one fewer",
        Growing: "more and more",
        Shrinking: "fewer and fewer",
        Any: "any number",
    }
}

/// Every table has as many entries.
pub const ONE_TABLE: [Lending; 5] = [
    Lending::Ample,
    Lending::Exact,
    Lending::OneShort,
    Lending::Short,
    Lending::Nothing,
];

/// Tables have at most so many entries more than there are segments.
const MOST_MORE: usize = 3;

/// What the tables of a text are lent by.
pub struct Lender {
    lending: Lending,
    /// Where the segments before any fault end.
    ends: Vec<usize>,
    /// Of the table before.
    entries: usize,
}

impl Lender {
    pub fn new(random: &mut Random, lending: Lending, text: &[u8]) -> Lender {
        let segments = read_segments(text).0;
        let ends: Vec<usize> = segments.iter().map(|segment| segment.end).collect();
        let segments = ends.len();
        let ample = segments + random.between(1, MOST_MORE);
        let entries = match lending {
            Lending::Exact => segments,
            Lending::OneShort => segments.saturating_sub(1),
            Lending::Short => random.below(segments.max(1)),
            Lending::Nothing => 0,
            Lending::Growing => random.below(2),
            _ => ample,
        };
        Lender {
            lending,
            ends,
            entries,
        }
    }

    /// How many entries the table has that comes with the piece up to this offset.
    pub fn next_entries(&mut self, random: &mut Random, piece_end: usize) -> usize {
        let finished = self.ends.partition_point(|end| *end <= piece_end);
        self.entries = match self.lending {
            Lending::JustEnough => finished,
            Lending::SometimesBehind if random.chance(10) => finished.saturating_sub(1),
            Lending::SometimesBehind => finished,
            Lending::Growing => self.most().min(self.entries + random.below(3)),
            Lending::Shrinking => self.entries.saturating_sub(random.below(3)),
            Lending::Any => random.between(0, self.most()),
            _ => self.entries,
        };
        self.entries
    }

    /// No table has more entries.
    pub fn most(&self) -> usize {
        self.ends.len() + MOST_MORE
    }
}
