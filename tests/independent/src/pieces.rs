//! The independent reading of a message in pieces, from 02, T-09. It has no
//! small state: it keeps the whole text, and with each byte how many entries the
//! table had that was lent with it. What a call answers, and what it leaves in
//! the table, is worked out from these by the reading of the whole message at
//! once.
//!
//! - [`cutting`]: random ways to cut a text into pieces
//! - [`lending`]: random ways to lend tables with them

pub mod cutting;
pub mod lending;

use crate::judging::plain::judge_message;
use crate::judging::{Record, LONGEST_MESSAGE, MOST_SEGMENTS};
use crate::reading::{read_segments, Segment};
use std::cell::OnceCell;

/// Entries of the state, which mean nothing here.
pub const READING_ENTRIES: usize = 8;
/// "no answer yet"
pub const GOES_ON: u32 = 0xFFFF_FFFF;
/// The state has another number of entries: "nothing changes".
pub const NO_STATE: u32 = 0xFFFF_FFFE;

#[derive(Clone, Copy, Debug, PartialEq, Eq)]
pub enum Asked<'a> {
    /// One more piece, and how many entries the table for the starts has.
    Piece {
        bytes: &'a [u8],
        entries: usize,
    },
    End,
}

/// What is asked, and how many entries are lent as the state.
#[derive(Clone, Copy, Debug, PartialEq, Eq)]
pub struct Call<'a> {
    pub asked: Asked<'a>,
    pub reading: usize,
}

impl<'a> Call<'a> {
    /// The message's end, asked of a whole state.
    pub const END: Call<'static> = Call::of(Asked::End);

    /// A piece, brought to a whole state.
    pub const fn piece(bytes: &'a [u8], entries: usize) -> Call<'a> {
        Call::of(Asked::Piece { bytes, entries })
    }

    const fn of(asked: Asked<'a>) -> Call<'a> {
        Call {
            asked,
            reading: READING_ENTRIES,
        }
    }
}

#[derive(Clone, Copy, Debug, PartialEq, Eq)]
pub enum Answer {
    GoesOn,
    NoState,
    /// The end's answer.
    Ended(Record),
}

impl Answer {
    /// As a caller gets it.
    pub fn number(self) -> u32 {
        match self {
            Answer::GoesOn => GOES_ON,
            Answer::NoState => NO_STATE,
            Answer::Ended(record) => record.number,
        }
    }

    /// What goes into the lent record, as many as fit. "GOES_ON and NO_STATE
    /// leave it alone."
    pub fn record(self) -> Vec<u32> {
        match self {
            Answer::GoesOn | Answer::NoState => Vec::new(),
            Answer::Ended(record) => record.entries().to_vec(),
        }
    }
}

/// The message that calls since the first one brought.
#[derive(Debug, Default)]
pub struct Pieces {
    text: Vec<u8>,
    lent: Vec<Lent>,
    is_ended: bool,
    /// Worked out when it is asked for, and anew once there is more text.
    whole: OnceCell<Whole>,
}

/// The bytes up to this offset, from the end of those before, each came with a
/// table of so many entries.
#[derive(Debug)]
struct Lent {
    end: usize,
    entries: usize,
}

/// A segment "that finished before any syntax fault, within the first 16,777,216
/// bytes and among the first 999,999".
#[derive(Clone, Copy, Debug, PartialEq, Eq)]
pub struct Finished {
    pub start: usize,
    pub end: usize,
    /// Whether the table that was lent with its `'` has its entry.
    pub has_entry: bool,
}

/// What the whole text at once says.
#[derive(Debug)]
pub struct Whole {
    pub finished: Vec<Finished>,
    /// All segments before the fault, whatever their number.
    pub segments: usize,
    /// Number 4's place, also where another number comes before it.
    pub fault: Option<usize>,
    /// What the end of this text is answered.
    pub answer: Record,
}

impl Whole {
    /// Whether every start found its entry.
    pub fn has_every_start(&self) -> bool {
        self.finished.iter().all(|segment| segment.has_entry)
    }
}

impl Pieces {
    pub fn call(&mut self, call: Call) -> Answer {
        if call.reading != READING_ENTRIES {
            return Answer::NoState;
        }
        if self.is_ended {
            return Answer::Ended(self.whole().answer);
        }
        match call.asked {
            Asked::Piece { bytes, entries } => {
                self.add(bytes, entries);
                Answer::GoesOn
            }
            Asked::End => {
                self.is_ended = true;
                Answer::Ended(self.whole().answer)
            }
        }
    }

    pub fn text(&self) -> &[u8] {
        &self.text
    }

    pub fn is_ended(&self) -> bool {
        self.is_ended
    }

    pub fn whole(&self) -> &Whole {
        self.whole.get_or_init(|| self.read_at_once())
    }

    /// How many entries the tables had that were lent, in their order. Several in
    /// a row that have as many are told once.
    pub fn tables(&self) -> impl Iterator<Item = usize> + '_ {
        self.lent.iter().map(|lent| lent.entries)
    }

    /// The entries, by their index, that were written by the pieces which brought
    /// the text behind this offset: "written in the call that brings its
    /// segment's terminator, if the table lent in that call has the entry".
    pub fn written_behind(&self, offset: usize) -> impl Iterator<Item = (usize, u32)> + '_ {
        let finished = &self.whole().finished;
        let earlier = finished.partition_point(|segment| segment.end <= offset);
        let later = finished.iter().enumerate().skip(earlier);
        let written = later.filter(|(_, segment)| segment.has_entry);
        written.map(|(index, segment)| (index, segment.start as u32))
    }

    fn add(&mut self, bytes: &[u8], entries: usize) {
        self.text.extend(bytes);
        let end = self.text.len();
        match self.lent.last_mut() {
            Some(last) if last.entries == entries => last.end = end,
            _ => self.lent.push(Lent { end, entries }),
        }
        self.whole = OnceCell::new();
    }

    fn read_at_once(&self) -> Whole {
        let (segments, fault) = read_segments(&self.text);
        let finished = self.finished_among(&segments);
        // Numbers 7 to 9 are not asked for, and 6 is asked of the table below.
        let at_once = judge_message(&self.text, &segments, fault, usize::MAX);
        let mut whole = Whole {
            finished,
            segments: segments.len(),
            fault,
            answer: at_once,
        };
        if ![3, 4, 5].contains(&at_once.number) {
            let number = if whole.has_every_start() { 0 } else { 6 };
            whole.answer = Record::at(number, segments.len());
        }
        whole
    }

    fn finished_among(&self, segments: &[Segment]) -> Vec<Finished> {
        let among_the_first = segments.iter().take(MOST_SEGMENTS);
        let in_time = among_the_first.take_while(|segment| segment.end <= LONGEST_MESSAGE);
        let finished = in_time.enumerate().map(|(index, segment)| Finished {
            start: segment.start,
            end: segment.end,
            has_entry: index < self.entries_lent_with(segment.terminator()),
        });
        finished.collect()
    }

    /// How many entries the table had that was lent with the byte at this offset.
    fn entries_lent_with(&self, offset: usize) -> usize {
        let index = self.lent.partition_point(|lent| lent.end <= offset);
        self.lent[index].entries
    }
}

#[cfg(test)]
mod tests;
