//! Whether homes begin an allowed sequence. "An allowed sequence of homes runs
//! through the lines in printed order: a segment line gives 0 (1 if required)
//! up to its maximum of segments; a group gives instances likewise, each its
//! trigger and then the group's further lines."
//!
//! The last home alone tells which instances are open (those of the groups
//! around it) and which line is open in each. So what a next home needs of
//! them is worked out once for each line of the book, and the walk itself only
//! keeps the last home, and for each depth a count and the open instance's
//! trigger. What is still missing at the end could always follow: homes begin
//! an allowed sequence exactly if each step is possible.

use crate::book::Book;
use crate::described;

/// "no line deeper than 7"
const DEPTHS: usize = 8;
/// Where no required line follows: greater than every line's number.
const NONE: usize = usize::MAX;

described! {
    /// Why a home cannot follow.
    Refusal {
        NotOpen: "no instance of its group is open",
        Earlier: "its line lies before the open one",
        SegmentOverMaximum: "one segment more than the maximum",
        InstanceOverMaximum: "one instance more than the maximum",
        Omitted: "a required line before it in its instance is left out",
        OmittedAtClosing: "the instance that closes lacks a required line",
        OmittedInnermost: "several instances close, the innermost lacks a required line",
        OmittedFurtherOut: "several instances close, only one further out lacks a required line",
    }
}

/// The lines of a good book, each with what a step from it or to it needs.
pub struct Outline {
    /// By line number; entry 0 stands for the beginning, before line 1.
    stations: Vec<Station>,
}

#[derive(Clone, Copy)]
struct Station {
    depth: usize,
    /// At each depth down to its own, the group around the line that lies
    /// there, and at its own the line itself; below that 0.
    path: [usize; DEPTHS],
    /// The line that a segment of this home repeats: for a trigger its group.
    repeated: usize,
    repeated_depth: usize,
    /// The group around the repeated line, 0 at the root.
    around: usize,
    maximum: u32,
    is_trigger: bool,
    /// The next required line of the same instance.
    next_required: usize,
    /// The deepest instance that still lacks a required line after a segment
    /// of this home, by the depth of its lines; 0 if only the root does, or none.
    unfinished: usize,
}

/// Stands for the beginning, before line 1.
const BEGINNING: Station = Station {
    depth: 0,
    path: [0; DEPTHS],
    repeated: 0,
    repeated_depth: 0,
    around: 0,
    maximum: 0,
    is_trigger: false,
    next_required: 1,
    unfinished: 0,
};

impl Outline {
    pub fn of(book: &Book) -> Outline {
        let mut stations = vec![BEGINNING];
        stations.extend((0..book.lines.len()).map(|index| station(book, index)));
        for number in 1..stations.len() {
            stations[number].unfinished = unfinished(&stations, number);
        }
        Outline { stations }
    }
}

/// All but what is unfinished, which depends on the groups around.
fn station(book: &Book, index: usize) -> Station {
    let line = &book.lines[index];
    let is_trigger = book.is_trigger(index);
    let repeated_index = if is_trigger { index - 1 } else { index };
    let repeated = &book.lines[repeated_index];
    let around = book.groups_around(repeated_index);
    Station {
        depth: usize::from(line.depth),
        path: path(book, index),
        repeated: repeated_index + 1,
        repeated_depth: usize::from(repeated.depth),
        around: around.first().map_or(0, |group| group + 1),
        maximum: repeated.maximum,
        is_trigger,
        next_required: next_required(book, index),
        unfinished: 0,
    }
}

fn path(book: &Book, index: usize) -> [usize; DEPTHS] {
    let mut path = [0; DEPTHS];
    for line in book.groups_around(index).into_iter().chain([index]) {
        path[usize::from(book.lines[line].depth)] = line + 1;
    }
    path
}

/// The lines of an instance lie at one depth, up to the first line that is less
/// deep.
fn next_required(book: &Book, index: usize) -> usize {
    let depth = book.lines[index].depth;
    let after = book.lines.iter().enumerate().skip(index + 1);
    after
        .take_while(|(_, line)| line.depth >= depth)
        .find(|(_, line)| line.depth == depth && line.required)
        .map_or(NONE, |(found, _)| found + 1)
}

fn unfinished(stations: &[Station], number: usize) -> usize {
    let station = &stations[number];
    let lacks_one = |depth: &usize| stations[station.path[*depth]].next_required != NONE;
    (1..=station.depth).rev().find(lacks_one).unwrap_or(0)
}

/// How far homes have come.
pub struct Walk<'a> {
    stations: &'a [Station],
    last: usize,
    /// How many segments so far.
    segments: u32,
    /// How often the line that is open at this depth has come.
    counts: [u32; DEPTHS],
    /// The segment number of the trigger of the open instance whose lines lie
    /// at this depth, 0 at the root.
    triggers: [u32; DEPTHS],
}

impl<'a> Walk<'a> {
    pub fn new(outline: &'a Outline) -> Walk<'a> {
        Walk {
            stations: &outline.stations,
            last: 0,
            segments: 0,
            counts: [0; DEPTHS],
            triggers: [0; DEPTHS],
        }
    }

    /// Goes on to a segment with this home and answers its entry in the tree.
    /// If it cannot follow, nothing changes.
    pub fn advance(&mut self, home: usize) -> Result<u32, Refusal> {
        let from = &self.stations[self.last];
        let to = &self.stations[home];
        let depth = to.repeated_depth;
        if depth > 0 && from.path[depth - 1] != to.around {
            return Err(Refusal::NotOpen);
        }
        let open = from.path[depth];
        if to.repeated < open {
            return Err(Refusal::Earlier);
        }
        if depth < from.unfinished {
            return Err(omitted_at_closing(from, depth));
        }
        if self.stations[open].next_required < to.repeated {
            return Err(Refusal::Omitted);
        }
        let count = if to.repeated == open {
            self.counts[depth]
        } else {
            0
        };
        if count == to.maximum {
            return Err(over_maximum(to));
        }
        self.segments += 1;
        self.counts[depth] = count + 1;
        if to.is_trigger {
            self.counts[depth + 1] = 1;
            self.triggers[depth + 1] = self.segments;
        }
        self.last = home;
        Ok(self.triggers[depth])
    }
}

#[cold]
fn omitted_at_closing(from: &Station, depth: usize) -> Refusal {
    if from.depth == depth + 1 {
        Refusal::OmittedAtClosing
    } else if from.unfinished == from.depth {
        Refusal::OmittedInnermost
    } else {
        Refusal::OmittedFurtherOut
    }
}

#[cold]
fn over_maximum(to: &Station) -> Refusal {
    if to.is_trigger {
        Refusal::InstanceOverMaximum
    } else {
        Refusal::SegmentOverMaximum
    }
}
