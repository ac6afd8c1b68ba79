//! Numbers 14 and 15: "the first row, by line and then by instance, that some
//! filling breaks".
//!
//! Whether a row is broken in an instance depends only on whether its line is
//! present there. So what counts of a message is, for each line, the first
//! instance of its parent that has it and the first that has it not; one pass
//! over the homes finds both.

use crate::book::{Book, Condition, Expression, Joint, Row};
use crate::judging::UNKNOWN;

/// A row that some filling breaks.
#[derive(Clone, Copy, Debug, PartialEq, Eq)]
pub struct BrokenRow {
    pub line: usize,
    pub place: usize,
    pub outcome: Outcome,
}

/// What all fillings of the unknown conditions say of a row.
#[derive(Clone, Copy, Debug, PartialEq, Eq)]
pub enum Outcome {
    Kept,
    Broken,
    Open { lowest_unknown: u8 },
}

/// The first row that some filling breaks. The homes must be allowed, and the
/// conditions as many as the book says.
pub fn first_broken(
    book: &Book,
    rows: &[Row],
    conditions: &[u8],
    homes: &[u32],
) -> Option<BrokenRow> {
    let lines = Lines::met(book, homes);
    for (index, row) in rows.iter().enumerate() {
        let line = &lines.by_number[index + 1];
        let found = [
            (line.first_instance_with(), outcome(row, true, conditions)),
            (
                line.first_instance_without(&lines),
                outcome(row, false, conditions),
            ),
        ]
        .into_iter()
        .filter(|(_, outcome)| *outcome != Outcome::Kept)
        .filter_map(|(instance, outcome)| Some((instance?, outcome)))
        .min_by_key(|(instance, _)| *instance);
        if let Some((instance, outcome)) = found {
            let place = if line.first_instance_with() == Some(instance) {
                line.first_segment
            } else {
                trigger_of(line.parent, instance, homes)
            };
            return Some(BrokenRow {
                line: index + 1,
                place,
                outcome,
            });
        }
    }
    None
}

/// By every filling of the row's unknown conditions, at most eight.
pub fn outcome(row: &Row, is_present: bool, conditions: &[u8]) -> Outcome {
    let expression = match row {
        Row::Never => return decided(is_present),
        Row::Must => return decided(!is_present),
        Row::May => return Outcome::Kept,
        Row::MustIf(expression) | Row::MayIf(expression) => expression,
    };
    let unknown = |condition: &&Condition| known_byte(condition.number, conditions) == UNKNOWN;
    let unknowns = expression.conditions.iter().filter(unknown).count();
    let fillings = 1 << unknowns;
    let broken = (0..fillings)
        .filter(|filling| {
            let holds = holds(expression, conditions, *filling);
            match row {
                Row::MustIf(_) => is_present != holds,
                _ => is_present && !holds,
            }
        })
        .count();
    if broken == 0 {
        return Outcome::Kept;
    }
    match expression.conditions.iter().find(unknown) {
        Some(lowest) if broken < fillings => Outcome::Open {
            lowest_unknown: lowest.number,
        },
        _ => Outcome::Broken,
    }
}

fn decided(is_broken: bool) -> Outcome {
    if is_broken {
        Outcome::Broken
    } else {
        Outcome::Kept
    }
}

fn known_byte(number: u8, conditions: &[u8]) -> u8 {
    conditions[usize::from(number) - 1]
}

/// Whether the expression holds when each unknown condition, in its order,
/// takes the next bit of the filling.
fn holds(expression: &Expression, conditions: &[u8], filling: usize) -> bool {
    let mut bits = filling;
    let mut values = expression.conditions.iter().map(|condition| {
        let is_true = match known_byte(condition.number, conditions) {
            UNKNOWN => {
                let bit = bits & 1;
                bits >>= 1;
                bit == 1
            }
            byte => byte == 1,
        };
        is_true != condition.negated
    });
    match expression.joint {
        Joint::All => values.all(|value| value),
        Joint::Any => values.any(|value| value),
    }
}

/// What the homes show of the lines.
struct Lines {
    /// Entry 0 stands for the root, which has one instance.
    by_number: Vec<Met>,
}

#[derive(Clone, Copy, Default)]
struct Met {
    /// The group around the line, 0 at the root.
    parent: usize,
    /// Of a group, how many instances there are in the whole message.
    instances: usize,
    /// Whether a segment of this line opens an instance of the group before it.
    is_trigger: bool,
    /// The first segment, 0 if there is none, and the number of the parent's
    /// instance that holds it.
    first_segment: usize,
    first_instance: usize,
    /// How many of the parent's instances, from the first on, have the line
    /// without a gap.
    unbroken: usize,
}

impl Lines {
    fn met(book: &Book, homes: &[u32]) -> Lines {
        let root = Met {
            instances: 1,
            ..Met::default()
        };
        let mut by_number = vec![root];
        by_number.extend((0..book.lines.len()).map(|index| {
            Met {
                parent: book
                    .groups_around(index)
                    .first()
                    .map_or(0, |group| group + 1),
                is_trigger: book.is_trigger(index),
                ..Met::default()
            }
        }));
        let mut lines = Lines { by_number };
        for (index, &home) in homes.iter().enumerate() {
            let home = home as usize;
            if lines.by_number[home].is_trigger {
                lines.meet(home - 1, index + 1);
                lines.by_number[home - 1].instances += 1;
            }
            lines.meet(home, index + 1);
        }
        lines
    }

    /// Instances come one after another: the parent's last one is open.
    fn meet(&mut self, line: usize, segment: usize) {
        let instance = self.by_number[self.by_number[line].parent].instances;
        let met = &mut self.by_number[line];
        if met.first_segment == 0 {
            met.first_segment = segment;
            met.first_instance = instance;
        }
        if instance == met.unbroken + 1 {
            met.unbroken = instance;
        }
    }
}

/// The place of a group's instance; the root, which has no trigger, has 1.
fn trigger_of(group: usize, instance: usize, homes: &[u32]) -> usize {
    if group == 0 {
        return 1;
    }
    let is_trigger = |(_, home): &(usize, &u32)| **home as usize == group + 1;
    let mut triggers = homes.iter().enumerate().filter(is_trigger);
    let (index, _) = triggers
        .nth(instance - 1)
        .expect("so many instances were counted");
    index + 1
}

impl Met {
    /// By its number.
    fn first_instance_with(&self) -> Option<usize> {
        (self.first_segment > 0).then_some(self.first_instance)
    }

    fn first_instance_without(&self, lines: &Lines) -> Option<usize> {
        let instances = lines.by_number[self.parent].instances;
        (self.unbroken < instances).then_some(self.unbroken + 1)
    }
}
