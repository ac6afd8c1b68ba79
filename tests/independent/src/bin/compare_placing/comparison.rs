//! One message and book at a time, put to the proved archive and to the
//! independent placing. The first difference is printed and ends the program.

use crate::counts::Counts;
use crate::subject::{Expected, Subject};
use crate::watch::Watch;
use independent::archives;
use independent::difference::print_input;
use independent::lent::{
    empty_table, entry_in_words, entry_number, lent, CANARY, MARGIN, TABLE_NAMES,
};
use independent::random::Random;
use independent::times::Slowest;
use std::process::exit;
use std::time::Duration;

pub const PROGRAM: &str = "compare_placing";
pub const DIFFERENCE: &str = "compare_placing: DIFFERENCE";

pub struct Comparison {
    counts: Counts,
    watch: Watch,
    /// Where the lengths of lent tables come from.
    lengths: Random,
    slowest: Slowest,
}

impl Comparison {
    pub fn new(seed: u64) -> Comparison {
        Comparison {
            counts: Counts::new(),
            watch: Watch::new(),
            lengths: Random::from_seed(!seed),
            slowest: Slowest::default(),
        }
    }

    pub fn counts(&self) -> &Counts {
        &self.counts
    }

    /// Compares number and place, and tables of exactly one entry a segment and
    /// of other lengths. Answers what had to come out.
    pub fn compare(&mut self, subject: &Subject, message: &[u8]) -> Expected {
        let expected = subject.expected(message);
        self.compare_answer(subject, message, &expected);
        let segments = expected.starts.len();
        self.compare_tables(subject, message, &expected, [segments; 3]);
        let lengths = self.other_lengths(segments);
        self.compare_tables(subject, message, &expected, lengths);
        self.counts.add(subject, message, &expected);
        expected
    }

    fn compare_answer(&mut self, subject: &Subject, message: &[u8], expected: &Expected) {
        let segments = expected.starts.len();
        let asked = self.asked(segments);
        let ask = || archives::place(message, asked, &subject.bytes);
        let ((number, place), time) = self.watch.during(message, &subject.bytes, ask);
        self.note_time(subject, message, time);
        let asked = asked as usize;
        if !expected
            .verdict
            .allows((number, place as usize), segments, asked)
        {
            report(
                subject,
                message,
                &format!("number and place, asked for {asked} segments"),
                &expected.verdict.in_words(),
                &format!("{number}, place {place}"),
            );
        }
    }

    fn compare_tables(
        &mut self,
        subject: &Subject,
        message: &[u8],
        expected: &Expected,
        lengths: [usize; 3],
    ) {
        let asked = self.asked(expected.starts.len());
        let mut tables = lengths.map(empty_table);
        let [starts, homes, parents] = &mut tables;
        let ask = || {
            archives::write_tree(
                message,
                asked,
                &subject.bytes,
                lent(starts),
                lent(homes),
                lent(parents),
            )
        };
        let ((), time) = self.watch.during(message, &subject.bytes, ask);
        self.note_time(subject, message, time);
        let entries = [
            Some(&expected.starts),
            expected.homes.as_ref(),
            expected.parents.as_ref(),
        ];
        for table in 0..tables.len() {
            let written = lengths[table].min(expected.starts.len());
            let entries = entries[table].map(|entries| &entries[..written]);
            if let Some(wrong) = first_wrong(&tables[table], written, entries) {
                let question = format!(
                    "{} in tables of {lengths:?} entries, entry {}",
                    TABLE_NAMES[table], wrong.entry
                );
                report(subject, message, &question, &wrong.expected, &wrong.found);
            }
        }
    }

    /// As many segments as there are, or more: the cursor finds no others.
    fn asked(&mut self, segments: usize) -> u32 {
        segments as u32 + [0, 1, 1000][self.lengths.below(3)]
    }

    /// Longer tables, shorter ones, and tables of different lengths.
    fn other_lengths(&mut self, segments: usize) -> [usize; 3] {
        let random = &mut self.lengths;
        let mut lengths = [segments; 3];
        match random.below(4) {
            0 => lengths = lengths.map(|length| length + random.between(1, 4)),
            1 => lengths = lengths.map(|length| random.between(0, length)),
            2 => lengths[random.below(3)] = random.between(0, segments),
            _ => lengths = lengths.map(|length| random.between(0, length + 4)),
        }
        lengths
    }

    fn note_time(&mut self, subject: &Subject, message: &[u8], time: Duration) {
        self.slowest.note(time, || {
            let (bytes, name) = (message.len(), &subject.name);
            format!("{bytes} bytes over {name}")
        });
    }

    pub fn print(&self) {
        self.counts.print();
        self.slowest.print(PROGRAM);
    }
}

struct Wrong {
    entry: isize,
    expected: String,
    found: String,
}

/// The first entry that is not as it must be: the written ones as said, if that
/// is clear, and all others as they were.
fn first_wrong(table: &[u32], written: usize, entries: Option<&[u32]>) -> Option<Wrong> {
    for (index, &found) in table.iter().enumerate() {
        let is_written = (MARGIN..MARGIN + written).contains(&index);
        let expected = match entries {
            _ if !is_written => CANARY,
            Some(entries) => entries[index - MARGIN],
            None => continue,
        };
        if found != expected {
            return Some(Wrong {
                entry: entry_number(index),
                expected: entry_in_words(expected),
                found: entry_in_words(found),
            });
        }
    }
    None
}

/// Prints the difference and ends the program.
fn report(subject: &Subject, message: &[u8], question: &str, expected: &str, answered: &str) -> ! {
    println!("{DIFFERENCE}");
    println!("  question:             {question}");
    println!("  independent placing:  {expected}");
    println!("  proved archive:       {answered}");
    println!("  book:                 {}", subject.name);
    print_input(PROGRAM, message, &subject.bytes);
    exit(1)
}
