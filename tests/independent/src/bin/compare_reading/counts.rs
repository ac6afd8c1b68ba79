//! How many cases of each kind a run met: it must meet them all, so that it
//! cannot pass without having looked.

use crate::harmless::{harmless_in, Harmless};
use crate::kinds::Kind;
use independent::judging::Record;
use independent::needless::{needless_at, Causes};
use independent::reading::Segment;

/// Numbers up to this one are of the message alone.
const HIGHEST_NUMBER: usize = 9;

/// Cases of each kind, and messages of each number.
pub struct Counts {
    by_kind: Vec<u64>,
    by_number: [u64; HIGHEST_NUMBER + 1],
    /// The needless separators among the causes of number 4.
    needless: Causes,
    /// What looks like one in well-formed messages.
    harmless: Vec<u64>,
}

impl Counts {
    pub fn new() -> Counts {
        Counts {
            by_kind: vec![0; Kind::EVERY.len()],
            by_number: [0; HIGHEST_NUMBER + 1],
            needless: Causes::default(),
            harmless: vec![0; Harmless::EVERY.len()],
        }
    }

    pub fn add(&mut self, kind: Kind) {
        self.by_kind[kind as usize] += 1;
    }

    /// By what the independent judge says of a message, and by its segments.
    pub fn add_message(&mut self, text: &[u8], segments: &[Segment], record: Record) {
        let kind = Kind::of_message(text, segments, record);
        self.add(kind);
        self.by_number[record.number as usize] += 1;
        if kind == Kind::NeedlessSeparator {
            let needless = needless_at(text, record.place as usize);
            self.needless.add(needless.expect("its kind"));
        } else if record.number != 3 && record.number != 4 {
            self.add_harmless(text, segments);
        }
    }

    fn add_harmless(&mut self, text: &[u8], segments: &[Segment]) {
        for segment in segments {
            for found in harmless_in(text, segment) {
                self.harmless[found as usize] += 1;
            }
        }
    }

    pub fn total(&self) -> u64 {
        self.by_kind.iter().sum()
    }

    pub fn print(&self) {
        for (kind, count) in Kind::EVERY.iter().zip(&self.by_kind) {
            println!("{count:>12}  {}", kind.description());
        }
        println!("compare_reading: the needless separators");
        self.needless.print();
        println!("compare_reading: in well-formed messages, and not needless");
        for (harmless, count) in Harmless::EVERY.iter().zip(&self.harmless) {
            println!("{count:>12}  {}", harmless.description());
        }
        let numbers = self.by_number.iter().enumerate();
        let met = numbers.filter(|(_, count)| **count > 0);
        let words: Vec<String> = met
            .map(|(number, count)| format!("{count} times {number}"))
            .collect();
        println!("compare_reading: of messages alone {}", words.join(", "));
    }

    /// A kind that was not met.
    pub fn first_missing(&self) -> Option<String> {
        let kinds = Kind::EVERY.iter().map(|kind| kind.description());
        let harmless = Harmless::EVERY
            .iter()
            .map(|harmless| harmless.description());
        let mut counted = kinds.zip(&self.by_kind).chain(harmless.zip(&self.harmless));
        let missing = counted.find(|(_, count)| **count == 0);
        let missing = missing.map(|(description, _)| description.to_string());
        missing.or_else(|| self.needless.first_below(1))
    }
}
