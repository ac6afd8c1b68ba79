//! One case at a time, put to the proved archive, to the independent judge and,
//! if it is not long, to the plain judge by all fillings. The first difference
//! is printed and ends the program.

use independent::archives;
use independent::difference::print_input;
use independent::judging::plain::judge_by_fillings;
use independent::judging::{judge, Record, UNKNOWN};
use independent::lent::{empty_table, entry_in_words, entry_number, lent, TABLE_NAMES};
use independent::needless::{needless_at, Causes};
use independent::placing::segments::Segments;
use independent::random::Random;
use independent::times::Slowest;
use std::process::exit;
use std::time::Instant;

const NUMBERS: usize = 16;
/// What each number is given for.
const WORDS: [&str; NUMBERS] = [
    "none of the faults",
    "book malformed",
    "conditions",
    "length",
    "not well-formed",
    "too many segments",
    "a table too short",
    "UNH and UNT",
    "count",
    "reference",
    "no home",
    "homes not allowed",
    "field",
    "Prüfidentifikator",
    "row broken",
    "row open",
];
const MOST_RECORD_ENTRIES: usize = 8;
/// Longer messages are not put to the plain judge.
const LONGEST_FOR_PLAIN: usize = 20_000;

/// What is put to both.
pub struct Case<'a> {
    pub name: &'a str,
    pub message: &'a [u8],
    pub book: &'a [u8],
    pub conditions: &'a [u8],
}

type Tables = [Vec<u32>; 3];

pub struct Comparison {
    met: [u64; NUMBERS],
    /// The needless separators among the causes of number 4.
    needless: Causes,
    /// How many cases were put to the plain judge, and how many of these had
    /// unknown conditions, without and with a verdict that they leave open.
    plain: u64,
    unknown_decided: u64,
    unknown_open: u64,
    /// Where the lengths of lent tables come from.
    lengths: Random,
    slowest: Slowest,
}

impl Comparison {
    pub fn new(seed: u64) -> Comparison {
        Comparison {
            met: [0; NUMBERS],
            needless: Causes::default(),
            plain: 0,
            unknown_decided: 0,
            unknown_open: 0,
            lengths: Random::from_seed(!seed),
            slowest: Slowest::default(),
        }
    }

    /// Compares over tables of any lengths, mostly long enough.
    pub fn compare(&mut self, case: &Case) -> Record {
        let segments = Segments::of(case.message).count();
        let lengths = self.table_lengths(segments);
        self.compare_over(case, lengths)
    }

    pub fn compare_over(&mut self, case: &Case, lengths: [usize; 3]) -> Record {
        let mut expected = lengths.map(empty_table);
        let [starts, homes, parents] = lent_tables(&mut expected);
        let record = judge(
            case.message,
            case.book,
            case.conditions,
            starts,
            homes,
            parents,
        );
        self.compare_with_plain(case, lengths, record);
        self.compare_with_archive(case, lengths, record, &expected);
        self.count(case.message, record);
        record
    }

    fn count(&mut self, message: &[u8], record: Record) {
        self.met[record.number as usize] += 1;
        if record.number == 4 {
            if let Some(needless) = needless_at(message, record.place as usize) {
                self.needless.add(needless);
            }
        }
    }

    /// Demand 3, if conditions are unknown.
    fn compare_with_plain(&mut self, case: &Case, lengths: [usize; 3], record: Record) {
        if case.message.len() > LONGEST_FOR_PLAIN {
            return;
        }
        let shortest = lengths.into_iter().fold(usize::MAX, usize::min);
        let plain = judge_by_fillings(case.message, case.book, case.conditions, shortest);
        let Some(plain) = plain else {
            return;
        };
        if plain != record {
            println!("compare_judge: DIFFERENCE between the two independent judges");
            println!("  quick judge:          {record:?}");
            println!("  plain, by fillings:   {plain:?}");
            print_and_exit(case, lengths);
        }
        self.plain += 1;
        if case.conditions.contains(&UNKNOWN) {
            match record.number {
                15 => self.unknown_open += 1,
                _ => self.unknown_decided += 1,
            }
        }
    }

    fn compare_with_archive(
        &mut self,
        case: &Case,
        lengths: [usize; 3],
        record: Record,
        expected: &Tables,
    ) {
        let mut answered = lengths.map(empty_table);
        let record_length = self.lengths.between(0, MOST_RECORD_ENTRIES);
        let mut entries = empty_table(record_length);
        let begin = Instant::now();
        let number = archives::judge(
            case.message,
            case.book,
            case.conditions,
            lent_tables(&mut answered),
            lent(&mut entries),
        );
        self.slowest.note(begin.elapsed(), || {
            let (bytes, name) = (case.message.len(), case.name);
            format!("a message of {bytes} bytes over {name}")
        });
        let mut expected_entries = empty_table(record_length);
        let said = lent(&mut expected_entries).iter_mut();
        for (entry, said) in said.zip(record.entries()) {
            *entry = said;
        }
        if number != record.number || entries != expected_entries {
            println!("compare_judge: DIFFERENCE");
            println!("  independent judge:    {record:?}");
            println!("  archive's number:     {number}");
            println!("  archive's record:     {}", in_words(&entries));
            println!("  expected there:       {}", in_words(&expected_entries));
            print_and_exit(case, lengths);
        }
        for (name, (answered, expected)) in TABLE_NAMES.iter().zip(answered.iter().zip(expected)) {
            let differs = |index: &usize| answered[*index] != expected[*index];
            if let Some(index) = (0..answered.len()).find(differs) {
                println!("compare_judge: DIFFERENCE");
                println!("  both judges:          {record:?}");
                println!(
                    "  {name}, entry {} from 1: {} expected, {} found",
                    entry_number(index),
                    entry_in_words(expected[index]),
                    entry_in_words(answered[index])
                );
                print_and_exit(case, lengths);
            }
        }
    }

    /// Exactly one entry for each segment, or more, or sometimes fewer.
    fn table_lengths(&mut self, segments: usize) -> [usize; 3] {
        let random = &mut self.lengths;
        let mut lengths = [segments; 3];
        match random.below(20) {
            0..=10 => {}
            11..=18 => lengths = lengths.map(|length| length + random.below(5)),
            _ => {
                lengths = lengths.map(|length| length + random.below(2));
                lengths[random.below(3)] = match random.below(3) {
                    0 => segments.saturating_sub(1),
                    1 => random.between(0, segments),
                    _ => 0,
                };
            }
        }
        lengths
    }

    pub fn total(&self) -> u64 {
        self.met.iter().sum()
    }

    pub fn print(&self) {
        println!("   number     cases");
        for (number, (count, words)) in self.met.iter().zip(WORDS).enumerate() {
            println!("{number:>9} {count:>9}  {words}");
        }
        println!("compare_judge: the needless separators");
        self.needless.print();
        println!(
            "compare_judge: {} cases also judged plainly; of these {} have unknown conditions, \
             {} are the same in every filling and {} are not",
            self.plain,
            self.unknown_decided + self.unknown_open,
            self.unknown_decided,
            self.unknown_open
        );
        self.slowest.print("compare_judge");
    }

    /// A number that was not met so often.
    pub fn first_below(&self, least: u64) -> Option<usize> {
        self.met.iter().position(|count| *count < least)
    }

    /// A needless separator that was not met so often.
    pub fn first_needless_below(&self, least: u64) -> Option<String> {
        self.needless.first_below(least)
    }
}

fn lent_tables(tables: &mut Tables) -> [&mut [u32]; 3] {
    tables.each_mut().map(|table| lent(table))
}

/// Entries in a row, with those that must stay as they are.
fn in_words(entries: &[u32]) -> String {
    let words = entries.iter().map(|entry| entry_in_words(*entry));
    words.collect::<Vec<_>>().join(", ")
}

fn print_and_exit(case: &Case, lengths: [usize; 3]) -> ! {
    println!("  tables' lengths:      {lengths:?}");
    println!("  book:                 {}", case.name);
    println!("  conditions:           {:?}", case.conditions);
    print_input("compare_judge", case.message, case.book);
    exit(1)
}
