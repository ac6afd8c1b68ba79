//! One book at a time, put to the proved archive and to the independent check.
//! The first difference is printed and ends the program.

use independent::archives;
use independent::book::fault::Fault;
use independent::book::{check, Book};
use independent::difference::write_hex;
use independent::times::Slowest;
use std::fmt::Arguments;
use std::process::exit;
use std::sync::mpsc;
use std::thread;
use std::time::{Duration, Instant};

/// The archive must answer within this time, also on a slow machine: it takes
/// some hundredths of a second for the worst book.
const TIME_LIMIT: Duration = Duration::from_secs(2);
/// Books this long are put to the archive in a thread of their own, so that an
/// archive that takes too long is told from one that has stopped.
const WATCHED_BYTES: usize = 16_384;
const MALFORMED: u32 = 1;
const GOOD: u32 = 0;

/// What was compared so far.
pub struct Comparison {
    good: u64,
    /// How often each fault was the independent check's answer.
    met: Vec<u64>,
    slowest: Slowest,
}

impl Comparison {
    pub fn new() -> Comparison {
        Comparison {
            good: 0,
            met: vec![0; Fault::EVERY.len()],
            slowest: Slowest::default(),
        }
    }

    /// Compares the two answers, whatever they are.
    pub fn compare(&mut self, description: Arguments, bytes: &[u8]) -> Result<Book, Fault> {
        let expected = check(bytes);
        let Some(answer) = ask_archive(bytes) else {
            report(description, bytes, &expected, "no answer in time");
        };
        let number = match &expected {
            Ok(_) => GOOD,
            Err(_) => MALFORMED,
        };
        if answer.number != number {
            report(description, bytes, &expected, &answer.number.to_string());
        }
        self.slowest.note(answer.time, || description.to_string());
        match &expected {
            Ok(_) => self.good += 1,
            Err(fault) => self.met[*fault as usize] += 1,
        }
        expected
    }

    /// Compares the answers for a book that was made to be good.
    pub fn compare_good(&mut self, description: Arguments, bytes: &[u8]) {
        if let Err(fault) = self.compare(description, bytes) {
            panic!("{description} should be a good book, and breaks the rule {fault:?}");
        }
    }

    /// Compares the answers for a book that was made to break this rule.
    pub fn compare_broken(&mut self, description: Arguments, bytes: &[u8], fault: Fault) {
        let found = self.compare(description, bytes).err();
        assert_eq!(found, Some(fault), "{description}");
    }

    pub fn total(&self) -> u64 {
        self.good + self.met.iter().sum::<u64>()
    }

    pub fn print(&self) {
        println!("{:>9}  good", self.good);
        for (fault, count) in Fault::EVERY.iter().zip(&self.met) {
            println!("{count:>9}  {}", fault.description());
        }
        self.slowest.print("compare_book");
    }

    /// A rule that no book broke.
    pub fn first_missing(&self) -> Option<Fault> {
        let mut faults = Fault::EVERY.iter().zip(&self.met);
        faults
            .find(|(_, count)| **count == 0)
            .map(|(fault, _)| *fault)
    }
}

struct Answer {
    number: u32,
    time: Duration,
}

/// The archive's answer, if it comes in time.
fn ask_archive(bytes: &[u8]) -> Option<Answer> {
    let answer = if bytes.len() < WATCHED_BYTES {
        timed_answer(bytes)
    } else {
        let (sender, receiver) = mpsc::channel();
        let bytes = bytes.to_vec();
        thread::spawn(move || sender.send(timed_answer(&bytes)));
        receiver.recv_timeout(TIME_LIMIT).ok()?
    };
    (answer.time <= TIME_LIMIT).then_some(answer)
}

fn timed_answer(bytes: &[u8]) -> Answer {
    let begin = Instant::now();
    let number = archives::check_book(bytes);
    let time = begin.elapsed();
    Answer { number, time }
}

/// Prints the difference and ends the program.
fn report(
    description: Arguments,
    bytes: &[u8],
    expected: &Result<Book, Fault>,
    answered: &str,
) -> ! {
    println!("compare_book: DIFFERENCE");
    println!("  book:              {description}, {} bytes", bytes.len());
    match expected {
        Ok(_) => println!("  independent check: {GOOD}, good"),
        Err(fault) => println!("  independent check: {MALFORMED}, {}", fault.description()),
    }
    println!("  proved archive:    {answered}");
    match write_hex("compare_book_difference.hex", bytes) {
        Ok(path) => println!("  the book in hex:   {}", path.display()),
        Err(error) => println!("  the book could not be written: {error}"),
    }
    exit(1)
}
