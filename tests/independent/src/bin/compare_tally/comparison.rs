//! One call at a time, put to the proved archive and to the independent tally.
//! The first difference is printed and ends the program.

use crate::counts::Counts;
use independent::archives;
use independent::difference::write_hex;
use independent::random::Random;
use independent::tally::calls::{random_tally, Begin, LONGEST_LENT};
use independent::tally::day::Day;
use independent::tally::{answer_number, Asked, Call, Tally, TALLY_BYTES};
use std::process::exit;

/// Bytes on either side of all that is ever lent.
const MARGIN: usize = 24;
/// The tally begins at one of so many addresses in a row.
const ADDRESSES: usize = 8;
const ROOM: usize = MARGIN + ADDRESSES + LONGEST_LENT + MARGIN;

type Bytes = [u8; ROOM];

/// The memory that calls are lent a part of, always from the tally's first byte
/// on, and what the independent tally and the answers so far say of it.
pub struct Memory {
    bytes: Bytes,
    start: usize,
    tally: Tally,
    day: Day,
    begin: Begin,
    calls: u64,
}

impl Memory {
    /// A tally amid bytes of any kind.
    pub fn new(random: &mut Random, begin: Begin) -> Memory {
        let tally = random_tally(random, begin);
        let mut memory = Memory {
            bytes: [(); ROOM].map(|()| random.byte()),
            start: MARGIN + random.below(ADDRESSES),
            day: Day::begin(&tally.to_bytes()),
            tally,
            begin,
            calls: 0,
        };
        memory.bytes = memory.with_independent_tally();
        memory
    }

    /// The independent one.
    pub fn tally(&self) -> &Tally {
        &self.tally
    }

    /// The bytes, but the tally as the independent one has it.
    fn with_independent_tally(&self) -> Bytes {
        let mut bytes = self.bytes;
        bytes[self.start..][..TALLY_BYTES].copy_from_slice(&self.tally.to_bytes());
        bytes
    }

    fn tally_bytes(&self) -> &[u8; TALLY_BYTES] {
        let tally = self.bytes[self.start..].first_chunk();
        tally.expect("there is room for a tally")
    }

    fn ask_archive(&mut self, call: Call) -> u32 {
        self.calls += 1;
        let lent = &mut self.bytes[self.start..][..call.lent];
        match call.asked {
            Asked::Add(number) => archives::tally_add(lent, number),
            Asked::Clear => archives::tally_clear(lent),
        }
    }
}

pub struct Comparison {
    counts: Counts,
}

impl Comparison {
    pub fn new() -> Comparison {
        Comparison {
            counts: Counts::new(),
        }
    }

    pub fn counts(&self) -> &Counts {
        &self.counts
    }

    /// Compares the answer and what is in the memory then, and sees whether that
    /// adds up.
    pub fn compare(&mut self, memory: &mut Memory, call: Call) {
        let bytes_before = memory.bytes;
        let tally_before = memory.tally.clone();
        let answer = memory.tally.call(call);
        let expected = memory.with_independent_tally();
        let answered = memory.ask_archive(call);
        memory.day.note(call.asked, answered);
        let difference = wrong_answer(answer_number(answer), answered)
            .or_else(|| first_wrong_byte(memory, &expected))
            .or_else(|| wrong_sum(memory));
        if let Some(difference) = difference {
            report(&difference, call, memory, &bytes_before);
        }
        self.counts.add(&tally_before, call, answer);
    }
}

struct Difference {
    question: String,
    expected: String,
    found: String,
}

fn wrong_answer(answer: u32, answered: u32) -> Option<Difference> {
    (answered != answer).then(|| Difference {
        question: "the answer".to_string(),
        expected: answer.to_string(),
        found: answered.to_string(),
    })
}

/// By its place from the tally's first byte on; those before it have places
/// below 0.
fn first_wrong_byte(memory: &Memory, expected: &Bytes) -> Option<Difference> {
    if memory.bytes == *expected {
        return None;
    }
    let wrong = (0..ROOM).find(|at| memory.bytes[*at] != expected[*at])?;
    let place = wrong as isize - memory.start as isize;
    Some(Difference {
        question: format!("byte {place}, counted from the tally's first"),
        expected: expected[wrong].to_string(),
        found: memory.bytes[wrong].to_string(),
    })
}

/// From the archive's answers and bytes alone.
fn wrong_sum(memory: &Memory) -> Option<Difference> {
    let broken = memory.day.broken_by(memory.tally_bytes())?;
    Some(Difference {
        question: "whether it adds up".to_string(),
        expected: "not asked".to_string(),
        found: broken,
    })
}

/// Prints the difference and ends the program.
fn report(difference: &Difference, call: Call, memory: &Memory, before: &Bytes) -> ! {
    let Call { asked, lent } = call;
    let start = memory.start;
    println!("compare_tally: DIFFERENCE");
    println!("  question:             {}", difference.question);
    println!("  independent tally:    {}", difference.expected);
    println!("  proved archive:       {}", difference.found);
    println!("  call:                 {asked:?} over {lent} bytes");
    println!("  lent to it:           {:02X?}", &before[start..][..lent]);
    println!("  calls on this memory: {}", memory.calls);
    println!("  before the first:     {}", memory.begin.description());
    match write_hex("compare_tally_memory.hex", before) {
        Ok(path) => println!("  the memory in hex:    {}", path.display()),
        Err(error) => println!("  the memory could not be written: {error}"),
    }
    println!("  the tally's place:    {start} in there");
    exit(1)
}
