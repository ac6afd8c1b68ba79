//! The kinds of answers a run must meet, so that it cannot pass without having
//! looked, and how many of each it met.

use independent::described;
use independent::tally::{Answer, Asked, Call, Refusal, Tally, COUNTS};

described! {
    /// Behind the colon stands the answer.
    Kind {
        Added: "add: 0, no carry",
        CarryOverOne: "add: 0, a carry over one byte",
        CarryOverTwo: "add: 0, a carry over two bytes",
        CarryOverThree: "add: 0, a carry over three bytes",
        Filled: "add: 0, and the count is full",
        Length: "add: 1, wrong length alone",
        LengthAndNumber: "add: 1, and the number is above 15",
        LengthAndFull: "add: 1, and that count is full",
        Number: "add: 2, number above 15",
        NumberAndFull: "add: 2, and every count is full",
        Full: "add: 3, that count is full",
        Cleared: "clear: 0",
        ClearLength: "clear: 1, wrong length",
    }
}

impl Kind {
    /// By the tally before the call.
    fn of(before: &Tally, call: Call, answer: Answer) -> Kind {
        match (call.asked, answer) {
            (Asked::Clear, Err(_)) => Kind::ClearLength,
            (Asked::Clear, Ok(())) => Kind::Cleared,
            (Asked::Add(number), Ok(())) => Kind::of_added(before.count(number)),
            (Asked::Add(number), Err(refusal)) => {
                Kind::of_refused(before, before.count(number), refusal)
            }
        }
    }

    fn of_added(count: Option<u32>) -> Kind {
        match count.expect("0 is answered for a count").trailing_ones() {
            24..=31 => Kind::CarryOverThree,
            16..=23 => Kind::CarryOverTwo,
            8..=15 => Kind::CarryOverOne,
            _ if count == Some(u32::MAX - 1) => Kind::Filled,
            _ => Kind::Added,
        }
    }

    fn of_refused(before: &Tally, count: Option<u32>, refusal: Refusal) -> Kind {
        match (refusal, count) {
            (Refusal::WrongLength, None) => Kind::LengthAndNumber,
            (Refusal::WrongLength, Some(u32::MAX)) => Kind::LengthAndFull,
            (Refusal::WrongLength, Some(_)) => Kind::Length,
            (Refusal::NoSuchNumber, _) if is_full(before) => Kind::NumberAndFull,
            (Refusal::NoSuchNumber, _) => Kind::Number,
            (Refusal::Full, _) => Kind::Full,
        }
    }
}

fn is_full(tally: &Tally) -> bool {
    *tally == Tally::of_counts([u32::MAX; COUNTS])
}

pub struct Counts {
    by_kind: Vec<u64>,
}

impl Counts {
    pub fn new() -> Counts {
        Counts {
            by_kind: vec![0; Kind::EVERY.len()],
        }
    }

    pub fn add(&mut self, before: &Tally, call: Call, answer: Answer) {
        self.by_kind[Kind::of(before, call, answer) as usize] += 1;
    }

    pub fn total(&self) -> u64 {
        self.by_kind.iter().sum()
    }

    pub fn print(&self) {
        for (kind, count) in Kind::EVERY.iter().zip(&self.by_kind) {
            println!("{count:>9}  {}", kind.description());
        }
    }

    /// A kind that was not met so often.
    pub fn first_below(&self, least: u64) -> Option<&'static str> {
        let mut kinds = Kind::EVERY.iter().zip(&self.by_kind);
        let seldom = kinds.find(|(_, count)| **count < least);
        seldom.map(|(kind, _)| kind.description())
    }
}
