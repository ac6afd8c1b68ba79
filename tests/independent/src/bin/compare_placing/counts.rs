//! The kinds of messages a run must meet, so that it cannot pass without having
//! looked, and how many of each it met.

use crate::subject::{Expected, Subject, Verdict};
use independent::bytes::Service;
use independent::described;
use independent::machine::scan;
use independent::needless::{needless_at, Causes};
use independent::placing::homes::Homeless;
use independent::placing::segments::Segments;
use independent::placing::walk::Refusal;
use independent::placing::Answer;

described! {
    /// All but number 11, whose kinds are the refusals.
    Kind {
        Whole: "0: a whole allowed sequence",
        Beginning: "0: the beginning of one",
        NoSegment: "0: no segment at all",
        UnknownTag: "10: no line has the tag",
        NoValue: "10: no value at the selector",
        UnknownValue: "10: no line of the tag has the value",
        HomelessLater: "10: after homes that are not allowed",
        MalformedHomeless: "malformed book, 10: homes are clear, one segment has none",
        MalformedHomes: "malformed book, 0 or 11: every segment has a home",
        MalformedOpen: "malformed book, answer open: only what must not change",
    }
}

pub struct Counts {
    by_kind: Vec<u64>,
    by_refusal: Vec<u64>,
    /// Messages over good books with bytes after their last segment.
    broken_off: u64,
    /// Those where that is so for a needless separator.
    needless: Causes,
}

impl Counts {
    pub fn new() -> Counts {
        Counts {
            by_kind: vec![0; Kind::EVERY.len()],
            by_refusal: vec![0; Refusal::EVERY.len()],
            broken_off: 0,
            needless: Causes::default(),
        }
    }

    pub fn add(&mut self, subject: &Subject, message: &[u8], expected: &Expected) {
        let kind = match expected.verdict {
            Verdict::Exactly(answer) => {
                if is_broken_off(message, expected) {
                    self.add_broken_off(message);
                }
                match answer {
                    Answer::Begins { .. } => kind_of_allowed(subject, expected),
                    Answer::Homeless { place } => {
                        kind_of_homeless(subject, message, expected, place)
                    }
                    Answer::Refused { refusal, .. } => {
                        self.by_refusal[refusal as usize] += 1;
                        return;
                    }
                }
            }
            Verdict::HomelessAt(_) => Kind::MalformedHomeless,
            Verdict::EveryHome => Kind::MalformedHomes,
            Verdict::Open => Kind::MalformedOpen,
        };
        self.by_kind[kind as usize] += 1;
    }

    fn add_broken_off(&mut self, message: &[u8]) {
        self.broken_off += 1;
        let fault = scan(Service::STANDARD, message).err();
        if let Some(needless) = fault.and_then(|place| needless_at(message, place)) {
            self.needless.add(needless);
        }
    }

    pub fn total(&self) -> u64 {
        self.by_kind.iter().chain(&self.by_refusal).sum()
    }

    pub fn print(&self) {
        let of =
            |kinds: &[Kind]| -> u64 { kinds.iter().map(|kind| self.by_kind[*kind as usize]).sum() };
        for (kind, count) in Kind::EVERY.iter().zip(&self.by_kind) {
            println!("{count:>9}  {}", kind.description());
        }
        for (refusal, count) in Refusal::EVERY.iter().zip(&self.by_refusal) {
            println!("{count:>9}  11: {}", refusal.description());
        }
        println!("compare_placing: the needless separators that messages break off at");
        self.needless.print();
        println!(
            "compare_placing: over good books {} times 0, {} times 10, {} times 11; \
             {} of these messages break off",
            of(&[Kind::Whole, Kind::Beginning, Kind::NoSegment]),
            of(&[
                Kind::UnknownTag,
                Kind::NoValue,
                Kind::UnknownValue,
                Kind::HomelessLater
            ]),
            self.by_refusal.iter().sum::<u64>(),
            self.broken_off
        );
    }

    /// A kind that no message had.
    pub fn first_missing(&self) -> Option<String> {
        let kinds = Kind::EVERY.iter().map(|kind| kind.description());
        let refusals = Refusal::EVERY.iter().map(|refusal| refusal.description());
        let broken_off = [("a message that breaks off", &self.broken_off)];
        kinds
            .zip(&self.by_kind)
            .chain(refusals.zip(&self.by_refusal))
            .chain(broken_off)
            .find(|(_, count)| **count == 0)
            .map(|(description, _)| description.to_string())
            .or_else(|| self.needless.first_below(1))
    }
}

fn kind_of_allowed(subject: &Subject, expected: &Expected) -> Kind {
    match expected.homes.as_ref().and_then(|homes| homes.last()) {
        None => Kind::NoSegment,
        Some(home) if *home == subject.last_line() => Kind::Whole,
        Some(_) => Kind::Beginning,
    }
}

fn kind_of_homeless(subject: &Subject, message: &[u8], expected: &Expected, place: usize) -> Kind {
    let before = &message[..expected.starts[place - 1] as usize];
    if let Verdict::Exactly(Answer::Refused { .. }) = subject.expected(before).verdict {
        return Kind::HomelessLater;
    }
    match expected.homeless {
        Some(Homeless::NoValue) => Kind::NoValue,
        Some(Homeless::UnknownValue) => Kind::UnknownValue,
        _ => Kind::UnknownTag,
    }
}

fn is_broken_off(message: &[u8], expected: &Expected) -> bool {
    let Some(start) = expected.starts.last() else {
        return !message.is_empty();
    };
    let last = &message[*start as usize..];
    let mut segments = Segments::of(last);
    segments
        .next()
        .is_none_or(|segment| segment.bytes.len() < last.len())
}
