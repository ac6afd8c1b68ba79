//! Needless separators (T-05): whether one is number 4's cause, which and where.
//! The comparisons count them, so that none passes without having met them all.

use crate::bytes::Service;
use crate::described;
use crate::machine::{state_after, step, State};
use crate::placing::segments::Segments;

const SERVICE: Service = Service::STANDARD;
const TAG_BYTES: usize = 3;

described! {
    /// The needless separator, and the later byte, at which the fault lies.
    Pair {
        EndAfterElement: "`'` after `+`",
        EndAfterComponent: "`'` after `:`",
        ElementAfterComponent: "`+` after `:`",
    }
}

described! {
    /// Where it stands in the text. What breaks off is the last segment.
    Position {
        First: "in the first segment",
        Between: "in a segment between others",
        Last: "in the last segment, after others",
    }
}

/// A needless separator that is number 4's cause.
#[derive(Clone, Copy, Debug, PartialEq, Eq)]
pub struct Needless {
    pub pair: Pair,
    pub position: Position,
    /// Of its segment.
    pub tag: [u8; TAG_BYTES],
    /// Whether a released mark stands right before it.
    pub follows_release: bool,
}

/// What is needless, if number 4 of this text has this place for it.
pub fn needless_at(text: &[u8], place: usize) -> Option<Needless> {
    let later = *text.get(place)?;
    if later != SERVICE.element && later != SERVICE.terminator {
        return None;
    }
    let start = Segments::of(text).last().map_or(0, |segment| segment.end());
    let segment = text.get(start..place)?;
    let is_end = later == SERVICE.terminator;
    let pair = match state_after(SERVICE, segment) {
        State::Opened if is_end => Pair::EndAfterElement,
        State::Parted if is_end => Pair::EndAfterComponent,
        State::Parted => Pair::ElementAfterComponent,
        _ => return None,
    };
    let before = &segment[..segment.len() - 1];
    Some(Needless {
        pair,
        position: position(start, &text[place..]),
        tag: segment.first_chunk().copied()?,
        follows_release: ends_in_a_released_mark(before),
    })
}

/// By where the segment starts, and what there is from the fault on.
fn position(start: usize, rest: &[u8]) -> Position {
    if start == 0 {
        Position::First
    } else if length_up_to_the_end(rest) < rest.len() {
        Position::Between
    } else {
        Position::Last
    }
}

/// Up to and with the next `'` that is not released.
fn length_up_to_the_end(rest: &[u8]) -> usize {
    let mut at = 0;
    while let Some(&byte) = rest.get(at) {
        at += if byte == SERVICE.release { 2 } else { 1 };
        if byte == SERVICE.terminator {
            return at;
        }
    }
    rest.len()
}

fn ends_in_a_released_mark(segment: &[u8]) -> bool {
    let before_the_last = segment.len().saturating_sub(1);
    state_after(SERVICE, &segment[..before_the_last]) == State::Released
}

/// Whether needless separators are all that is wrong with the segment at this
/// offset: the machine comes to its end if it passes over them.
pub fn is_good_but_for_needless(text: &[u8], at: usize) -> bool {
    let mut has_needless = false;
    let mut state = State::Start;
    for &byte in text.get(at..).unwrap_or_default() {
        let next = step(SERVICE, state, byte);
        state = match state {
            _ if next == State::Start => return has_needless,
            _ if next != State::Dead => next,
            State::Opened | State::Parted if byte == SERVICE.terminator => return true,
            State::Parted if byte == SERVICE.element => State::Opened,
            _ => return false,
        };
        has_needless |= next == State::Dead;
    }
    false
}

const PAIRS: usize = Pair::EVERY.len();
const POSITIONS: usize = Position::EVERY.len();

/// How often a needless separator was number 4's cause.
#[derive(Default)]
pub struct Causes {
    by_pair_and_position: [[u64; POSITIONS]; PAIRS],
    in_unh: u64,
    in_unt: u64,
    after_release: u64,
}

impl Causes {
    pub fn add(&mut self, needless: Needless) {
        let Needless { pair, position, .. } = needless;
        self.by_pair_and_position[pair as usize][position as usize] += 1;
        self.in_unh += u64::from(needless.tag == *b"UNH");
        self.in_unt += u64::from(needless.tag == *b"UNT");
        self.after_release += u64::from(needless.follows_release);
    }

    pub fn print(&self) {
        for (count, words) in self.in_words() {
            println!("{count:>12}  4: {words}");
        }
    }

    /// A cause that was not met so often.
    pub fn first_below(&self, least: u64) -> Option<String> {
        let mut all = self.in_words().into_iter();
        let seldom = all.find(|(count, _)| *count < least);
        seldom.map(|(_, words)| words)
    }

    fn in_words(&self) -> Vec<(u64, String)> {
        let mut all = Vec::new();
        for pair in Pair::EVERY {
            for position in Position::EVERY {
                let count = self.by_pair_and_position[*pair as usize][*position as usize];
                let words = format!("{} {}", pair.description(), position.description());
                all.push((count, words));
            }
        }
        for (count, place) in [
            (self.in_unh, "in UNH"),
            (self.in_unt, "in UNT"),
            (self.after_release, "after a released mark"),
        ] {
            all.push((count, format!("a needless separator {place}")));
        }
        all
    }
}

#[cfg(test)]
mod tests {
    use super::*;
    use crate::breaking::put_needless_separator;
    use crate::random::Random;
    use crate::reading::read_message;

    fn found(text: &str) -> Option<(Pair, Position, bool)> {
        let text = text.as_bytes();
        let place = read_message(text).expect_err("a fault");
        let needless = needless_at(text, place)?;
        Some((needless.pair, needless.position, needless.follows_release))
    }

    #[test]
    fn the_cause_has_its_pair_and_position() {
        use Pair::*;
        use Position::*;
        for (text, expected) in [
            ("UNH+'UNT'", (EndAfterElement, First, false)),
            ("UNH+1:+2'", (ElementAfterComponent, First, false)),
            ("UNH'AAA+?::'UNT'", (EndAfterComponent, Between, true)),
            ("UNH'AAA+??+'UNT'", (EndAfterElement, Between, true)),
            ("UNH'AAA+1:+?'?", (ElementAfterComponent, Last, false)),
            ("UNH'UNT+2+'", (EndAfterElement, Last, false)),
        ] {
            assert_eq!(found(text), Some(expected), "{text}");
        }
        for other in ["UNH'UNT:'", "UNH'UNT+\n'", "UNH'UNT+1:", "UNH+1?A'"] {
            assert_eq!(found(other), None, "{other}");
        }
    }

    #[test]
    fn a_segment_may_be_good_but_for_needless_separators() {
        for needless in ["AAA+'", "AAA+1::+2:+'\n", "AAA+?::'B", "AAA+::'"] {
            assert!(
                is_good_but_for_needless(needless.as_bytes(), 0),
                "{needless}"
            );
        }
        for other in ["AAA'", "AAA+1:2'", "AAA+:", "aAA+'", "AAA+:+\n'", ""] {
            assert!(!is_good_but_for_needless(other.as_bytes(), 0), "{other}");
        }
        assert!(is_good_but_for_needless(b"AAA'BBB+'", 4));
        assert!(!is_good_but_for_needless(b"AAA'BBB+'", 10));
    }

    #[test]
    fn a_separator_put_there_is_needless() {
        let mut random = Random::from_seed(5);
        let mut causes = Causes::default();
        for message in ["UNH+1+2'UNS'FTX+?:+?''UNT+4+1'", "UNH'UNS'UNT'"] {
            for _ in 0..500 {
                let mut text = message.as_bytes().to_vec();
                put_needless_separator(&mut random, &mut text);
                let place = read_message(&text).expect_err("a needless separator");
                causes.add(needless_at(&text, place).expect("a needless separator"));
            }
        }
        assert_eq!(causes.first_below(20), None);
    }
}
