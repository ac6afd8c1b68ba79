//! What must add up, told from the answers that calls got and from nothing else:
//! "After any calls since the last clearing, each count equals how often its
//! number was accepted, and the sum equals the verdicts accepted." A tally that
//! was not cleared yet began with something.

use super::{Asked, COUNTS, TALLY_BYTES};

/// Since the last clearing, or since the first call.
pub struct Day {
    begun: [u64; COUNTS],
    /// How often each number was answered 0, and how often any was.
    accepted: [u64; COUNTS],
    accepted_in_all: u64,
}

impl Day {
    /// Before the first call on these bytes.
    pub fn begin(tally: &[u8; TALLY_BYTES]) -> Day {
        Day {
            begun: counts_in(tally),
            accepted: [0; COUNTS],
            accepted_in_all: 0,
        }
    }

    pub fn note(&mut self, asked: Asked, answer: u32) {
        if answer != 0 {
            return;
        }
        match asked {
            Asked::Clear => *self = Day::begin(&[0; TALLY_BYTES]),
            Asked::Add(number) => {
                self.accepted_in_all += 1;
                if let Some(accepted) = self.accepted.get_mut(number as usize) {
                    *accepted += 1;
                }
            }
        }
    }

    /// In words, what does not add up if the tally is this now.
    pub fn broken_by(&self, tally: &[u8; TALLY_BYTES]) -> Option<String> {
        let counts = counts_in(tally);
        for (number, &count) in counts.iter().enumerate() {
            let (begun, accepted) = (self.begun[number], self.accepted[number]);
            if count != begun + accepted {
                return Some(format!(
                    "number {number} began with {begun}, was answered 0 {accepted} times \
                     and has the count {count}"
                ));
            }
        }
        let [begun, sum]: [u64; 2] = [self.begun, counts].map(|counts| counts.iter().sum());
        let accepted = self.accepted_in_all;
        (sum != begun + accepted).then(|| {
            format!("the sum began with {begun}, {accepted} adds were answered 0 and it is {sum}")
        })
    }
}

/// Each count from its four bytes, the highest of them first.
fn counts_in(tally: &[u8; TALLY_BYTES]) -> [u64; COUNTS] {
    std::array::from_fn(|number| {
        let bytes = tally[4 * number..][..4].iter().rev();
        bytes.fold(0, |count, byte| 256 * count + u64::from(*byte))
    })
}

#[cfg(test)]
mod tests {
    use super::*;

    fn tally_with(number: usize, count: [u8; 4]) -> [u8; TALLY_BYTES] {
        let mut tally = [0; TALLY_BYTES];
        tally[4 * number..][..4].copy_from_slice(&count);
        tally
    }

    fn day_after(begin: &[u8; TALLY_BYTES], asked: &[(Asked, u32)]) -> Day {
        let mut day = Day::begin(begin);
        for &(asked, answer) in asked {
            day.note(asked, answer);
        }
        day
    }

    #[test]
    fn a_count_in_16_bits_does_not_add_up() {
        let zero = [0; TALLY_BYTES];
        let day = day_after(&zero, &[(Asked::Add(0), 0); 65_544]);
        assert_eq!(day.broken_by(&tally_with(0, [0x08, 0, 1, 0])), None);
        assert!(day.broken_by(&tally_with(0, [0x08, 0, 0, 0])).is_some());
        assert!(day.broken_by(&tally_with(1, [0x08, 0, 1, 0])).is_some());
    }

    #[test]
    fn what_was_refused_does_not_count() {
        let begin = tally_with(15, [0xFF; 4]);
        let refused = [
            (Asked::Add(15), 3),
            (Asked::Add(16), 2),
            (Asked::Add(0), 1),
            (Asked::Clear, 1),
        ];
        let day = day_after(&begin, &refused);
        assert_eq!(day.broken_by(&begin), None);
        assert!(day.broken_by(&tally_with(15, [0; 4])).is_some());
    }

    #[test]
    fn an_add_of_no_count_breaks_the_sum() {
        let begin = tally_with(2, [1, 2, 3, 4]);
        let day = day_after(&begin, &[(Asked::Add(16), 0)]);
        let words = day.broken_by(&begin).expect("one add too many");
        assert!(words.starts_with("the sum"), "{words}");
    }

    #[test]
    fn a_clearing_begins_anew() {
        let begin = tally_with(2, [1, 2, 3, 4]);
        let asked = [(Asked::Add(3), 0), (Asked::Clear, 0), (Asked::Add(2), 0)];
        let day = day_after(&begin, &asked);
        assert_eq!(day.broken_by(&tally_with(2, [1, 0, 0, 0])), None);
        assert!(day.broken_by(&tally_with(2, [2, 2, 3, 4])).is_some());
    }
}
