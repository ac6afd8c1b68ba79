//! The independent tally, from 02, T-06: a count for each verdict number, kept as
//! a number and written out when its bytes are asked for.
//!
//! - [`day`]: what must add up since the last clearing, told from answers alone
//! - [`calls`]: random calls, and random counts to begin with

pub mod calls;
pub mod day;

/// "a four-byte little-endian count for each of the numbers 0 to 15"
pub const COUNTS: usize = 16;
/// "in 64 lent bytes"
pub const TALLY_BYTES: usize = 64;
const COUNT_BYTES: usize = 4;

#[derive(Clone, Copy, Debug, PartialEq, Eq)]
pub enum Asked {
    Add(u32),
    Clear,
}

/// What is asked, and how many bytes are lent, from the tally's first on.
#[derive(Clone, Copy, Debug, PartialEq, Eq)]
pub struct Call {
    pub asked: Asked,
    pub lent: usize,
}

/// "Refusals 1 to 3 in order, each changing nothing".
#[derive(Clone, Copy, Debug, PartialEq, Eq)]
pub enum Refusal {
    WrongLength = 1,
    NoSuchNumber = 2,
    Full = 3,
}

pub type Answer = Result<(), Refusal>;

/// As a caller gets it.
pub fn answer_number(answer: Answer) -> u32 {
    match answer {
        Ok(()) => 0,
        Err(refusal) => refusal as u32,
    }
}

#[derive(Clone, Debug, Default, PartialEq, Eq)]
pub struct Tally {
    counts: [u32; COUNTS],
}

impl Tally {
    pub fn of_counts(counts: [u32; COUNTS]) -> Tally {
        Tally { counts }
    }

    pub fn from_bytes(bytes: &[u8; TALLY_BYTES]) -> Tally {
        let mut tally = Tally::default();
        let places = bytes.chunks_exact(COUNT_BYTES);
        for (count, place) in tally.counts.iter_mut().zip(places) {
            *count = u32::from_le_bytes(place.try_into().expect("four bytes"));
        }
        tally
    }

    pub fn to_bytes(&self) -> [u8; TALLY_BYTES] {
        let mut bytes = [0; TALLY_BYTES];
        let places = bytes.chunks_exact_mut(COUNT_BYTES);
        for (place, count) in places.zip(self.counts) {
            place.copy_from_slice(&count.to_le_bytes());
        }
        bytes
    }

    /// Of a number that has one.
    pub fn count(&self, number: u32) -> Option<u32> {
        self.counts.get(number as usize).copied()
    }

    pub fn call(&mut self, call: Call) -> Answer {
        if call.lent != TALLY_BYTES {
            return Err(Refusal::WrongLength);
        }
        match call.asked {
            Asked::Add(number) => self.add(number),
            Asked::Clear => {
                *self = Tally::default();
                Ok(())
            }
        }
    }

    fn add(&mut self, number: u32) -> Answer {
        let count = self.counts.get_mut(number as usize);
        let count = count.ok_or(Refusal::NoSuchNumber)?;
        *count = count.checked_add(1).ok_or(Refusal::Full)?;
        Ok(())
    }
}

#[cfg(test)]
mod tests {
    use super::calls::{random_call, random_tally, Begin, LONGEST_LENT};
    use super::*;
    use crate::random::Random;

    fn add(number: u32) -> Call {
        Call {
            asked: Asked::Add(number),
            lent: TALLY_BYTES,
        }
    }

    const CLEAR: Call = Call {
        asked: Asked::Clear,
        lent: TALLY_BYTES,
    };

    /// Counts that are all different, and none of them full.
    fn different_counts() -> Tally {
        Tally::of_counts(std::array::from_fn(|number| 250 + 3 * number as u32))
    }

    /// The call is refused so, and nothing changes.
    fn assert_refused(tally: &Tally, call: Call, refusal: Refusal) {
        let mut after = tally.clone();
        assert_eq!(after.call(call), Err(refusal), "{call:?}");
        assert_eq!(after, *tally, "{call:?}");
    }

    #[test]
    fn counts_are_written_with_their_lowest_byte_first() {
        let mut counts = [0; COUNTS];
        counts[0] = 65_544;
        counts[1] = 0x0403_0201;
        counts[15] = u32::MAX - 1;
        let mut bytes = [0; TALLY_BYTES];
        bytes[..8].copy_from_slice(&[0x08, 0x00, 0x01, 0x00, 0x01, 0x02, 0x03, 0x04]);
        bytes[60..].copy_from_slice(&[0xFE, 0xFF, 0xFF, 0xFF]);
        assert_eq!(Tally::of_counts(counts).to_bytes(), bytes);
        assert_eq!(Tally::from_bytes(&bytes), Tally::of_counts(counts));
    }

    #[test]
    fn any_bytes_are_a_tally() {
        let mut random = Random::from_seed(6);
        for _ in 0..1_000 {
            let bytes = std::array::from_fn(|_| random.byte());
            assert_eq!(Tally::from_bytes(&bytes).to_bytes(), bytes);
        }
    }

    #[test]
    fn adding_adds_one_to_its_count_alone() {
        for number in 0..COUNTS {
            let mut tally = different_counts();
            let mut expected = tally.counts;
            expected[number] += 1;
            assert_eq!(tally.call(add(number as u32)), Ok(()));
            assert_eq!(tally.counts, expected);
        }
    }

    #[test]
    fn a_full_count_never_restarts() {
        let mut tally = different_counts();
        tally.counts[7] = u32::MAX - 1;
        assert_eq!(tally.call(add(7)), Ok(()));
        for _ in 0..3 {
            assert_refused(&tally, add(7), Refusal::Full);
            assert_eq!(tally.call(add(6)), Ok(()));
            assert_eq!(tally.call(add(8)), Ok(()));
        }
        assert_eq!(tally.count(7), Some(4_294_967_295));
        assert_eq!(tally.count(16), None);
    }

    #[test]
    fn clearing_zeroes_all() {
        for mut tally in [different_counts(), Tally::of_counts([u32::MAX; COUNTS])] {
            assert_eq!(tally.call(CLEAR), Ok(()));
            assert_eq!(tally.to_bytes(), [0; TALLY_BYTES]);
        }
    }

    #[test]
    fn refusals_come_in_their_order() {
        let full = Tally::of_counts([u32::MAX; COUNTS]);
        for lent in (0..=LONGEST_LENT).filter(|lent| *lent != 64) {
            for asked in [
                Asked::Add(0),
                Asked::Add(16),
                Asked::Add(u32::MAX),
                Asked::Clear,
            ] {
                let call = Call { asked, lent };
                assert_refused(&full, call, Refusal::WrongLength);
                assert_refused(&different_counts(), call, Refusal::WrongLength);
            }
        }
        for number in [16, 17, 64, 256, 65_536, 1 << 30, 1 << 31, u32::MAX] {
            assert_refused(&full, add(number), Refusal::NoSuchNumber);
            assert_refused(&different_counts(), add(number), Refusal::NoSuchNumber);
        }
        for number in 0..16 {
            assert_refused(&full, add(number), Refusal::Full);
        }
    }

    #[test]
    fn answers_have_their_numbers() {
        let answers = [
            Ok(()),
            Err(Refusal::WrongLength),
            Err(Refusal::NoSuchNumber),
            Err(Refusal::Full),
        ];
        assert_eq!(answers.map(answer_number), [0, 1, 2, 3]);
    }

    #[test]
    fn any_calls_add_up() {
        let mut random = Random::from_seed(6);
        let mut met = [0; 4];
        for &begin in Begin::EVERY.iter().cycle().take(300) {
            let mut tally = random_tally(&mut random, begin);
            let mut day = day::Day::begin(&tally.to_bytes());
            for _ in 0..300 {
                let call = random_call(&mut random, 3);
                let answer = answer_number(tally.call(call));
                day.note(call.asked, answer);
                assert_eq!(day.broken_by(&tally.to_bytes()), None, "{call:?}");
                met[answer as usize] += 1;
            }
        }
        assert!(met.iter().all(|count| *count > 1_000), "{met:?}");
    }
}
