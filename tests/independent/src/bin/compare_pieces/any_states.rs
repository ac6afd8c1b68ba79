//! Any eight numbers as a state: "any eight numbers are a state, and get GOES_ON,
//! 0, 3, 4, 5 or 6". Nothing more is known of them than that the answer depends on
//! what is handed over alone, that nothing outside of what is lent changes, and
//! that a state which has ended stays as it is.

use crate::comparison::Comparison;
use crate::counts::{answer_in_words, ANSWERS};
use crate::histories::random_text;
use crate::tables::{any_number, Room, State, Tables, MOST_RECORD, NOT_YET_BEGUN};
use independent::described;
use independent::lent::{CANARY, MARGIN};
use independent::pieces::{Asked, Call, GOES_ON, READING_ENTRIES};
use independent::random::Random;
use std::process::exit;

const STATES: usize = 30_000;
const MOST_CALLS: usize = 6;
const MOST_STARTS: usize = 12;
/// Around these something may change.
const LIMITS: [usize; 6] = [16_777_216, 999_999, 1 << 16, 1 << 32, 1 << 63, usize::MAX];

described! {
    Numbers {
        Any: "any numbers",
        Small: "small numbers",
        Limits: "numbers around limits",
        Changed: "those of a message, some of them changed",
        ChangedAfterEnd: "those of a message that has ended, some of them changed",
    }
}

pub fn compare_all(comparison: &mut Comparison, random: &mut Random) {
    for &numbers in Numbers::EVERY.iter().cycle().take(STATES) {
        let state = random_state(random, numbers);
        compare_calls(comparison, random, state);
    }
}

fn random_state(random: &mut Random, numbers: Numbers) -> State {
    match numbers {
        Numbers::Any => [(); READING_ENTRIES].map(|()| any_number(random)),
        Numbers::Small => [(); READING_ENTRIES].map(|()| random.below(12)),
        Numbers::Limits => [(); READING_ENTRIES].map(|()| around_a_limit(random)),
        Numbers::Changed => changed(random, Call::piece(b"", 0)),
        Numbers::ChangedAfterEnd => changed(random, Call::END),
    }
}

fn around_a_limit(random: &mut Random) -> usize {
    let limit = random.pick(&LIMITS);
    limit.wrapping_add(random.below(5)).wrapping_sub(2)
}

/// What a random text and this call leave, but for some numbers.
fn changed(random: &mut Random, last: Call) -> State {
    let text = random_text(random);
    let mut tables = Tables::new(random, NOT_YET_BEGUN, Room::for_starts(MOST_STARTS));
    let entries = random.below(MOST_STARTS);
    tables.ask(Call::piece(&text, entries), 0);
    tables.ask(last, 0);
    let mut state = tables.state();
    for _ in 0..random.below(4) {
        let number = &mut state[random.below(READING_ENTRIES)];
        *number = match random.below(4) {
            0 => any_number(random),
            1 => random.below(12),
            2 => around_a_limit(random),
            _ => number.wrapping_add(random.below(3)).wrapping_sub(1),
        };
    }
    state
}

fn compare_calls(comparison: &mut Comparison, random: &mut Random, state: State) {
    let room = Room::for_starts(MOST_STARTS);
    let mut tables = Tables::new(random, state, room);
    // The same at other addresses.
    let mut twin = Tables::new(random, state, room);
    let mut ended = None;
    for _ in 0..random.between(1, MOST_CALLS) {
        let bytes = &random_text(random);
        let call = match random.below(3) {
            0 => Call::END,
            _ => Call::piece(bytes, random.between(0, MOST_STARTS)),
        };
        let record = random.between(0, MOST_RECORD);
        let before = tables.clone();
        let answer = tables.ask(call, record);
        let twins_answer = twin.ask(call, record);
        let case = Case {
            call,
            record,
            before,
            ended,
            answer,
            after: &tables,
        };
        case.check(twins_answer, &twin);
        ended = case.ended_then();
        comparison.counts_mut().add_on_any_state(answer);
    }
}

/// What an ended state is answered; the place, if a record had room for it.
#[derive(Clone, Copy, Debug)]
struct Ended {
    answer: u32,
    place: Option<u32>,
}

/// A call on a state, and what came of it.
struct Case<'a> {
    call: Call<'a>,
    record: usize,
    before: Tables,
    /// If the state is known to have ended before.
    ended: Option<Ended>,
    answer: u32,
    after: &'a Tables,
}

impl Case<'_> {
    fn check(&self, twins_answer: u32, twin: &Tables) {
        let is_end = self.call.asked == Asked::End;
        for (is_good, question) in [
            (ANSWERS.contains(&self.answer), "the answer"),
            (!is_end || !self.goes_on(), "the end, which must not go on"),
            (self.answer_stays(), "the answer after the end"),
            (self.record_is_good(), "the record"),
            (self.state_is_good(), "the state, and what is around it"),
            (self.starts_are_good(), "the table, and what is around it"),
            (
                self.is_as(twins_answer, twin),
                "the same call at other addresses",
            ),
        ] {
            if !is_good {
                self.report(question);
            }
        }
    }

    fn goes_on(&self) -> bool {
        self.answer == GOES_ON
    }

    fn place(&self) -> Option<u32> {
        let has_place = self.record >= 2 && !self.goes_on();
        has_place.then_some(self.after.record[MARGIN + 1])
    }

    /// A piece that does not go on shows that the state had ended before.
    fn ended_then(&self) -> Option<Ended> {
        let known_place = self.ended.and_then(|ended| ended.place);
        (!self.goes_on()).then_some(Ended {
            answer: self.answer,
            place: self.place().or(known_place),
        })
    }

    fn answer_stays(&self) -> bool {
        self.ended.is_none_or(|ended| {
            let [known, place] = [ended.place, self.place()];
            ended.answer == self.answer && (known.is_none() || place.is_none() || known == place)
        })
    }

    /// The answer, any place, and zeros, as many as fit; or nothing.
    fn record_is_good(&self) -> bool {
        let place = self.place().unwrap_or_default();
        let entries = match self.answer {
            GOES_ON => &[][..],
            answer => &[answer, place, 0, 0, 0, 0],
        };
        let mut expected = self.before.clone();
        expected.expect_record(self.record, entries);
        expected.record == self.after.record && self.place() != Some(CANARY)
    }

    /// It changes with a piece that goes on, or with the first end.
    fn state_is_good(&self) -> bool {
        let mut expected = self.before.clone();
        if self.goes_on() || self.call.asked == Asked::End && self.ended.is_none() {
            *expected.state_mut() = self.after.state();
        }
        expected.reading == self.after.reading
    }

    /// It changes with a piece that goes on, as far as it is lent.
    fn starts_are_good(&self) -> bool {
        let mut expected = self.before.starts.clone();
        if let (Asked::Piece { entries, .. }, true) = (self.call.asked, self.goes_on()) {
            let lent = MARGIN..MARGIN + entries;
            expected[lent.clone()].copy_from_slice(&self.after.starts[lent]);
        }
        expected == self.after.starts
    }

    fn is_as(&self, twins_answer: u32, twin: &Tables) -> bool {
        self.answer == twins_answer
            && self.after.record == twin.record
            && self.after.starts == twin.starts
            && self.after.state() == twin.state()
    }

    /// Prints the difference and ends the program.
    fn report(&self, question: &str) -> ! {
        println!("compare_pieces: DIFFERENCE on a state of any numbers");
        println!("  question:         {question}");
        println!("  proved archive:   {}", answer_in_words(self.answer));
        println!("  the call:         {:?}", self.call);
        println!("  the record's len: {}", self.record);
        println!("  answered before:  {:?}", self.ended);
        println!("  the state before: {:?}", self.before.state());
        println!("  the state then:   {:?}", self.after.state());
        println!("  the record then:  {:X?}", self.after.record);
        println!("  the starts then:  {:X?}", self.after.starts);
        exit(1)
    }
}
