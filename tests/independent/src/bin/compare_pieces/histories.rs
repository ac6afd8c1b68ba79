//! Random histories: a text in random pieces, with random tables, records and
//! wrong states in between, its end, and calls after the end.

use crate::comparison::{Comparison, History};
use crate::tables::{Room, MOST_RECORD};
use independent::breaking::damage_bytes;
use independent::pieces::cutting::{piece_ends, Cutting};
use independent::pieces::lending::{Lender, Lending};
use independent::pieces::{Call, READING_ENTRIES};
use independent::random::Random;
use independent::writing::{any_message, short_message};

const SHORT_TEXTS: usize = 25_000;
const LONG_TEXTS: usize = 40;
const LONG_TEXT_BYTES: usize = 60_000;
const LONGEST_NOISE: usize = 40;
/// 8 in 16 bits.
const WIDE_READING: usize = 65_536 + READING_ENTRIES;

pub fn compare_random_ones(comparison: &mut Comparison, random: &mut Random) {
    for &cutting in Cutting::EVERY.iter().cycle().take(SHORT_TEXTS) {
        let text = random_text(random);
        compare_text(comparison, random, cutting, &text);
    }
    compare_wide_state(comparison, random);
}

/// Calls that are lent so many numbers as a state that few bits of their count
/// say 8.
fn compare_wide_state(comparison: &mut Comparison, random: &mut Random) {
    let room = Room {
        starts: 2,
        reading: WIDE_READING,
    };
    let mut history = History::new(random, room);
    let piece = Call::piece(b"AAA'", 2);
    for call in [piece, Call::END, piece, Call::END] {
        let wide = Call {
            reading: WIDE_READING,
            ..call
        };
        compare_call(comparison, random, &mut history, wide);
        compare_call(comparison, random, &mut history, call);
    }
}

pub fn compare_long_ones(comparison: &mut Comparison, random: &mut Random) {
    for number in 0..LONG_TEXTS {
        let bytes = random.between(1, LONG_TEXT_BYTES);
        let mut text = any_message(random, |so_far| so_far.bytes >= bytes);
        if number % 4 == 0 {
            damage_bytes(random, &mut text);
        }
        compare_text(comparison, random, Cutting::Any, &text);
    }
}

/// A short message, as it is or damaged; sometimes any bytes, or none.
pub fn random_text(random: &mut Random) -> Vec<u8> {
    match random.below(40) {
        0 => return Vec::new(),
        1 => return noise(random),
        _ => {}
    }
    let mut text = short_message(random);
    for _ in 0..random.below(3) {
        damage_bytes(random, &mut text);
    }
    text
}

fn noise(random: &mut Random) -> Vec<u8> {
    let length = random.below(LONGEST_NOISE);
    (0..length).map(|_| random.byte()).collect()
}

fn compare_text(comparison: &mut Comparison, random: &mut Random, cutting: Cutting, text: &[u8]) {
    let lending = random.pick(Lending::EVERY);
    let mut lender = Lender::new(random, lending, text);
    let mut history = History::new(random, Room::for_starts(lender.most()));
    history.lends_another_each_time = random.chance(40);
    let mut at = 0;
    for end in piece_ends(random, cutting, text) {
        interrupt(comparison, random, &mut history);
        let entries = lender.next_entries(random, end);
        let call = Call::piece(&text[at..end], entries);
        compare_call(comparison, random, &mut history, call);
        at = end;
    }
    interrupt(comparison, random, &mut history);
    compare_call(comparison, random, &mut history, Call::END);
    for _ in 0..random.below(5) {
        interrupt(comparison, random, &mut history);
        compare_after_the_end(comparison, random, &mut history);
    }
}

fn compare_call(
    comparison: &mut Comparison,
    random: &mut Random,
    history: &mut History,
    call: Call,
) {
    let record = random.between(0, MOST_RECORD);
    comparison.compare(history, call, record);
}

fn compare_after_the_end(comparison: &mut Comparison, random: &mut Random, history: &mut History) {
    let bytes = &random_text(random);
    let call = match random.below(5) {
        0 | 1 => Call::END,
        _ => Call::piece(bytes, random.between(0, history.tables.most_starts())),
    };
    compare_call(comparison, random, history, call);
}

/// Now and then a call whose state has another length, which counts for nothing.
pub fn interrupt(comparison: &mut Comparison, random: &mut Random, history: &mut History) {
    if !random.chance(6) {
        return;
    }
    let bytes = &random_text(random);
    let mut call = match random.below(3) {
        0 => Call::END,
        _ => Call::piece(bytes, random.between(0, history.tables.most_starts())),
    };
    let most_reading = history.tables.most_reading();
    call.reading = match random.below(4) {
        0 => random.between(0, most_reading),
        1 => most_reading,
        _ => random.between(0, 2 * READING_ENTRIES),
    };
    if call.reading != READING_ENTRIES {
        compare_call(comparison, random, history, call);
    }
}
