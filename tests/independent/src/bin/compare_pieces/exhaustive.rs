//! Every short text behind beginnings that leave each thing open, cut once at
//! every place; every byte behind and before a cut at each of these; and some
//! texts cut in every way that there is.

use crate::comparison::{Comparison, History};
use crate::tables::Room;
use independent::enumeration::{for_each_text, ALPHABET};
use independent::pieces::Call;
use independent::random::Random;

const BEGINNINGS: [&str; 10] = [
    "",
    "A",
    "A1",
    "A1A",
    "A1A+",
    "A1A+a",
    "A1A+a:",
    "A1A+a?",
    "A1A'AA1+?:",
    "A1A+:a'A\n",
];
const LONGEST_TAIL: usize = 3;
const ENDINGS: [&str; 3] = ["", "'", "A+a'A1A'"];
/// Good ones, ones with a fault, and ones that break off.
const CUT_IN_EVERY_WAY: [&str; 8] = [
    "AAA+?'+:?+'",
    "AAA'B1B+??'",
    "AAA+?:'UNS'",
    "AAA+A:+A'BB",
    "AAA'B+B'CCC",
    "AAA'BBB+?A'",
    "AAA+'BBB'CC",
    "AAA'BBB+A:?",
];
/// More than any of these texts has segments.
const ENTRIES: usize = 6;
const RECORD_ENTRIES: usize = 6;

pub fn compare_all(comparison: &mut Comparison, random: &mut Random) {
    for beginning in BEGINNINGS {
        compare_behind(comparison, random, beginning.as_bytes());
    }
    for text in CUT_IN_EVERY_WAY {
        compare_every_way(comparison, random, text.as_bytes());
    }
}

fn compare_behind(comparison: &mut Comparison, random: &mut Random, beginning: &[u8]) {
    for_each_text(&ALPHABET, beginning, LONGEST_TAIL, &mut |text| {
        for cut in 0..=text.len() {
            compare_pieces(comparison, random, &[&text[..cut], &text[cut..]]);
        }
    });
    for byte in 0..=u8::MAX {
        for ending in ENDINGS {
            let pieces = [beginning, &[byte], ending.as_bytes()];
            compare_pieces(comparison, random, &pieces);
        }
    }
}

/// A bit for each place within the text says whether it is cut there.
fn compare_every_way(comparison: &mut Comparison, random: &mut Random, text: &[u8]) {
    for cuts in 0..1 << (text.len() - 1) {
        let places = (1..text.len()).filter(|place| cuts >> (place - 1) & 1 == 1);
        let mut pieces = Vec::new();
        let mut at = 0;
        for end in places.chain([text.len()]) {
            pieces.push(&text[at..end]);
            at = end;
        }
        compare_pieces(comparison, random, &pieces);
    }
}

fn compare_pieces(comparison: &mut Comparison, random: &mut Random, pieces: &[&[u8]]) {
    let mut history = History::new(random, Room::for_starts(ENTRIES));
    let entries = random.pick(&[ENTRIES, ENTRIES, ENTRIES, 1]);
    let pieces = pieces.iter().map(|bytes| Call::piece(bytes, entries));
    for call in pieces.chain([Call::END]) {
        comparison.compare(&mut history, call, RECORD_ENTRIES);
    }
}
