//! The reading in pieces against 02's words: cases worked out by hand, the
//! limits, and over random texts, cuts and tables a second reckoning that takes
//! one byte after another through the state machine.

use super::cutting::{piece_ends, Cutting};
use super::lending::{Lender, Lending};
use super::*;
use crate::breaking::damage_bytes;
use crate::bytes::Service;
use crate::machine::{step, State};
use crate::random::Random;
use crate::writing::short_message;

/// Pieces, each with its table's entries.
fn brought(pieces: &[(&str, usize)]) -> Pieces {
    let mut all = Pieces::default();
    for &(bytes, entries) in pieces {
        assert_eq!(
            all.call(Call::piece(bytes.as_bytes(), entries)),
            Answer::GoesOn
        );
    }
    all
}

fn assert_ends(pieces: &[(&str, usize)], record: Record, written: &[(usize, u32)]) {
    let mut all = brought(pieces);
    assert_eq!(all.call(Call::END), Answer::Ended(record), "{pieces:?}");
    let found: Vec<_> = all.written_behind(0).collect();
    assert_eq!(found, written, "{pieces:?}");
}

#[test]
fn answers_have_their_numbers_and_records() {
    let ended = Answer::Ended(Record::at(4, 17));
    let answers = [Answer::GoesOn, Answer::NoState, ended];
    assert_eq!(
        answers.map(Answer::number),
        [4_294_967_295, 4_294_967_294, 4]
    );
    let records: [&[u32]; 3] = [&[], &[], &[4, 17, 0, 0, 0, 0]];
    assert_eq!(answers.map(Answer::record), records);
}

#[test]
fn pieces_are_cut_anywhere() {
    let whole = "UNH+1'FTX+?'?+:A'UNT+3+1'";
    let starts = [(0, 0), (1, 6), (2, 17)];
    for cut in 0..=whole.len() {
        let (before, behind) = whole.split_at(cut);
        let pieces = [(before, 3), ("", 3), (behind, 3)];
        assert_ends(&pieces, Record::at(0, 3), &starts);
    }
    let bytes: Vec<(&str, usize)> = whole.split_inclusive(|_| true).map(|b| (b, 3)).collect();
    assert_eq!(bytes.len(), whole.len());
    assert_ends(&bytes, Record::at(0, 3), &starts);
}

#[test]
fn a_message_without_bytes_is_3() {
    assert_ends(&[], Record::new(3), &[]);
    assert_ends(&[("", 0), ("", 5)], Record::new(3), &[]);
}

#[test]
fn a_fault_has_its_place_in_the_whole_message() {
    assert_ends(&[("UNH+", 1), ("1?", 1), ("A'", 1)], Record::at(4, 6), &[]);
    assert_ends(&[("UN", 1), ("H+1", 1)], Record::at(4, 5), &[]);
    assert_ends(&[("AAA'BBB", 5), ("+?", 5)], Record::at(4, 9), &[(0, 0)]);
    assert_ends(&[("AAA'B", 5), ("BB:", 5)], Record::at(4, 7), &[(0, 0)]);
    assert_ends(&[("AAA+", 5), ("'BBB'", 5)], Record::at(4, 4), &[]);
    assert_ends(&[("AAA+A:", 5), ("+A'", 5)], Record::at(4, 6), &[]);
}

#[test]
fn no_start_is_written_behind_a_fault() {
    let pieces = [("AAA'\n", 5), ("BBB'", 5), ("CCC'", 5)];
    assert_ends(&pieces, Record::at(4, 4), &[(0, 0)]);
    let pieces = [("AAA'BBB+", 5), ("'CCC'", 5), ("DDD'", 5)];
    assert_ends(&pieces, Record::at(4, 8), &[(0, 0)]);
}

#[test]
fn six_is_a_start_that_found_no_entry() {
    for (pieces, number, written) in [
        // One table throughout.
        ([("AAA'", 2), ("BBB'", 2)], 0, &[(0, 0), (1, 4)][..]),
        ([("AAA'", 1), ("BBB'", 1)], 6, &[(0, 0)]),
        ([("AAA'", 0), ("BBB'", 0)], 6, &[]),
        // One that grows in time, and one that grows too late.
        ([("AAA'", 1), ("BBB'", 2)], 0, &[(0, 0), (1, 4)]),
        ([("AAA'", 0), ("BBB'", 2)], 6, &[(1, 4)]),
        ([("AAA'", 0), ("BBB'", 9)], 6, &[(1, 4)]),
        // One that shrinks.
        ([("AAA'", 9), ("BBB'", 1)], 6, &[(0, 0)]),
        ([("AAA'BBB'", 2), ("", 0)], 0, &[(0, 0), (1, 4)]),
        // The table that counts comes with the terminator.
        ([("AAA'BBB", 1), ("'", 2)], 0, &[(0, 0), (1, 4)]),
        ([("AAA'BBB", 2), ("'", 1)], 6, &[(0, 0)]),
    ] {
        assert_ends(&pieces, Record::at(number, 2), written);
    }
}

#[test]
fn four_comes_before_six() {
    assert_ends(&[("AAA'BBB'C", 1)], Record::at(4, 9), &[(0, 0)]);
    assert_ends(&[("AAA'BBB'\n", 0)], Record::at(4, 8), &[]);
}

#[test]
fn starts_are_written_by_the_call_that_brings_the_terminator() {
    let mut all = Pieces::default();
    let mut by_call = Vec::new();
    for bytes in ["AAA'BB", "B", "", "'CCC'", "DDD", "'\n'"] {
        let offset = all.text().len();
        all.call(Call::piece(bytes.as_bytes(), 9));
        by_call.push(all.written_behind(offset).collect::<Vec<_>>());
    }
    let expected: [&[(usize, u32)]; 6] = [&[(0, 0)], &[], &[], &[(1, 4), (2, 8)], &[], &[(3, 12)]];
    assert_eq!(by_call, expected);
}

#[test]
fn nothing_changes_after_the_end() {
    for (text, entries, record) in [
        ("AAA'BBB'", 2, Record::at(0, 2)),
        ("", 2, Record::new(3)),
        ("AAA'BBB", 2, Record::at(4, 7)),
        ("AAA'BBB'", 1, Record::at(6, 2)),
    ] {
        let mut all = brought(&[(text, entries)]);
        let answer = Answer::Ended(record);
        assert_eq!(all.call(Call::END), answer);
        for call in [
            Call::piece(b"CCC'", 9),
            Call::END,
            Call::piece(b"", 0),
            Call::piece(b"\n", 9),
            Call::END,
        ] {
            assert_eq!(all.call(call), answer, "{text} {call:?}");
            assert_eq!(all.text(), text.as_bytes());
        }
    }
}

#[test]
fn a_state_of_another_length_counts_for_nothing() {
    let mut all = brought(&[("AAA", 0)]);
    for reading in (0..20).chain([264, 65_544]).filter(|one| *one != 8) {
        let bytes = b"'BBB'";
        for asked in [Asked::Piece { bytes, entries: 0 }, Asked::End] {
            assert_eq!(all.call(Call { asked, reading }), Answer::NoState);
        }
    }
    assert_eq!(all.call(Call::piece(b"'", 1)), Answer::GoesOn);
    assert_eq!(all.call(Call::END), Answer::Ended(Record::at(0, 1)));
    let wrong = Call {
        asked: Asked::End,
        reading: 9,
    };
    assert_eq!(all.call(wrong), Answer::NoState);
}

/// Bytes of one giant segment, `'` included.
fn giant_segment(length: usize) -> Vec<u8> {
    let filling = "7".repeat(length - "FTX+'".len());
    format!("FTX+{filling}'").into_bytes()
}

fn assert_text_ends(text: &[u8], entries: usize, record: Record, starts: &[u32]) {
    let mut all = Pieces::default();
    let halves = text.split_at(text.len() / 2);
    all.call(Call::piece(halves.0, entries));
    all.call(Call::piece(halves.1, entries));
    assert_eq!(all.call(Call::END), Answer::Ended(record));
    let written: Vec<u32> = all.written_behind(0).map(|(_, start)| start).collect();
    assert_eq!(written, starts);
}

#[test]
fn the_longest_message_and_one_byte_more() {
    let longest = [b"AAA'".as_slice(), &giant_segment(16_777_208), b"BBB'"].concat();
    let starts = [0, 4, 16_777_212];
    assert_text_ends(&longest, 5, Record::at(0, 3), &starts);
    // The third segment finishes with the last byte that counts.
    let longer = [longest.as_slice(), b"C"].concat();
    assert_text_ends(&longer, 5, Record::new(3), &starts);
    // And here one byte behind it.
    let longer = [b"AAA'".as_slice(), &giant_segment(16_777_209), b"BBB'"].concat();
    assert_text_ends(&longer, 5, Record::new(3), &starts[..2]);
    // "a later piece can turn number 4 into 3"
    let mut broken = longer;
    broken[4] = b'f';
    assert_text_ends(&broken[..16_777_216], 5, Record::at(4, 4), &starts[..1]);
    assert_text_ends(&broken, 5, Record::new(3), &starts[..1]);
}

#[test]
fn the_most_segments_and_one_more() {
    let most = b"UNS'".repeat(999_999);
    let starts: Vec<u32> = (0..999_999).map(|index| 4 * index).collect();
    assert_text_ends(&most, 999_999, Record::at(0, 999_999), &starts);
    assert_text_ends(&most, 999_998, Record::at(6, 999_999), &starts[..999_998]);
    let too_many = [most.as_slice(), b"UNS'"].concat();
    for entries in [999_999, 1_000_009, 7] {
        let written = &starts[..entries.min(999_999)];
        assert_text_ends(&too_many, entries, Record::new(5), written);
        let cut = &too_many[..too_many.len() - 1];
        assert_text_ends(cut, entries, Record::at(4, cut.len()), written);
    }
}

/// The same from the bytes one after another, each with its table's entries.
#[derive(Default)]
struct Reckoning {
    written: Vec<(usize, u32)>,
    state: Option<State>,
    start: usize,
    length: usize,
    segments: usize,
    fault: Option<usize>,
    is_missing: bool,
}

impl Reckoning {
    fn take(&mut self, byte: u8, entries: usize) {
        let before = self.state.unwrap_or(State::Start);
        let state = step(Service::STANDARD, before, byte);
        self.state = Some(state);
        match state {
            State::Dead => self.fault = self.fault.or(Some(self.length)),
            State::Start => self.finish(entries),
            _ => {}
        }
        self.length += 1;
        if state == State::Start {
            self.start = self.length;
        }
    }

    fn finish(&mut self, entries: usize) {
        if self.segments < entries {
            self.written.push((self.segments, self.start as u32));
        } else {
            self.is_missing = true;
        }
        self.segments += 1;
    }

    /// Of a text that is far from the limits.
    fn record(&self) -> Record {
        match (self.fault, self.state) {
            (_, None) => Record::new(3),
            (Some(place), _) => Record::at(4, place),
            (None, Some(State::Start)) if self.is_missing => Record::at(6, self.segments),
            (None, Some(State::Start)) => Record::at(0, self.segments),
            (None, Some(_)) => Record::at(4, self.length),
        }
    }
}

#[test]
fn random_pieces_are_read_as_byte_after_byte() {
    let mut random = Random::from_seed(9);
    let mut met = [0; 7];
    for &cutting in Cutting::EVERY.iter().cycle().take(6_000) {
        let mut text = short_message(&mut random);
        for _ in 0..random.below(3) {
            damage_bytes(&mut random, &mut text);
        }
        let lending = random.pick(Lending::EVERY);
        let mut lender = Lender::new(&mut random, lending, &text);
        let (mut pieces, mut reckoning) = (Pieces::default(), Reckoning::default());
        let mut at = 0;
        for end in piece_ends(&mut random, cutting, &text) {
            let entries = lender.next_entries(&mut random, end);
            pieces.call(Call::piece(&text[at..end], entries));
            text[at..end]
                .iter()
                .for_each(|&byte| reckoning.take(byte, entries));
            assert!(pieces
                .written_behind(0)
                .eq(reckoning.written.iter().copied()));
            at = end;
        }
        let record = reckoning.record();
        let shown = text.escape_ascii();
        assert_eq!(pieces.call(Call::END), Answer::Ended(record), "on {shown}");
        met[record.number as usize] += 1;
    }
    for number in [0, 4, 6] {
        assert!(met[number] > 500, "{met:?}");
    }
}
