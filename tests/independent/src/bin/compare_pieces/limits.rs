//! Texts at the limits of 01 and behind them: 16,777,216 bytes, 999,999 segments,
//! both, and more bytes than 32 bits count.

use crate::comparison::{Comparison, History};
use crate::tables::Room;
use independent::judging::{Record, LONGEST_MESSAGE, MOST_SEGMENTS};
use independent::pieces::{Answer, Call};
use independent::random::Random;

const PIECE_LENGTHS: [usize; 4] = [64 << 10, 4_096, 1_000_003, 61];
const SHORTEST: &str = "UNS'";
const RECORD_ENTRIES: usize = 6;

pub fn compare_all(comparison: &mut Comparison, random: &mut Random) {
    let limits = &mut Limits { comparison, random };
    limits.compare_lengths();
    limits.compare_segments();
    limits.compare_both();
    limits.compare_bytes();
    limits.compare_more_than_32_bits();
}

/// Up to which offset, from the one before on, bytes come with a table of how
/// many entries.
type Lent<'a> = &'a [(usize, usize)];

struct Limits<'a> {
    comparison: &'a mut Comparison,
    random: &'a mut Random,
}

impl Limits<'_> {
    /// Few segments, one of them giant.
    fn compare_lengths(&mut self) {
        let most = LONGEST_MESSAGE;
        let longest = with_a_giant(most, "AAA'", "BBB'");
        self.require(&longest, &[(most, 5)], Record::at(0, 3));
        let longer = [longest.as_slice(), b"C"].concat();
        self.require(&longer, &[(most, 5), (most + 1, 5)], Record::new(3));
        let mut longer = with_a_giant(most + 1, "AAA'", "BBB'");
        self.require(&longer, &[(most + 1, 5)], Record::new(3));
        self.require(&longer, &[(most, 5)], Record::at(4, most));
        for at in [most, most - 1, 9] {
            longer[at] = b'\n';
            self.require(&longer, &[(most + 1, 5)], Record::new(3));
        }
        self.require(&longer, &[(most, 5)], Record::at(4, 9));
    }

    /// Shortest segments, up to the most of them and more.
    fn compare_segments(&mut self) {
        let n = MOST_SEGMENTS;
        let most = n * SHORTEST.len();
        let mut text = SHORTEST.repeat(n + 2).into_bytes();
        for (lent, record) in [
            (&[(most, n)][..], Record::at(0, n)),
            (&[(most, n - 1)], Record::at(6, n)),
            (&[(400, 100), (most, n)], Record::at(0, n)),
            (&[(404, 100), (most, n + 7)], Record::at(6, n)),
            (&[(most - 1, n), (most, n - 1)], Record::at(6, n)),
            (&[(most - 1, n - 1), (most, n)], Record::at(0, n)),
            (&[(most + 3, n)], Record::at(4, most + 3)),
            (&[(most + 4, n)], Record::new(5)),
            (&[(most + 4, n + 7)], Record::new(5)),
            (&[(most + 4, 3)], Record::new(5)),
            (&[(most, n), (most + 8, 0)], Record::new(5)),
        ] {
            self.require(&text, lent, record);
        }
        text[most + 5] = b'\n';
        self.require(&text, &[(most + 8, n)], Record::at(4, most + 5));
    }

    /// Both limits at once, and one behind the other.
    fn compare_both(&mut self) {
        let (most, n) = (LONGEST_MESSAGE, MOST_SEGMENTS);
        let text = with_a_giant(most, &SHORTEST.repeat(n - 1), "");
        self.require(&text, &[(most, n)], Record::at(0, n));
        let text = [text.as_slice(), b"UNS'"].concat();
        self.require(&text, &[(most + 4, n + 1)], Record::new(3));
        let segment = "AAA+123456:8901'";
        let text = segment.repeat(most / segment.len() + 1).into_bytes();
        self.require(&text, &[(most, n + 9)], Record::new(5));
        self.require(&text, &[(most + 16, n + 9)], Record::new(3));
    }

    /// A long text in pieces of one byte.
    fn compare_bytes(&mut self) {
        let most = LONGEST_MESSAGE;
        let text = with_a_giant(most + 1, &SHORTEST.repeat(1_000), "BBB+?''");
        let record = Record::at(4, most);
        self.require_in_pieces(&text, 1, &[(most, 5_000)], record);
    }

    /// A fault comes first, so that a length that restarts leads to number 4.
    fn compare_more_than_32_bits(&mut self) {
        let mut history = History::new(self.random, Room::for_starts(5));
        let many = vec![b'\''; LONGEST_MESSAGE];
        self.comparison.bring(&mut history, b"AAA'\nAAA'", 9, 5);
        self.comparison.bring(&mut history, &many, many.len(), 5);
        let more = (1 << 32) / many.len() - 1;
        self.comparison.bring_more(&mut history, &many, more);
        self.end(&mut history, Record::new(3));
    }

    fn require(&mut self, text: &[u8], lent: Lent, record: Record) {
        let length = self.random.pick(&PIECE_LENGTHS);
        self.require_in_pieces(text, length, lent, record);
    }

    /// What comes out must also be what this text was made for. The last byte is a
    /// piece of its own, and everything is compared from there on.
    fn require_in_pieces(&mut self, text: &[u8], length: usize, lent: Lent, record: Record) {
        let most_starts = lent.iter().map(|(_, entries)| *entries).max();
        let room = Room::for_starts(most_starts.expect("a table"));
        let mut history = History::new(self.random, room);
        let &(last_end, last_entries) = lent.last().expect("a table");
        let mut at = 0;
        for &(end, entries) in lent {
            let end = end.min(last_end - 1);
            let bytes = &text[at..end];
            self.comparison.bring(&mut history, bytes, length, entries);
            at = end;
        }
        let last = Call::piece(&text[at..last_end], last_entries);
        self.compare(&mut history, last);
        self.end(&mut history, record);
    }

    /// Ends the history, and calls on after the end.
    fn end(&mut self, history: &mut History, record: Record) {
        let answer = self.compare(history, Call::END);
        assert_eq!(answer, Answer::Ended(record));
        let most_starts = history.tables.most_starts();
        self.compare(history, Call::piece(b"AAA'BBB'", most_starts));
        self.compare(history, Call::END);
        self.comparison.compare_from_the_beginning(history);
    }

    fn compare(&mut self, history: &mut History, call: Call) -> Answer {
        self.comparison.compare(history, call, RECORD_ENTRIES)
    }
}

/// A text of this length: a giant segment between others.
fn with_a_giant(length: usize, before: &str, behind: &str) -> Vec<u8> {
    let around = before.len() + "FTX+'".len() + behind.len();
    let filling = "7".repeat(length - around);
    format!("{before}FTX+{filling}'{behind}").into_bytes()
}
