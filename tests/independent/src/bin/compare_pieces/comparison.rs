//! One call at a time, put to the proved archive and to the independent reading
//! in pieces. The first difference is printed and ends the program.

use crate::counts::{answer_in_words, Counts};
use crate::tables::{Room, State, Tables, MOST_RECORD, NOT_YET_BEGUN, UNTOUCHED_RECORD};
use independent::difference::write_hex;
use independent::lent::{entry_in_words, entry_number, CANARY, MARGIN};
use independent::pieces::{Answer, Asked, Call, Pieces, GOES_ON};
use independent::random::Random;
use std::process::exit;

/// Of longer histories and texts only the end is printed.
const MOST_PRINTED: usize = 60;
const LONGEST_PRINTED: usize = 2_000;

/// The calls on one state, and what they are lent.
pub struct History {
    pub tables: Tables,
    /// Before the first call.
    tables_before: Tables,
    pub pieces: Pieces,
    /// Whether each call is lent a table that nobody has written to before.
    pub lends_another_each_time: bool,
    noted: Vec<Noted>,
}

/// A call without its bytes.
#[derive(Debug)]
#[allow(dead_code, reason = "printed as a whole")]
enum Noted {
    Piece {
        bytes: usize,
        entries: usize,
        reading: usize,
        record: usize,
    },
    /// So many pieces of this length, but for the last.
    Pieces {
        count: usize,
        bytes: usize,
        entries: usize,
    },
    End {
        reading: usize,
        record: usize,
    },
}

impl Noted {
    fn of(call: Call, record: usize) -> Noted {
        let reading = call.reading;
        match call.asked {
            Asked::Piece { bytes, entries } => Noted::Piece {
                bytes: bytes.len(),
                entries,
                reading,
                record,
            },
            Asked::End => Noted::End { reading, record },
        }
    }
}

impl History {
    /// Of a message not yet begun.
    pub fn new(random: &mut Random, room: Room) -> History {
        let tables = Tables::new(random, NOT_YET_BEGUN, room);
        History {
            tables_before: tables.clone(),
            tables,
            pieces: Pieces::default(),
            lends_another_each_time: false,
            noted: Vec::new(),
        }
    }
}

pub struct Comparison {
    counts: Counts,
}

impl Comparison {
    pub fn new() -> Comparison {
        Comparison {
            counts: Counts::new(),
        }
    }

    pub fn counts(&self) -> &Counts {
        &self.counts
    }

    pub fn counts_mut(&mut self) -> &mut Counts {
        &mut self.counts
    }

    /// Compares the answer, and everything that is in the tables and around them
    /// then.
    pub fn compare(&mut self, history: &mut History, call: Call, record: usize) -> Answer {
        if history.lends_another_each_time {
            history.tables.starts.fill(CANARY);
        }
        let was_ended = history.pieces.is_ended();
        let length_before = history.pieces.text().len();
        let mut expected = history.tables.clone();
        let answer = history.pieces.call(call);
        expected.expect_record(record, &answer.record());
        for (index, start) in history.pieces.written_behind(length_before) {
            expected.starts[MARGIN + index] = start;
        }
        history.noted.push(Noted::of(call, record));
        let answered = history.tables.ask(call, record);
        if !was_ended && answer != Answer::NoState {
            *expected.state_mut() = history.tables.state();
        }
        let difference = wrong_answer(answer.number(), answered)
            .or_else(|| first_wrong_number(&history.tables, &expected));
        if let Some(difference) = difference {
            report(&difference, history);
        }
        let counts = &mut self.counts;
        counts.add(&history.pieces, was_ended, length_before, call, answer);
        answer
    }

    /// Brings the bytes in pieces of one length, all with a table of so many
    /// entries. No more than answers and records is compared, until
    /// [`Comparison::compare_from_the_beginning`].
    pub fn bring(&mut self, history: &mut History, bytes: &[u8], length: usize, entries: usize) {
        let pieces = bytes.chunks(length);
        history.pieces.call(Call::piece(bytes, entries));
        history.noted.push(Noted::Pieces {
            count: pieces.len(),
            bytes: length,
            entries,
        });
        for bytes in pieces {
            self.bring_piece(history, bytes, entries);
        }
    }

    /// Brings a piece so many times to a message that is too long already, so that
    /// the independent reading need not be told. It has no table.
    pub fn bring_more(&mut self, history: &mut History, bytes: &[u8], times: usize) {
        history.noted.push(Noted::Pieces {
            count: times,
            bytes: bytes.len(),
            entries: 0,
        });
        for _ in 0..times {
            self.bring_piece(history, bytes, 0);
        }
    }

    fn bring_piece(&mut self, history: &mut History, bytes: &[u8], entries: usize) {
        let call = Call::piece(bytes, entries);
        let answered = history.tables.ask(call, MOST_RECORD);
        let difference = wrong_answer(GOES_ON, answered)
            .or_else(|| wrong_entry("record", &history.tables.record, &UNTOUCHED_RECORD));
        if let Some(difference) = difference {
            report(&difference, history);
        }
        self.counts.add_brought();
    }

    /// Compares what all calls together left, in a history that lends one memory
    /// throughout.
    pub fn compare_from_the_beginning(&mut self, history: &History) {
        let mut expected = history.tables_before.clone();
        *expected.state_mut() = history.tables.state();
        expected.record = history.tables.record;
        for (index, start) in history.pieces.written_behind(0) {
            expected.starts[MARGIN + index] = start;
        }
        if let Some(difference) = first_wrong_number(&history.tables, &expected) {
            report(&difference, history);
        }
    }

    /// Compares the state, before the end and after it, with what the first cut of
    /// the same text left.
    pub fn compare_states(&mut self, history: &History, first: [State; 2], states: [State; 2]) {
        if states != first {
            let difference = Difference {
                question: "the state before the end and after it, by another cut".to_string(),
                expected: format!("{first:?}, as the first cut left it"),
                found: format!("{states:?}"),
            };
            report(&difference, history);
        }
    }
}

struct Difference {
    question: String,
    expected: String,
    found: String,
}

fn wrong_answer(answer: u32, answered: u32) -> Option<Difference> {
    (answered != answer).then(|| Difference {
        question: "the answer".to_string(),
        expected: answer_in_words(answer),
        found: answer_in_words(answered),
    })
}

/// In the record, the starts, or the state.
fn first_wrong_number(found: &Tables, expected: &Tables) -> Option<Difference> {
    wrong_entry("record", &found.record, &expected.record)
        .or_else(|| wrong_entry("table", &found.starts, &expected.starts))
        .or_else(|| wrong_state(found, expected))
}

fn wrong_entry(name: &str, found: &[u32], expected: &[u32]) -> Option<Difference> {
    let index = first_difference(found, expected)?;
    Some(Difference {
        question: format!("entry {} of the {name}, from 1", entry_number(index)),
        expected: entry_in_words(expected[index]),
        found: entry_in_words(found[index]),
    })
}

fn wrong_state(found: &Tables, expected: &Tables) -> Option<Difference> {
    let index = first_difference(&found.reading, &expected.reading)?;
    let number = index as isize - found.state_at as isize + 1;
    Some(Difference {
        question: format!("number {number} of the state, from 1, which must not change"),
        expected: expected.reading[index].to_string(),
        found: found.reading[index].to_string(),
    })
}

fn first_difference<T: PartialEq>(found: &[T], expected: &[T]) -> Option<usize> {
    if found == expected {
        return None;
    }
    (0..found.len()).find(|index| found[*index] != expected[*index])
}

/// Prints the difference and ends the program.
fn report(difference: &Difference, history: &History) -> ! {
    println!("compare_pieces: DIFFERENCE");
    println!("  question:            {}", difference.question);
    println!("  independent reading: {}", difference.expected);
    println!("  proved archive:      {}", difference.found);
    println!("  the text so far:     {}", shown(history.pieces.text()));
    match write_hex("compare_pieces_text.hex", history.pieces.text()) {
        Ok(path) => println!("  the text in hex:     {}", path.display()),
        Err(error) => println!("  the text could not be written: {error}"),
    }
    println!("  the calls so far:    {}", history.noted.len());
    let unprinted = history.noted.len().saturating_sub(MOST_PRINTED);
    for noted in &history.noted[unprinted..] {
        println!("    {noted:?}");
    }
    exit(1)
}

fn shown(text: &[u8]) -> String {
    let from = text.len().saturating_sub(LONGEST_PRINTED);
    let length = text.len();
    let end = text[from..].escape_ascii();
    format!("{length} bytes, {from} to {length}: b\"{end}\"")
}
