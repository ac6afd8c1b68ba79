//! One text with one table, cut in several ways: before the end and after it the
//! state has the same eight numbers, and the table the same starts.

use crate::comparison::{Comparison, History};
use crate::histories::{interrupt, random_text};
use crate::tables::{Room, State};
use independent::pieces::cutting::{piece_ends, Cutting};
use independent::pieces::lending::{Lender, ONE_TABLE};
use independent::pieces::Call;
use independent::random::Random;

const TEXTS: usize = 3_000;
const RECORD_ENTRIES: usize = 2;

pub fn compare_all(comparison: &mut Comparison, random: &mut Random) {
    for &lending in ONE_TABLE.iter().cycle().take(TEXTS) {
        let text = random_text(random);
        let mut lender = Lender::new(random, lending, &text);
        let entries = lender.next_entries(random, text.len());
        let room = Room::for_starts(lender.most());
        let mut first = None;
        for &cutting in Cutting::EVERY {
            let mut history = History::new(random, room);
            let ends = piece_ends(random, cutting, &text);
            let states = compare_cut(comparison, random, &mut history, (&text, &ends, entries));
            comparison.compare_states(&history, *first.get_or_insert(states), states);
        }
    }
}

/// The state before the end and after it.
fn compare_cut(
    comparison: &mut Comparison,
    random: &mut Random,
    history: &mut History,
    (text, ends, entries): (&[u8], &[usize], usize),
) -> [State; 2] {
    let mut at = 0;
    for &end in ends {
        interrupt(comparison, random, history);
        let call = Call::piece(&text[at..end], entries);
        comparison.compare(history, call, RECORD_ENTRIES);
        at = end;
    }
    let before = history.tables.state();
    comparison.compare(history, Call::END, RECORD_ENTRIES);
    comparison.compare_from_the_beginning(history);
    [before, history.tables.state()]
}
