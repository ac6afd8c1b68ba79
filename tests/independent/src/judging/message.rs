//! The message alone, numbers 3 to 9. Neither a book nor a table is needed for
//! it: [`judge_message`], the reading benchmark's yardstick, looks at each byte
//! once and keeps nothing. The judge keeps where the segments start, and asks
//! the same questions one after another.

use super::{stop_unless, Record, Stop, LONGEST_MESSAGE, MOST_SEGMENTS};
use crate::bytes::Service;
use crate::machine::scan;
use crate::placing::segments::{Segment, Segments};

/// Numbers 3 to 9 with their places, or 0 with the segment count.
pub fn judge_message(message: &[u8], shortest_table: usize) -> Record {
    match stop_at_the_first_fault(message, shortest_table) {
        Ok(accepted) => accepted,
        Err(fault) => fault,
    }
}

fn stop_at_the_first_fault(message: &[u8], shortest_table: usize) -> Result<Record, Stop> {
    check_length(message)?;
    let mut n = 0;
    let mut misplaced = 0;
    let (mut last, mut end) = (0, 0);
    for segment in Segments::of(message) {
        n += 1;
        (last, end) = (segment.start, segment.end());
        if misplaced == 0 && !is_in_its_place(segment, n == 1, end == message.len()) {
            misplaced = n;
        }
    }
    check_end(message, end)?;
    check_limits(n, shortest_table)?;
    stop_unless(misplaced == 0, Record::at(7, misplaced))?;
    let first = Segments::of(message).next().expect("UNH");
    let last = Segment {
        start: last,
        bytes: &message[last..],
    };
    check_closing(n, first, last)?;
    Ok(Record::at(0, n))
}

/// Number 3.
pub(super) fn check_length(message: &[u8]) -> Result<(), Stop> {
    let is_good = (1..=LONGEST_MESSAGE).contains(&message.len());
    stop_unless(is_good, Record::new(3))
}

/// Number 4, once it is known where the segments end that were found one after
/// another: they are good, so the fault is looked for after them.
pub(super) fn check_end(message: &[u8], end: usize) -> Result<(), Stop> {
    match scan(Service::STANDARD, &message[end..]) {
        Err(place) if end < message.len() => Err(Record::at(4, end + place)),
        _ => Ok(()),
    }
}

/// Numbers 5 and 6.
pub(super) fn check_limits(n: usize, shortest_table: usize) -> Result<(), Stop> {
    stop_unless(n <= MOST_SEGMENTS, Record::new(5))?;
    stop_unless(n <= shortest_table, Record::at(6, n))
}

/// Number 7: UNH exactly first, UNT exactly last. One segment is both, so that
/// its tag is never right.
pub(super) fn is_in_its_place(segment: Segment, is_first: bool, is_last: bool) -> bool {
    let tag = segment.tag();
    is_first == (tag == b"UNH") && is_last == (tag == b"UNT")
}

/// Numbers 8 and 9. Two components have the same value exactly if they have the
/// same text, and an absent one has the empty value.
pub(super) fn check_closing(n: usize, first: Segment, last: Segment) -> Result<(), Stop> {
    let count = last.component(1, 1).unwrap_or_default();
    stop_unless(count == n.to_string().as_bytes(), Record::at(8, n))?;
    let opening = first.component(1, 1).unwrap_or_default();
    let closing = last.component(2, 1).unwrap_or_default();
    stop_unless(opening == closing, Record::at(9, n))
}
