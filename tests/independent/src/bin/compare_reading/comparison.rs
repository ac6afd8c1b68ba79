//! One question at a time, put to the proved archives and to the independent
//! reading, and texts written again. The first difference is printed and ends
//! the program.

use crate::counts::Counts;
use crate::kinds::Kind;
use independent::archives::{self, SUPPOSED_ENTRIES};
use independent::content::Content;
use independent::judging::plain::judge_message;
use independent::judging::Record;
use independent::reading::{find_in_segment, read_segment, read_segments, Part, Segment};
use std::fmt::{self, Debug, Formatter};
use std::process::exit;

/// Lookups are made with tables of every length up to this one.
const LONGEST_TABLE: usize = 4;
/// Entries on either side of a lent table that must stay as they are.
const MARGIN: usize = 2;
/// No offset or length of any message compared here.
const CANARY: usize = usize::MAX / 3;
/// Longer texts are printed only around the place in question.
const LONGEST_PRINTED: usize = 2_000;

pub struct Comparison {
    counts: Counts,
}

impl Comparison {
    pub fn new() -> Comparison {
        Comparison {
            counts: Counts::new(),
        }
    }

    pub fn counts(&self) -> &Counts {
        &self.counts
    }

    /// The number and place of the text as a message, and every segment's start.
    pub fn compare_text(&mut self, text: &[u8]) {
        let (segments, fault) = read_segments(text);
        let record = self.compare_message(text, &segments, fault);
        self.compare_starts(text, &segments);
        // Number 7 does not show how many segments there are.
        if record.number == 7 {
            self.compare_enveloped(text, segments.len());
        }
    }

    /// The number and place alone. Answers what had to come out.
    pub fn compare_answer(&mut self, text: &[u8]) -> Record {
        let (segments, fault) = read_segments(text);
        self.compare_message(text, &segments, fault)
    }

    fn compare_message(
        &mut self,
        text: &[u8],
        segments: &[Segment],
        fault: Option<usize>,
    ) -> Record {
        let record = judge_message(text, segments, fault, SUPPOSED_ENTRIES);
        let expected = (record.number, record.place);
        let answered = archives::judge_message(text);
        if answered != expected {
            let near = fault.unwrap_or(text.len());
            report(text, near, "number and place", &expected, &answered);
        }
        self.counts.add_message(text, segments, record);
        record
    }

    /// The segments between UNH and UNT, with the right count.
    fn compare_enveloped(&mut self, text: &[u8], segments: usize) {
        let closing = format!("UNT+{}+1'", segments + 2);
        self.compare_answer(&[b"UNH+1'", text, closing.as_bytes()].concat());
    }

    /// Goes from start to start until no well-formed segment follows.
    fn compare_starts(&mut self, text: &[u8], segments: &[Segment]) {
        let mut at = 0;
        for segment in segments {
            self.compare_next(text, at, Some(segment));
            at = segment.end;
        }
        self.compare_next(text, at, None);
    }

    fn compare_next(&mut self, text: &[u8], at: usize, segment: Option<&Segment>) {
        let expected = segment.map_or(0, |segment| segment.end);
        let answered = archives::next(text, at);
        if answered != expected {
            let question = format!("offset after the segment at {at} (0: no segment)");
            report(text, at, &question, &expected, &answered);
        }
        self.counts.add(Kind::of_next(text, at, segment));
    }

    /// The segment at an offset, and its components at every pair of the numbers.
    pub fn compare_offset(&mut self, text: &[u8], at: usize, numbers: &[usize]) {
        let segment = read_segment(text, at).ok();
        self.compare_next(text, at, segment.as_ref());
        for &element in numbers {
            for &component in numbers {
                self.compare_lookup(text, at, segment.as_ref(), element, component);
            }
        }
    }

    fn compare_lookup(
        &mut self,
        text: &[u8],
        at: usize,
        segment: Option<&Segment>,
        element: usize,
        component: usize,
    ) {
        let part = find_in_segment(segment, text.len(), element, component);
        for length in 0..=LONGEST_TABLE {
            let expected = table_with(part, length);
            let mut answered = untouched_table();
            let lent = &mut answered[MARGIN..MARGIN + length];
            archives::find_component(text, at, element, component, lent);
            if answered != expected {
                let question = format!(
                    "table of {length} between canaries of {CANARY}, \
                     for the segment at {at}, element {element}, component {component}"
                );
                report(text, at, &question, &expected, &answered);
            }
        }
        self.counts
            .add(Kind::of_lookup(text, at, segment, element, component));
    }

    /// The text and what the writer makes of its segments' tags and values.
    pub fn compare_written_again(&mut self, text: &[u8], contents: &[Content]) {
        let mut written = Vec::with_capacity(text.len());
        for content in contents {
            content.write(&mut written);
        }
        if written != text {
            let near = common_length(text, &written);
            let [expected, came_out] = [text, &written].map(|bytes| Printed { bytes, near });
            let question = "the text, written again from the archive's tags and values";
            report(text, near, question, &expected, &came_out);
        }
        self.counts.add(Kind::of_written_again(contents));
    }
}

/// How many bytes both have in common before the first difference.
fn common_length(one: &[u8], other: &[u8]) -> usize {
    let pairs = one.iter().zip(other);
    pairs.take_while(|(one, other)| one == other).count()
}

type Table = [usize; MARGIN + LONGEST_TABLE + MARGIN];

fn untouched_table() -> Table {
    [CANARY; MARGIN + LONGEST_TABLE + MARGIN]
}

/// What must stand there after a lookup with a table of this length.
fn table_with(part: Part, length: usize) -> Table {
    let mut table = untouched_table();
    let entries = [part.offset, part.length];
    let fitting = length.min(entries.len());
    table[MARGIN..MARGIN + fitting].copy_from_slice(&entries[..fitting]);
    table
}

/// Prints the first difference and ends the program.
pub fn report(
    text: &[u8],
    near: usize,
    question: &str,
    expected: &impl Debug,
    came_out: &impl Debug,
) -> ! {
    println!("compare_reading: DIFFERENCE");
    println!("  question: {question}");
    println!("  expected: {expected:?}");
    println!("  came out: {came_out:?}");
    println!("  the text: {:?}", Printed { bytes: text, near });
    exit(1)
}

/// Bytes as they are printed, of long ones those around the place in question.
struct Printed<'a> {
    bytes: &'a [u8],
    near: usize,
}

impl Debug for Printed<'_> {
    fn fmt(&self, formatter: &mut Formatter) -> fmt::Result {
        let length = self.bytes.len();
        let from = printed_from(self.bytes, self.near);
        let to = length.min(from + LONGEST_PRINTED);
        let shown = self.bytes[from..to].escape_ascii();
        write!(formatter, "{length} bytes, {from} to {to}: b\"{shown}\"")
    }
}

fn printed_from(text: &[u8], near: usize) -> usize {
    if text.len() <= LONGEST_PRINTED {
        0
    } else {
        near.min(text.len()).saturating_sub(LONGEST_PRINTED / 2)
    }
}
