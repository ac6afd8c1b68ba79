//! Measures the proved judge against the independent one, which is ordinary
//! Rust: long messages that are accepted, and ones with a fault near their
//! beginning or their end. A benchmark and no test: it prints figures and
//! refuses none, but for answers that differ.

use independent::archives;
use independent::book::encode::encode;
use independent::book::{Book, Condition, Expression, Field, Form, Joint, Presence, Row};
use independent::judging::{judge, LONGEST_MESSAGE, MOST_SEGMENTS};
use independent::planned::{
    book_k_with_room, count_segments, planned_book, HEAD_OF_K, LARGE_BOOK, POSITION_OF_K,
};
use independent::times::Times;

const ROUNDS: usize = 7;

const SMALL_TAIL: &str = "";

const LARGE_HEAD: &str = "UNH+1+ORDRSP:D:10A:UN:1.1i'BGM+Z10+MKIDI5422'DTM+137:201101311215:203'\
                          RFF+Z13:10001'NAD+MS+9900259000002::293'NAD+MR+9900259000002::293'";
const LARGE_POSITION: [&str; 9] = [
    "LIN+1++1-1?:1.8.0:SRW'",
    "QTY+145:2011.5:KWH'",
    "DTM+163:20110101:102'",
    "DTM+164:20110201:102'",
    "RFF+MG:1EMH001'",
    "RFF+Z10:7??8'",
    "CCI+Z17++Z36'",
    "CAV+Z20'",
    "CAV+Z30'",
];
const LARGE_TAIL: &str = "UNS+S'";

/// A field: element, component, presence, form, longest.
type FieldPlan = (u8, u8, Presence, Form, u16);

const MUST: Presence = Presence::MustHaveBytes;
const MAY: Presence = Presence::MayHaveBytes;
const WITH: Presence = Presence::MustIfItsElementHasBytes;
const NOT: Presence = Presence::MustBeEmpty;
const AN: Form = Form::Alphanumeric;
const N: Form = Form::Numeric;

fn planned_fields(tag: &str) -> &'static [FieldPlan] {
    match tag {
        "UNH" => &[
            (1, 1, MUST, AN, 14),
            (2, 1, MUST, AN, 6),
            (2, 2, MUST, AN, 3),
            (2, 3, MUST, AN, 3),
            (2, 4, MUST, AN, 2),
            (2, 5, MUST, AN, 6),
        ],
        "BGM" => &[(1, 1, MUST, AN, 3), (2, 1, MUST, AN, 35)],
        "DTM" => &[
            (1, 1, MUST, AN, 3),
            (1, 2, MUST, AN, 35),
            (1, 3, MUST, AN, 3),
        ],
        "RFF" => &[(1, 1, MUST, AN, 3), (1, 2, MUST, AN, 70)],
        "NAD" => &[
            (1, 1, MUST, AN, 3),
            (2, 1, WITH, AN, 35),
            (2, 2, NOT, AN, 17),
            (2, 3, WITH, AN, 3),
        ],
        "LIN" => &[
            (1, 1, MUST, N, 6),
            (2, 1, NOT, AN, 3),
            (3, 1, WITH, AN, 35),
            (3, 2, WITH, AN, 3),
        ],
        "QTY" => &[(1, 1, MUST, AN, 3), (1, 2, MUST, N, 35), (1, 3, MAY, AN, 8)],
        "CCI" => &[
            (1, 1, MUST, AN, 3),
            (2, 1, NOT, AN, 17),
            (3, 1, WITH, AN, 17),
        ],
        "UNT" => &[(1, 1, MUST, N, 6), (2, 1, MUST, AN, 14)],
        _ => &[(1, 1, MUST, AN, 3), (1, 2, MAY, AN, 35)],
    }
}

/// Where the number of a line matters, its tag is in the plan.
const QTY: usize = 25;
const DTM_163: usize = 26;
const MOA: usize = 28;
const GROUP_OF_Z10: usize = 31;
const LARGE_CONDITIONS: [u8; 3] = [1, 2, 0];

fn main() {
    println!(
        "bench_judge: median of {ROUNDS} rounds, taken in turn; each call checks its book; the \
         tables have been written before and are not cleared between calls"
    );
    measure_book(&Sample {
        name: "book K with a group of maximum 999,999",
        book: encode(&book_k_with_room()),
        conditions: vec![1],
        head: HEAD_OF_K,
        position: &POSITION_OF_K,
        tail: SMALL_TAIL,
    });
    measure_book(&Sample {
        name: "a book of 40 lines with selectors, fields and conditions, one of them unknown",
        book: encode(&large_book()),
        conditions: LARGE_CONDITIONS.to_vec(),
        head: LARGE_HEAD,
        position: &LARGE_POSITION,
        tail: LARGE_TAIL,
    });
}

fn large_book() -> Book {
    let mut book = planned_book(&LARGE_BOOK);
    book.conditions = LARGE_CONDITIONS.len();
    for index in 0..book.lines.len() {
        add_fields(&mut book, index);
    }
    book.carrier = 8;
    let rows = &mut book.rows[0];
    rows[QTY - 1] = Row::MustIf(expression(Joint::All, &[(1, false)]));
    rows[DTM_163 - 1] = Row::MustIf(expression(Joint::Any, &[(1, false), (2, false)]));
    rows[MOA - 1] = Row::MayIf(expression(Joint::All, &[(2, false), (3, false)]));
    rows[GROUP_OF_Z10 - 1] = Row::MustIf(expression(Joint::All, &[(3, true)]));
    book
}

/// The line's codes are allowed at element 1, component 1 alone.
fn add_fields(book: &mut Book, index: usize) {
    let (_, tag, _, _, _) = LARGE_BOOK[index];
    let first = book.fields.len();
    let Some(line) = book.lines[index].segment_mut() else {
        return;
    };
    for &(element, component, presence, form, longest) in planned_fields(tag) {
        let codes = match &line.selector {
            Some(selector) if (element, component) == (1, 1) => selector.codes.clone(),
            _ => 0..0,
        };
        book.fields.push(Field {
            element,
            component,
            presence,
            form,
            longest,
            codes,
        });
    }
    line.fields = first..book.fields.len();
}

fn expression(joint: Joint, conditions: &[(u8, bool)]) -> Expression {
    let condition = |&(number, negated): &(u8, bool)| Condition { number, negated };
    Expression {
        joint,
        conditions: conditions.iter().map(condition).collect(),
    }
}

/// A book, and what messages over it are made of: a head, positions which begin
/// with LIN and QTY, and a tail before UNT.
struct Sample {
    name: &'static str,
    book: Vec<u8>,
    conditions: Vec<u8>,
    head: &'static str,
    position: &'static [&'static str],
    tail: &'static str,
}

impl Sample {
    /// As many positions as the segment count allows, one of them another.
    fn message(&self, other: Option<(Where, &[&str])>) -> Vec<u8> {
        let around = count_segments(self.head) + count_segments(self.tail) + 1;
        let positions = (MOST_SEGMENTS - around) / self.position.len() - 1;
        let usual = self.position.concat();
        let (first, last) = match other {
            None => (usual.clone(), usual.clone()),
            Some((Where::Early, other)) => (other.concat(), usual.clone()),
            Some((Where::Late, other)) => (usual.clone(), other.concat()),
        };
        let repeated = usual.repeat(positions - 1);
        let text = [self.head, &first, &repeated, &last, self.tail].concat();
        let message = format!("{text}UNT+{}+1'", count_segments(&text) + 1).into_bytes();
        assert!(message.len() <= LONGEST_MESSAGE);
        message
    }
}

#[derive(Clone, Copy)]
enum Where {
    Early,
    Late,
}

fn measure_book(sample: &Sample) {
    println!("{}:", sample.name);
    measure(sample, "accepted", sample.message(None), 0);
    let broken_field = [&["LIN+1,5'"], &sample.position[1..]].concat();
    let wrong_order = [&sample.position[1..2], sample.position].concat();
    let missing_quantity = [&sample.position[..1], &sample.position[2..]].concat();
    for (name, at) in [("first", Where::Early), ("last", Where::Late)] {
        let message = |other: &[&str]| sample.message(Some((at, other)));
        let in_position = |fault: &str| format!("{fault} in the {name} position");
        let bytes = message(&["LIN+1\n'"]);
        measure(sample, &in_position("bad byte"), bytes, 4);
        let bytes = message(&wrong_order);
        measure(sample, &in_position("QTY twice"), bytes, 11);
        let bytes = message(&broken_field);
        measure(sample, &in_position("bad field"), bytes, 12);
        let bytes = message(&missing_quantity);
        measure(sample, &in_position("no QTY"), bytes, 14);
    }
}

fn measure(sample: &Sample, name: &str, message: Vec<u8>, number: u32) {
    let (book, conditions) = (&sample.book, &sample.conditions);
    let empty = [(); 3].map(|()| vec![u32::MAX; MOST_SEGMENTS]);
    let (mut written, mut answered) = (empty.clone(), empty);
    let (mut ordinary, mut library) = (Times::default(), Times::default());
    let mut record = [0; 6];
    for _ in 0..ROUNDS {
        let [starts, homes, parents] = &mut written;
        let expected = ordinary.run(|| judge(&message, book, conditions, starts, homes, parents));
        assert_eq!(expected.number, number, "{name}: {expected:?}");
        let tables = answered.each_mut().map(Vec::as_mut_slice);
        library.run(|| archives::judge(&message, book, conditions, tables, &mut record));
        assert_eq!(expected.entries(), record, "the records differ");
    }
    assert!(written == answered, "the tables differ");
    let (ordinary, library) = (ordinary.median(), library.median());
    println!(
        "  {number:>2} {name:<32} {:>8} bytes  ordinary Rust {:7.2} ms  library {:7.2} ms  \
         speed of the library relative to ordinary Rust {:.2} (1.0 = equal)",
        message.len(),
        ordinary * 1e3,
        library * 1e3,
        ordinary / library
    );
}
