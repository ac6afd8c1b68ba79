//! Measures the proved placing against the independent one, which is ordinary
//! Rust: the test of a message (numbers 10 and 11), and the writing of its
//! tables. A benchmark and no test: it prints figures and refuses none.

use independent::archives;
use independent::book::check;
use independent::book::encode::encode;
use independent::judging::MOST_SEGMENTS;
use independent::placing::{Answer, Placer};
use independent::planned::{
    count_segments, planned_book, Plan, GROUP, HEAD_OF_K, LARGE_BOOK, M, O, POSITION_OF_K,
};
use independent::times::Times;

const ROUNDS: usize = 11;

/// As small book K of 01, with room for more positions.
const SMALL_BOOK: [Plan; 7] = [
    (0, "UNH", M, 1, &[]),
    (0, "BGM", M, 1, &[]),
    (0, "RFF", M, 1, &[]),
    (0, GROUP, O, 999_999, &[]),
    (1, "LIN", M, 1, &[]),
    (1, "QTY", O, 1, &[]),
    (0, "UNT", M, 1, &[]),
];
const SMALL_TAIL: &str = "UNT+7+1'";

const LARGE_HEAD: &str = "UNH+1+ORDRSP:D:10A:UN:1.1i'BGM+Z10+MKIDI5422'DTM+137:201101311215:203'\
                          RFF+Z13:19001'NAD+MS+9900259000002::293'NAD+MR+9900259000002::293'";
const LARGE_POSITION: [&str; 9] = [
    "LIN+1++1-1?:1.8.0:SRW'",
    "PIA+5'",
    "QTY+145:2011.5:KWH'",
    "DTM+163:20110101:102'",
    "DTM+164:20110201:102'",
    "RFF+MG:1EMH001'",
    "RFF+Z10:7??8'",
    "CCI+Z17++Z36'",
    "CAV+Z20'",
];
const LARGE_TAIL: &str = "UNS+S'UNT+8+1'";

fn main() {
    println!(
        "bench_placing: median of {ROUNDS} rounds, taken in turn; preparing the book is included, \
         and the tables had been written before"
    );
    let small = Input {
        name: "book K with a group of maximum 999,999",
        book: encode(&planned_book(&SMALL_BOOK)),
        message: long_message(HEAD_OF_K, &POSITION_OF_K, SMALL_TAIL),
    };
    let large = Input {
        name: "a book of 40 lines with selectors",
        book: encode(&planned_book(&LARGE_BOOK)),
        message: long_message(LARGE_HEAD, &LARGE_POSITION, LARGE_TAIL),
    };
    measure(&small);
    measure(&large);
}

struct Input {
    name: &'static str,
    book: Vec<u8>,
    message: Vec<u8>,
}

impl Input {
    fn placer(&self) -> Placer {
        Placer::new(&check(&self.book).expect("a good book"))
    }
}

/// As many positions as the segment count allows.
fn long_message(head: &str, position: &[&str], tail: &str) -> Vec<u8> {
    let around = count_segments(head) + count_segments(tail);
    let positions = (MOST_SEGMENTS - around) / position.len();
    format!("{head}{}{tail}", position.concat().repeat(positions)).into_bytes()
}

/// Tag offsets, line numbers, the tree.
type Tables = [Vec<u32>; 3];

fn measure(input: &Input) {
    let answer = input.placer().place(&input.message);
    let Answer::Begins { segments } = answer else {
        panic!("{} should be placed: {answer:?}", input.name);
    };
    println!(
        "{}: {segments} segments, {} bytes",
        input.name,
        input.message.len()
    );
    measure_test(input, segments);
    measure_writing(input, segments);
}

fn measure_test(input: &Input, segments: usize) {
    let (mut ordinary, mut library) = (Times::default(), Times::default());
    for _ in 0..ROUNDS {
        let placed = ordinary.run(|| input.placer().place(&input.message));
        let answered =
            library.run(|| archives::place(&input.message, segments as u32, &input.book));
        assert_eq!((placed.number(), placed.place() as u32), answered);
    }
    print_measured("test", segments, &mut ordinary, &mut library);
}

fn measure_writing(input: &Input, segments: usize) {
    let empty: Tables = [(); 3].map(|()| vec![u32::MAX; segments]);
    let (mut written, mut answered) = (empty.clone(), empty);
    let (mut ordinary, mut library) = (Times::default(), Times::default());
    for _ in 0..ROUNDS {
        let [starts, homes, parents] = &mut written;
        ordinary.run(|| {
            let placer = input.placer();
            placer.write_tree(&input.message, starts, homes, parents)
        });
        let [starts, homes, parents] = &mut answered;
        library.run(|| {
            archives::write_tree(
                &input.message,
                segments as u32,
                &input.book,
                starts,
                homes,
                parents,
            )
        });
        assert!(written == answered, "the tables differ");
    }
    print_measured("writing", segments, &mut ordinary, &mut library);
}

fn print_measured(pass: &str, segments: usize, ordinary: &mut Times, library: &mut Times) {
    for (who, seconds) in [
        ("ordinary Rust", ordinary.median()),
        ("library", library.median()),
    ] {
        println!(
            "  {pass:<8} {who:<14} {:8.2} ms  {:6.1} million segments/s",
            seconds * 1e3,
            segments as f64 / 1e6 / seconds
        );
    }
    println!(
        "  speed of the library relative to ordinary Rust: {:.2} (1.0 = equal)",
        ordinary.median() / library.median()
    );
}
