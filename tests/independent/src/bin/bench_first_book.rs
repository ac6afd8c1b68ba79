//! Measures the judge with the first book, ORDRSP 1.1i, and prints the tables of
//! `docs/PERFORMANCE.md`: 200,000 positions, clean and damaged; the growth from
//! 1,000 positions on; small messages; memory. The proved library stands beside
//! the independent judge, which is ordinary Rust, in the same run. A benchmark
//! and no test: it refuses no figure, but stops at answers that differ.

use independent::archives;
use independent::book::encode::encode;
use independent::book::{check, Row};
use independent::judging::{judge, Record, LONGEST_MESSAGE, MOST_SEGMENTS};
use independent::placing::segments::Segments;
use std::hint::black_box;
use std::ops::RangeInclusive;
use std::thread;
use std::time::{Duration, Instant};

const ROUNDS: usize = 31;
/// A round repeats a call that is shorter than this.
const SHORTEST_ROUND: Duration = Duration::from_millis(20);

/// The first book, as it is shipped.
const BOOK: &[u8] = include_bytes!("../../../../books/ordrsp-1.1i.bin");
/// The lines of SG27, whose maximum is 200,000.
const POSITION_PART: RangeInclusive<usize> = 27..=37;
const MOST_POSITIONS: usize = 200_000;
const GROWTH: [usize; 5] = [1_000, 10_000, 50_000, 100_000, MOST_POSITIONS];

/// What `c/tracksaddle.h` asks for.
const STACK_BYTES: usize = 256 * 1024;
const BYTES_PER_SEGMENT: usize = 3 * size_of::<u32>();

/// `short.edi` of the book's bench messages up to LOC.
const HEAD: &str = "UNH+1+ORDRSP:D:10A:UN:1.1i'BGM+Z14+MKIDI5422'DTM+137:202002031215:203'\
                    RFF+ON:AFN9523'DTM+171:202001311215:203'RFF+Z13:19102'AJT+Z15'\
                    NAD+MS+9900259000002::293'NAD+MR+9900259000002::293'NAD+DP'\
                    LOC+172+DE000562668020O6G56M11SN51G21M24S'";
/// The condition is [1], "Wenn BGM+7 vorhanden".
const NOT_BGM_7: &[u8] = &[0];
const BGM_7: &[u8] = &[1];
const UNKNOWN: &[u8] = &[2];

/// What is wrong with a long message, near its end.
#[derive(Clone, Copy, PartialEq)]
enum Damage {
    None,
    BadByte,
    WrongCount,
    UnknownSegment,
    WrongOrder,
    BadField,
    SumBehind,
}

/// A file of the bench messages, the condition and the worked-out number.
type Small = (&'static str, &'static [u8], &'static [u8], u32);

macro_rules! bench_message {
    ($name:literal) => {
        include_bytes!(concat!("../../../../books/messages/ordrsp-1.1i/", $name))
    };
}

const SMALL: [Small; 8] = [
    ("`short`", bench_message!("short.edi"), NOT_BGM_7, 0),
    (
        "`good-released`",
        bench_message!("good-released.edi"),
        NOT_BGM_7,
        0,
    ),
    ("`full`", bench_message!("full.edi"), BGM_7, 0),
    (
        "`04-byte-80`",
        bench_message!("04-byte-80.edi"),
        NOT_BGM_7,
        4,
    ),
    (
        "`11-no-separation`",
        bench_message!("11-no-separation.edi"),
        NOT_BGM_7,
        11,
    ),
    (
        "`12-third-element`",
        bench_message!("12-third-element.edi"),
        NOT_BGM_7,
        12,
    ),
    (
        "`14-no-request`",
        bench_message!("14-no-request.edi"),
        NOT_BGM_7,
        14,
    ),
    (
        "`full`, condition unknown",
        bench_message!("full.edi"),
        UNKNOWN,
        15,
    ),
];

fn main() {
    let variant = book_with_positions();
    let mut bench = Bench::new();
    println!(
        "Medians of {ROUNDS} rounds, the fastest and the slowest in brackets; the two judges take \
         turns, and two calls of each before the first round are not counted. Each call checks its \
         book. The tables have room for {} segments, were written before the first round and are \
         not cleared between calls.",
        grouped(MOST_SEGMENTS)
    );
    measure_long(&mut bench, &variant);
    measure_growth(&mut bench, &variant);
    measure_small(&mut bench);
    report_memory(&variant);
}

/// The first book, but for the position part: what 19102 never has there, it may
/// have. No other byte changes.
fn book_with_positions() -> Vec<u8> {
    let mut book = check(BOOK).expect("a good book");
    let mut changed = 0;
    for line in POSITION_PART {
        let row = &mut book.rows[0][line - 1];
        if *row == Row::Never {
            *row = Row::May;
            changed += 1;
        }
    }
    let bytes = encode(&book);
    let differing = bytes.iter().zip(BOOK).filter(|(one, other)| one != other);
    assert_eq!((bytes.len(), differing.count()), (BOOK.len(), changed));
    bytes
}

/// `HEAD`, so many positions of four segments, UNS and UNT.
fn long_message(positions: usize, damage: Damage) -> Vec<u8> {
    let mut text = HEAD.to_owned();
    for number in 1..positions {
        text.extend(position(number));
    }
    text.extend(last_position(positions, damage));
    text += "UNS+S'";
    if damage == Damage::SumBehind {
        text += "MOA+24:9'";
    }
    let right_count = text.matches('\'').count() + 1;
    let count = right_count + usize::from(damage == Damage::WrongCount);
    text += &format!("UNT+{count}+1'");
    assert!(text.len() <= LONGEST_MESSAGE && right_count <= MOST_SEGMENTS);
    text.into_bytes()
}

fn position(number: usize) -> [String; 4] {
    [
        format!("LIN+{number}++9900010000649:Z01'"),
        "QTY+145:12:H87'".to_owned(),
        "PRI+CAL:1.25'".to_owned(),
        format!("RFF+Z06:{number}'"),
    ]
}

fn last_position(number: usize, damage: Damage) -> [String; 4] {
    let [item, quantity, price, reference] = position(number);
    let other = match damage {
        Damage::BadByte => "QTY+145:12\n:H87'",
        Damage::UnknownSegment => "XYZ+145:12:H87'",
        Damage::BadField => "QTY+145:1,2:H87'",
        Damage::WrongOrder => return [item, price, quantity, reference],
        Damage::None | Damage::WrongCount | Damage::SumBehind => &quantity,
    };
    [item, other.to_owned(), price, reference]
}

fn measure_long(bench: &mut Bench, variant: &[u8]) {
    println!("\n## 200,000 positions\n");
    println!(
        "| Message | Book | Number | Place | Ordinary Rust, ms | Library, ms | Library / Rust |"
    );
    println!("|---|---|---:|---:|---:|---:|---:|");
    let cases = [
        ("clean", variant, Damage::None, 0),
        ("clean", BOOK, Damage::None, 14),
        ("bad byte", BOOK, Damage::BadByte, 4),
        ("wrong count in UNT", BOOK, Damage::WrongCount, 8),
        ("unknown segment", BOOK, Damage::UnknownSegment, 10),
        ("position out of order", BOOK, Damage::WrongOrder, 11),
        ("bad field", BOOK, Damage::BadField, 12),
        ("sum behind the positions", variant, Damage::SumBehind, 14),
    ];
    for (name, book, damage, number) in cases {
        let message = long_message(MOST_POSITIONS, damage);
        let (record, times) = bench.judge(&message, book, NOT_BGM_7, number);
        println!(
            "| {name} | {} | {number} | {} | {} | {} | {:.2} |",
            if book == BOOK { "first" } else { "variant" },
            grouped(record.place as usize),
            times.ordinary.shown(1e3, 1),
            times.library.shown(1e3, 1),
            times.ratio()
        );
    }
}

fn measure_growth(bench: &mut Bench, variant: &[u8]) {
    println!("\n## Growth\n");
    println!(
        "| Positions | Segments | Bytes | Ordinary Rust, ms | Library, ms | Library / Rust | \
         Rust, ns per position | Library, ns per position |"
    );
    println!("|---:|---:|---:|---:|---:|---:|---:|---:|");
    for positions in GROWTH {
        let message = long_message(positions, Damage::None);
        let (record, times) = bench.judge(&message, variant, NOT_BGM_7, 0);
        let per_position = |times: &Times| times.median() * 1e9 / positions as f64;
        println!(
            "| {} | {} | {} | {} | {} | {:.2} | {:.0} | {:.0} |",
            grouped(positions),
            grouped(record.place as usize),
            grouped(message.len()),
            times.ordinary.shown(1e3, 2),
            times.library.shown(1e3, 2),
            times.ratio(),
            per_position(&times.ordinary),
            per_position(&times.library)
        );
    }
}

fn measure_small(bench: &mut Bench) {
    println!("\n## Small messages\n");
    println!(
        "| Call | Number | Segments | Bytes | Ordinary Rust, µs | Library, µs | Library / Rust |"
    );
    println!("|---|---:|---:|---:|---:|---:|---:|");
    for (name, message, conditions, number) in SMALL {
        let (_, times) = bench.judge(message, BOOK, conditions, number);
        let segments = match number {
            4 => "–".to_owned(),
            _ => Segments::of(message).count().to_string(),
        };
        println!(
            "| {name} | {number} | {segments} | {} | {} | {} | {:.2} |",
            grouped(message.len()),
            times.ordinary.shown(1e6, 2),
            times.library.shown(1e6, 2),
            times.ratio()
        );
    }
    let times = in_turn(
        || assert!(check(black_box(BOOK)).is_ok()),
        || assert_eq!(archives::check_book(black_box(BOOK)), 0),
    );
    println!(
        "| the book check alone | 0 | – | {} | {} | {} | {:.2} |",
        grouped(BOOK.len()),
        times.ordinary.shown(1e6, 2),
        times.library.shown(1e6, 2),
        times.ratio()
    );
}

/// The long message is judged once more, by a thread that has no more stack than
/// the header asks for.
fn report_memory(variant: &[u8]) {
    println!("\n## Memory\n");
    let message = long_message(MOST_POSITIONS, Damage::None);
    let segments = Segments::of(&message).count();
    let mut tables = [(); 3].map(|()| vec![0; segments]);
    let number = thread::scope(|scope| {
        let judging = || {
            let tables = tables.each_mut().map(Vec::as_mut_slice);
            archives::judge(&message, variant, NOT_BGM_7, tables, &mut [0; 6])
        };
        let small = thread::Builder::new().stack_size(STACK_BYTES);
        let running = small.spawn_scoped(scope, judging).expect("a thread");
        running.join().expect("an answer")
    });
    assert_eq!(number, 0);
    println!("| What | Bytes |\n|---|---:|");
    println!("| tables, lent by the caller: for each segment | {BYTES_PER_SEGMENT} |");
    for (name, segments) in [
        ("`full`, 16 segments", 16),
        ("200,000 positions, clean", segments),
        ("the most segments", MOST_SEGMENTS),
    ] {
        let bytes = segments * BYTES_PER_SEGMENT;
        println!("| tables: {name} | {} |", grouped(bytes));
    }
    println!(
        "| stack that `c/tracksaddle.h` asks for | {} |",
        grouped(STACK_BYTES)
    );
    println!(
        "\nA thread with no more stack than that judged the {} segments: number {number}.",
        grouped(segments)
    );
}

/// With a comma before every third digit from the right.
fn grouped(number: usize) -> String {
    let digits = number.to_string();
    let mut text = String::new();
    for (index, digit) in digits.chars().enumerate() {
        if index > 0 && (digits.len() - index).is_multiple_of(3) {
            text.push(',');
        }
        text.push(digit);
    }
    text
}

/// The tables that the two judges write to, as long as the most segments need.
/// Numbers 1 to 11 write to neither.
struct Bench {
    ordinary: [Vec<u32>; 3],
    library: [Vec<u32>; 3],
}

impl Bench {
    fn new() -> Bench {
        let written = [(); 3].map(|()| vec![u32::MAX; MOST_SEGMENTS]);
        Bench {
            ordinary: written.clone(),
            library: written,
        }
    }

    fn judge(
        &mut self,
        message: &[u8],
        book: &[u8],
        conditions: &[u8],
        number: u32,
    ) -> (Record, Compared) {
        let [starts, homes, parents] = &mut self.ordinary;
        let library = &mut self.library;
        let mut expected = Record::default();
        let mut record = [0; 6];
        let times = in_turn(
            || expected = judge(black_box(message), book, conditions, starts, homes, parents),
            || {
                let tables = library.each_mut().map(Vec::as_mut_slice);
                archives::judge(black_box(message), book, conditions, tables, &mut record);
            },
        );
        assert_eq!(expected.number, number, "{expected:?}");
        assert_eq!(expected.entries(), record, "the records differ");
        assert!(self.ordinary == self.library, "the tables differ");
        (expected, times)
    }
}

struct Compared {
    ordinary: Times,
    library: Times,
}

impl Compared {
    /// The library's time in ordinary Rust's.
    fn ratio(&self) -> f64 {
        self.library.median() / self.ordinary.median()
    }
}

/// Who begins changes from round to round.
fn in_turn(mut ordinary: impl FnMut(), mut library: impl FnMut()) -> Compared {
    let ordinary_calls = calls_per_round(&mut ordinary);
    let library_calls = calls_per_round(&mut library);
    let mut times = Compared {
        ordinary: Times::default(),
        library: Times::default(),
    };
    for round in 0..ROUNDS {
        let library_begins = round % 2 == 1;
        if library_begins {
            times.library.run(library_calls, &mut library);
        }
        times.ordinary.run(ordinary_calls, &mut ordinary);
        if !library_begins {
            times.library.run(library_calls, &mut library);
        }
    }
    times
}

/// By two calls before the rounds: the second one is timed.
fn calls_per_round(work: &mut impl FnMut()) -> u32 {
    work();
    let begin = Instant::now();
    work();
    let once = begin.elapsed().as_secs_f64();
    (SHORTEST_ROUND.as_secs_f64() / once).ceil() as u32
}

/// Seconds per call, of each round, in rising order.
#[derive(Default)]
struct Times {
    sorted: Vec<f64>,
}

impl Times {
    fn run(&mut self, calls: u32, work: &mut impl FnMut()) {
        let begin = Instant::now();
        for _ in 0..calls {
            work();
        }
        let seconds = begin.elapsed().as_secs_f64() / f64::from(calls);
        let at = self.sorted.partition_point(|other| *other < seconds);
        self.sorted.insert(at, seconds);
    }

    fn median(&self) -> f64 {
        self.sorted[self.sorted.len() / 2]
    }

    fn shown(&self, units_per_second: f64, digits: usize) -> String {
        let [median, fastest, slowest] =
            [self.median(), self.sorted[0], self.sorted[ROUNDS - 1]].map(|s| s * units_per_second);
        format!("{median:.digits$} ({fastest:.digits$}–{slowest:.digits$})")
    }
}
