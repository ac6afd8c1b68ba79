//! Measures the proved reading in pieces (T-09) against the proved scan of the
//! whole message at once, numbers 3 to 9: in one piece, and in pieces down to one
//! byte, over texts of different shapes and lengths. A benchmark and no test: it
//! prints figures and refuses none, but for answers and starts that differ.

use independent::archives;
use independent::described;
use independent::judging::{LONGEST_MESSAGE, MOST_SEGMENTS};
use independent::lengthy::{enveloped, message_of_length, REALISTIC_SEGMENTS};
use independent::pieces::{GOES_ON, READING_ENTRIES};
use independent::placing::segments::Segments;
use independent::times::Times;

const ROUNDS: usize = 11;
const MEBIBYTE: usize = 1 << 20;
const LENGTHS: [usize; 3] = [MEBIBYTE, 4 * MEBIBYTE, LONGEST_MESSAGE];

/// The scan at once, and the pieces' lengths.
const WAYS: [(&str, Way); 6] = [
    ("the whole at once", Way::Scan),
    ("in one piece", Way::Pieces(LONGEST_MESSAGE)),
    ("in pieces of 64 KiB", Way::Pieces(64 << 10)),
    ("in pieces of 1 KiB", Way::Pieces(1 << 10)),
    ("in pieces of 64 bytes", Way::Pieces(64)),
    ("in pieces of 1 byte", Way::Pieces(1)),
];

#[derive(Clone, Copy)]
enum Way {
    Scan,
    Pieces(usize),
}

described! {
    Shape {
        Ordinary: "ordinary segments",
        Plain: "one giant segment of plain data",
        Released: "one giant segment of release pairs",
        Shortest: "shortest segments",
        FaultFirst: "ordinary segments, a fault at the first byte",
    }
}

impl Shape {
    fn text(self, length: usize) -> Vec<u8> {
        let ordinary = || REALISTIC_SEGMENTS.into_iter().cycle();
        match self {
            Shape::Ordinary => message_of_length(length, ordinary()),
            Shape::Plain => message_of_length(length, [].into_iter()),
            Shape::Released => message_of_release_pairs(length),
            Shape::Shortest => message_of_length(length, ["AAA'"].into_iter().cycle()),
            Shape::FaultFirst => {
                let mut text = message_of_length(length, ordinary());
                text[0] = b'u';
                text
            }
        }
    }

    /// What is answered for it.
    fn number(self, length: usize) -> u32 {
        match self {
            Shape::Shortest if length / "AAA'".len() > MOST_SEGMENTS => 5,
            Shape::FaultFirst => 4,
            _ => 0,
        }
    }
}

fn message_of_release_pairs(length: usize) -> Vec<u8> {
    let left = length - enveloped("FTX+'", 1).len();
    let odd = if left % 2 == 1 { "7" } else { "" };
    let message = enveloped(&format!("FTX+{odd}{}'", "?+".repeat(left / 2)), 1);
    assert_eq!(message.len(), length);
    message
}

fn main() {
    println!(
        "bench_pieces: median of {ROUNDS} rounds, taken in turn; ns per byte for three lengths, and \
         for the longest ms and how many times as long as the scan at once (wanted for pieces of \
         64 KiB: 1.5 or less); the table has {MOST_SEGMENTS} entries and had been written before"
    );
    for &shape in Shape::EVERY {
        measure_shape(shape);
    }
}

/// The number and place answered, and the median for each way, in seconds.
struct Measured {
    answer: (u32, u32),
    seconds: Vec<f64>,
}

fn measure_shape(shape: Shape) {
    let by_length = LENGTHS.map(|length| measure(shape, length));
    let answers = by_length.each_ref().map(|measured| {
        let (number, place) = measured.answer;
        format!("{number}, place {place}")
    });
    println!("{}: number {}", shape.description(), answers.join("; "));
    let lengths = LENGTHS.map(|length| format!("{:>4} MiB", length / MEBIBYTE));
    println!("  {:<22} {}", "", lengths.join(" "));
    for (index, (name, way)) in WAYS.iter().enumerate() {
        let seconds = by_length.each_ref().map(|measured| measured.seconds[index]);
        let scan = by_length[LENGTHS.len() - 1].seconds[0];
        print_measured(shape, name, *way, seconds, scan);
    }
}

fn print_measured(
    shape: Shape,
    name: &str,
    way: Way,
    seconds: [f64; LENGTHS.len()],
    scan_seconds: f64,
) {
    let longest = seconds[LENGTHS.len() - 1];
    let mut lengths = LENGTHS.into_iter();
    let per_byte = seconds.map(|seconds| {
        let length = lengths.next().expect("as many lengths");
        format!("{:8.3}", seconds * 1e9 / length as f64)
    });
    let ratio = match way {
        Way::Scan => String::new(),
        // The scan at once stops there, and says nothing of the rest.
        Way::Pieces(_) if shape == Shape::FaultFirst => String::new(),
        Way::Pieces(_) => format!("  {:6.2} times", longest / scan_seconds),
    };
    let per_byte = per_byte.join(" ");
    println!("  {name:<22} {per_byte}  {:8.2} ms{ratio}", longest * 1e3);
}

fn measure(shape: Shape, length: usize) -> Measured {
    let text = shape.text(length);
    let mut starts = vec![u32::MAX; MOST_SEGMENTS];
    let scanned = archives::judge_message(&text);
    assert_eq!(scanned.0, shape.number(length), "the text's number");
    let mut times = WAYS.map(|_| Times::default());
    // The first round is not counted: it writes the table and meets every way.
    for round in 0..=ROUNDS {
        for ((name, way), times) in WAYS.iter().zip(&mut times) {
            let mut uncounted = Times::default();
            let times = if round == 0 { &mut uncounted } else { times };
            let answer = match *way {
                Way::Scan => times.run(|| archives::judge_message(&text)),
                Way::Pieces(length) => times.run(|| read_in_pieces(&text, length, &mut starts)),
            };
            assert_eq!(answer, scanned, "the answers differ {name}");
            if round == 0 {
                assert_starts(&text, way, &mut starts);
            }
        }
    }
    Measured {
        answer: scanned,
        seconds: times.iter_mut().map(Times::median).collect(),
    }
}

fn read_in_pieces(text: &[u8], length: usize, starts: &mut [u32]) -> (u32, u32) {
    let mut reading = [0; READING_ENTRIES];
    let mut record = [0; 6];
    for piece in text.chunks(length) {
        let answer = archives::read_piece(&mut reading, piece, starts, &mut record);
        assert_eq!(answer, GOES_ON);
    }
    archives::read_end(&mut reading, &mut record);
    (record[0], record[1])
}

/// After a way of reading, which leaves another table for the next.
fn assert_starts(text: &[u8], way: &Way, starts: &mut [u32]) {
    if let Way::Scan = way {
        return;
    }
    let segments = Segments::of(text).take(MOST_SEGMENTS);
    let mut expected: Vec<u32> = segments.map(|segment| segment.start as u32).collect();
    expected.resize(MOST_SEGMENTS, u32::MAX);
    assert!(starts == expected, "the starts differ");
    starts.fill(u32::MAX);
}
