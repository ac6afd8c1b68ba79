//! Messages that a narrow count gets wrong: numbers of segments, elements and
//! components beyond 8 and 16 bits, long references, and the limits of 01.

use crate::comparison::Comparison;
use independent::judging::{Record, LONGEST_MESSAGE, MOST_SEGMENTS};

const WIDTHS: [usize; 2] = [300, 70_000];
const MANY_SEGMENTS: [usize; 3] = [65_535, 65_536, 1_100_000];
const MANY_COUNTED: [usize; 6] = [65_535, 65_536, 65_537, 70_000, 131_073, MOST_SEGMENTS];

pub fn compare_all(comparison: &mut Comparison) {
    for width in WIDTHS {
        let empty = width - 1;
        compare_segment(comparison, &"+7".repeat(width), width);
        compare_segment(comparison, &format!("+7{}", ":7".repeat(empty)), width);
        compare_segment(comparison, &format!("{}+7", "+".repeat(empty)), width);
        compare_segment(comparison, &format!("+{}7", ":".repeat(empty)), width);
        // Nothing but needless separators, and one far from the first byte.
        compare_segment(comparison, &"+".repeat(width), width);
        compare_segment(comparison, &format!("+{}", ":".repeat(width)), width);
        compare_segment(comparison, &format!("{}:+7", "+7".repeat(width)), width);
    }
    for segments in MANY_SEGMENTS {
        let message = "UNS'".repeat(segments).into_bytes();
        comparison.compare_text(&message);
        comparison.compare_text(&message[..message.len() - 1]);
        comparison.compare_text(&[message.as_slice(), b"\n"].concat());
    }
}

/// The segment with these elements between others, asked for numbers around its
/// own width and around those that equal it or 1 in fewer bits.
fn compare_segment(comparison: &mut Comparison, elements: &str, width: usize) {
    let before = "UNH+1'";
    let message = format!("{before}AAA{elements}'UNT+3+1'").into_bytes();
    let wrapped = [
        width % 256,
        width % 65_536,
        (1 << 32) + 1,
        (1 << 32) + width,
    ];
    let around = [1, 255, 256, 257, width - 1, width, width + 1];
    comparison.compare_text(&message);
    comparison.compare_offset(&message, before.len(), &wrapped);
    comparison.compare_offset(&message, before.len(), &around);
}

/// Messages in an envelope.
pub fn compare_envelopes(comparison: &mut Comparison) {
    for segments in MANY_COUNTED {
        compare_counts(comparison, segments);
    }
    // 01, "Bench messages".
    let narrow = enveloped(&"UNS'".repeat(65_542), "8", "1");
    require(comparison, &narrow, Record::at(8, 65_544));
    compare_too_many_segments(comparison);
    compare_places(comparison);
    compare_references(comparison);
    compare_lengths(comparison);
}

fn enveloped(middle: &str, count: &str, reference: &str) -> Vec<u8> {
    closed(middle, &format!("{count}+{reference}"))
}

/// With these elements in UNT.
fn closed(middle: &str, elements: &str) -> Vec<u8> {
    format!("UNH+1'{middle}UNT+{elements}'").into_bytes()
}

/// So many segments with the right count, with others, with another reference
/// or none, and with a needless separator at the end.
fn compare_counts(comparison: &mut Comparison, segments: usize) {
    let middle = "UNS'".repeat(segments - 2);
    let count = segments.to_string();
    let message = enveloped(&middle, &count, "1");
    require(comparison, &message, Record::at(0, segments));
    let others = [
        segments % 65_536,
        segments + 65_536,
        segments - 1,
        segments + 1,
    ];
    for wrong in others.into_iter().filter(|other| *other != segments) {
        let message = enveloped(&middle, &wrong.to_string(), "1");
        require(comparison, &message, Record::at(8, segments));
    }
    for wrong in ["+2", "+11", "", "++1"] {
        let message = closed(&middle, &format!("{count}{wrong}"));
        require(comparison, &message, Record::at(9, segments));
    }
    for needless in ["+", ":", "+1:", "+1+"] {
        let message = closed(&middle, &format!("{count}{needless}"));
        require(comparison, &message, Record::at(4, message.len() - 1));
    }
}

fn compare_too_many_segments(comparison: &mut Comparison) {
    let middle = "UNS'".repeat(MOST_SEGMENTS - 1);
    let message = enveloped(&middle, &(MOST_SEGMENTS + 1).to_string(), "1");
    require(comparison, &message, Record::new(5));
    let cut = &message[..message.len() - 1];
    require(comparison, cut, Record::at(4, cut.len()));
}

/// A segment that is wrongly UNH or UNT, or wrongly not, far from the first.
fn compare_places(comparison: &mut Comparison) {
    let segments = 70_000;
    let count = segments.to_string();
    let message = enveloped(&"UNS'".repeat(segments - 2), &count, "1");
    for place in [65_535, 65_536, 65_537, 65_538, segments - 1] {
        for tag in [b"UNH", b"UNT"] {
            let mut message = message.clone();
            let at = "UNH+1'".len() + "UNS'".len() * (place - 2);
            message[at..at + 3].copy_from_slice(tag);
            require(comparison, &message, Record::at(7, place));
        }
    }
    let mut message = message;
    let last = message.len() - "UNT+70000+1'".len();
    message[last + 2] = b'S';
    require(comparison, &message, Record::at(7, segments));
}

/// References that are equal, and ones that are so only in part.
fn compare_references(comparison: &mut Comparison) {
    let long = "?'0123456".repeat(14_600);
    let another = format!("{}8", &long[..long.len() - 1]);
    let longer = format!("{long}0");
    let far_longer = format!("1{}", "1".repeat(65_536));
    for (opening, closing, number) in [
        (&*long, &*long, 0),
        (&long, &another, 9),
        (&long, &longer, 9),
        (&longer, &long, 9),
        ("1", &far_longer, 9),
        (&far_longer, "1", 9),
        (&far_longer, &far_longer, 0),
    ] {
        let message = format!("UNH+{opening}'UNT+2+{closing}'").into_bytes();
        require(comparison, &message, Record::at(number, 2));
    }
}

/// One giant component, in the longest message and in one that is too long.
fn compare_lengths(comparison: &mut Comparison) {
    let around = "UNH+1'FTX+'UNT+3+1'".len();
    let filled = |length: usize| {
        let filling = "7".repeat(length - around);
        enveloped(&format!("FTX+{filling}'"), "3", "1")
    };
    let mut longest = filled(LONGEST_MESSAGE);
    require(comparison, &longest, Record::at(0, 3));
    require(comparison, &filled(LONGEST_MESSAGE + 1), Record::new(3));
    longest[LONGEST_MESSAGE - 1] = b'7';
    require(comparison, &longest, Record::at(4, LONGEST_MESSAGE));
    longest[LONGEST_MESSAGE - 1] = b'\n';
    require(comparison, &longest, Record::at(4, LONGEST_MESSAGE - 1));
    for needless in [b":'", b"+'", b":+"] {
        longest[LONGEST_MESSAGE - 2..].copy_from_slice(needless);
        require(comparison, &longest, Record::at(4, LONGEST_MESSAGE - 1));
    }
    for cut in [b"?:", b"1:", b"1+"] {
        longest[LONGEST_MESSAGE - 2..].copy_from_slice(cut);
        require(comparison, &longest, Record::at(4, LONGEST_MESSAGE));
    }
}

/// What comes out must also be what this message was made for.
fn require(comparison: &mut Comparison, message: &[u8], expected: Record) {
    let record = comparison.compare_answer(message);
    assert_eq!(record, expected);
}
