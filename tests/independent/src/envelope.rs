//! Messages in an envelope, for numbers 7, 8 and 9: UNH, segments, and UNT with
//! a count and a reference, each of these right or wrong in a way that might be
//! taken for right.

use crate::enumeration::for_each_text;

/// The first leads to acceptance most often. Some are no UNH, some have needless
/// separators, one has its `'` released, one is no segment, and one is not there.
const OPENINGS: [&str; 19] = [
    "UNH+1'",
    "UNH+1:2+3'",
    "UNH+01'",
    "UNH+12'",
    "UNH+??'",
    "UNH+?''",
    "UNH+?:'",
    "UNH+?'",
    "UNH+'",
    "UNH+1:'",
    "UNH+1:+3'",
    "UNH'",
    "UNH+:1'",
    "UNH++1'",
    "UNT+1'",
    "BGM+1'",
    "UNI+1'",
    "unh+1'",
    "",
];

/// What a message's middle is made of; `?'` and `???'` end no segment, and the
/// last one has a needless separator.
const PIECES: [&str; 10] = [
    "BGM+7'",
    "UNS'",
    "UNH+1'",
    "UNT+3+1'",
    "FTX+?'",
    "FTX+??'",
    "FTX+???'",
    "FTX+\n'",
    "FTX++:?:'",
    "FTX+7:'",
];

const REFERENCES: [&str; 12] = [
    "1", "2", "", "01", "12", "1 ", "??", "?:", "?'", "?+1", "1?'", "?1",
];

/// The closing segment, in which C stands for the count and R for the
/// reference, at their places and at others, also with needless separators.
const CLOSINGS: [&str; 13] = [
    "UNT+C+R'",
    "UNT+C:9+R:9+9'",
    "UNT+C'",
    "UNT+:C+R'",
    "UNT++C+R'",
    "UNT+C:R'",
    "UNT+C++R'",
    "UNT+C+:R'",
    "UNT+C+R+'",
    "UNT+C+R:'",
    "UNT+C:+R'",
    "UNS+C+R'",
    "UNT+C+R",
];

const AFTER_THE_CLOSING: [&str; 3] = ["", "\n", "UNS'"];

/// Middles that need a count of one digit and of two.
const COUNTED_SEGMENTS: [usize; 4] = [0, 1, 8, 10];

/// Every short message of openings, pieces and closings: what stands where.
/// Middles have at most `longest_middle` pieces, after the first opening one
/// more.
pub fn for_each_envelope(longest_middle: usize, visit: &mut impl FnMut(&[u8])) {
    let numbers: Vec<u8> = (0..PIECES.len() as u8).collect();
    for (number, opening) in OPENINGS.iter().enumerate() {
        let longest = longest_middle + usize::from(number == 0);
        for_each_text(&numbers, &[], longest, &mut |middle| {
            let mut text = opening.as_bytes().to_vec();
            for &number in middle {
                text.extend(PIECES[usize::from(number)].as_bytes());
            }
            visit_closed(&mut text, visit);
        });
    }
}

/// The beginning with some closings, most of them wrong.
fn visit_closed(text: &mut Vec<u8>, visit: &mut impl FnMut(&[u8])) {
    let beginning = text.len();
    let n = count_ends(text) + 1;
    for closing in [
        format!("UNT+{n}+1'"),
        format!("UNT+{}+1'", n + 1),
        format!("UNT+0{n}+1'"),
        format!("UNT+{n}+2'"),
        format!("UNT+{}+2'", n + 1),
        format!("UNT+{n}'"),
        format!("UNT+{n}+'"),
        format!("UNT+{n}:+1'"),
        format!("UNT+{n}+1:'"),
        format!("UNT+{n}+??'"),
        format!("UNT+{n}+?''"),
        "UNT'".to_string(),
        format!("UNS+{n}+1'"),
        format!("UNH+{n}+1'"),
        format!("UNT+{n}+1"),
        String::new(),
    ] {
        for after in AFTER_THE_CLOSING {
            text.truncate(beginning);
            text.extend(closing.as_bytes());
            text.extend(after.as_bytes());
            visit(text);
        }
    }
}

/// Every opening with every closing segment of every count and reference.
pub fn for_each_closing(visit: &mut impl FnMut(&[u8])) {
    for opening in OPENINGS {
        for segments in COUNTED_SEGMENTS {
            let beginning = [opening, &"UNS'".repeat(segments)].concat().into_bytes();
            for count in counts(count_ends(&beginning) + 1) {
                for reference in REFERENCES {
                    for closing in CLOSINGS {
                        let closing = filled(closing, &count, reference.as_bytes());
                        visit(&[beginning.as_slice(), &closing].concat());
                    }
                }
            }
        }
    }
}

/// The right count, and wrong ones. Some are right in fewer bits, or if a byte
/// that is no digit is passed over or taken for one.
fn counts(n: usize) -> Vec<Vec<u8>> {
    let wide = |bits: u32| (n as u128 + (1 << bits)).to_string();
    let texts = [
        n.to_string(),
        (n - 1).to_string(),
        (n + 1).to_string(),
        String::new(),
        "0".to_string(),
        format!("0{n}"),
        format!("{n:040}"),
        format!("{n}0"),
        format!(" {n}"),
        format!("{n} "),
        format!("-{n}"),
        format!("{n}."),
        format!("{n}.0"),
        format!("{n}A"),
        format!("?+{n}"),
        format!("{n}?'"),
        format!("{n}??"),
        format!("?{n}"),
        format!("{n}\n"),
        wide(8),
        wide(16),
        wide(32),
        wide(64),
    ];
    let mut counts: Vec<Vec<u8>> = texts.into_iter().map(String::into_bytes).collect();
    let with_the_highest_bit = n.to_string().bytes().map(|byte| byte | 0x80).collect();
    counts.push(with_the_highest_bit);
    counts
}

fn filled(closing: &str, count: &[u8], reference: &[u8]) -> Vec<u8> {
    let mut text = Vec::new();
    for byte in closing.bytes() {
        match byte {
            b'C' => text.extend(count),
            b'R' => text.extend(reference),
            _ => text.push(byte),
        }
    }
    text
}

/// Every byte at every place of a tag, every byte and pair of bytes as a count
/// and as a reference, and every two bytes as two references.
pub fn for_each_byte(visit: &mut impl FnMut(&[u8])) {
    let message = b"UNH+1'UNS'UNT+3+1'";
    for at in [0, 1, 2, 6, 7, 8, 10, 11, 12] {
        for byte in 0..=u8::MAX {
            let mut text = message.to_vec();
            text[at] = byte;
            visit(&text);
        }
    }
    let short = b"UNH+1'UNT+".as_slice();
    let long = [b"UNH+1'".as_slice(), &b"UNS'".repeat(10), b"UNT+"].concat();
    for first in 0..=u8::MAX {
        visit(&[short, &[first], b"+1'"].concat());
        for second in 0..=u8::MAX {
            let pair = [first, second];
            visit(&[short, &pair, b"+1'"].concat());
            visit(&[&long, pair.as_slice(), b"+1'"].concat());
            visit(&[b"UNH+", pair.as_slice(), b"'UNT+2+", &pair, b"'"].concat());
            visit(&[b"UNH+", &pair[..1], b"'UNT+2+", &pair[1..], b"'"].concat());
        }
    }
}

/// How many segments end in these bytes, if they begin a message.
fn count_ends(text: &[u8]) -> usize {
    let mut ends = 0;
    let mut bytes = text.iter();
    while let Some(byte) = bytes.next() {
        match byte {
            b'?' => drop(bytes.next()),
            b'\'' => ends += 1,
            _ => {}
        }
    }
    ends
}
