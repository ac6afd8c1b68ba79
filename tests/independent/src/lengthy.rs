//! Long messages that benchmarks and comparisons are run over.

/// What messages of the market are made of, release pairs among it.
pub const REALISTIC_SEGMENTS: [&str; 8] = [
    "LIN+1++9990001000160:Z02::293'",
    "QTY+145:2011.5:KWH'",
    "DTM+163:201101010000?+01:303'",
    "DTM+164:201102010000?+01:303'",
    "RFF+AVC:MKIDI5422??7'",
    "LIN+2++1-1?:1.8.0:SRW'",
    "QTY+220:-17:KWH'",
    "RFF+Z13:19102'",
];

const FREE_TEXT: &str = "Zaehlerstand nicht plausibel, bitte pruefen. ";

/// The message of this length that begins with these segments, as many as it has
/// room for, and with one of free text fills what is left.
pub fn message_of_length(length: usize, segments: impl Iterator<Item = &'static str>) -> Vec<u8> {
    // The closing segment's count has at most seven digits.
    let around = "UNH+1'FTX+7'UNT+9999999+1'".len();
    let mut middle = String::with_capacity(length);
    let mut count = 0;
    for segment in segments {
        if middle.len() + segment.len() + around > length {
            break;
        }
        middle.push_str(segment);
        count += 1;
    }
    let left = length - enveloped(&format!("{middle}FTX+'"), count + 1).len();
    let filling: String = FREE_TEXT.chars().cycle().take(left).collect();
    let message = enveloped(&format!("{middle}FTX+{filling}'"), count + 1);
    assert_eq!(message.len(), length);
    message
}

/// So many segments between UNH and UNT, with the right count and reference.
pub fn enveloped(middle: &str, segments: usize) -> Vec<u8> {
    format!("UNH+1'{middle}UNT+{}+1'", segments + 2).into_bytes()
}

#[cfg(test)]
mod tests {
    use super::*;
    use crate::judging::message::judge_message;
    use crate::judging::Record;

    #[test]
    fn messages_have_their_length_and_are_good() {
        for length in [100, 101, 4_000, 65_537] {
            let message = message_of_length(length, REALISTIC_SEGMENTS.into_iter().cycle());
            let segments = message.iter().filter(|byte| **byte == b'\'').count();
            assert_eq!(message.len(), length);
            assert_eq!(judge_message(&message, length), Record::at(0, segments));
        }
    }
}
