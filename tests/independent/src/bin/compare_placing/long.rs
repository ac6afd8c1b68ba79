//! Long messages: more segments than 16 bits count, maxima as high as they can
//! be, and faults at the very end.

use crate::comparison::Comparison;
use crate::subject::{Subject, Verdict};
use independent::book::edit::{insert_line, optional_group, optional_line, smallest_book};
use independent::book::Book;
use independent::placing::walk::Refusal;
use independent::placing::Answer;

/// Maxima that a count of 16 bits does not reach, and the highest of 01.
const MAXIMA: [u32; 4] = [65_535, 65_536, 65_537, 999_999];
const INSTANCES: usize = 60_000;

pub fn compare_all(comparison: &mut Comparison) {
    for maximum in MAXIMA {
        compare_segments_at_the_maximum(comparison, maximum);
        compare_instances_at_the_maximum(comparison, maximum);
    }
    compare_many_instances(comparison);
}

/// UNH, a group of LIN and QTY, FTX, UNT.
fn book_with(group_maximum: u32, segment_maximum: u32) -> Book {
    let mut book = smallest_book();
    let [group, trigger] = optional_group(*b"LIN", 0);
    let lines = [
        group,
        trigger,
        optional_line(*b"QTY", 1),
        optional_line(*b"FTX", 0),
    ];
    for (place, line) in lines.into_iter().enumerate() {
        insert_line(&mut book, place + 1, line);
    }
    book.lines[1].maximum = group_maximum;
    book.lines[4].maximum = segment_maximum;
    book
}

fn compare_segments_at_the_maximum(comparison: &mut Comparison, maximum: u32) {
    let name = format!("a segment line of maximum {maximum}");
    let subject = Subject::good(name, book_with(1, maximum));
    let refusal = Refusal::SegmentOverMaximum;
    compare_at_the_maximum(comparison, &subject, "FTX'", maximum as usize, refusal);
}

fn compare_instances_at_the_maximum(comparison: &mut Comparison, maximum: u32) {
    let name = format!("a group of maximum {maximum}");
    let subject = Subject::good(name, book_with(maximum, 1));
    let refusal = Refusal::InstanceOverMaximum;
    compare_at_the_maximum(comparison, &subject, "LIN'", maximum as usize, refusal);
}

fn compare_at_the_maximum(
    comparison: &mut Comparison,
    subject: &Subject,
    segment: &str,
    maximum: usize,
    refusal: Refusal,
) {
    let message = format!("UNH+1'{}UNT'", segment.repeat(maximum));
    let segments = maximum + 2;
    require(comparison, subject, &message, Answer::Begins { segments });
    let message = format!("UNH+1'{}UNT'", segment.repeat(maximum + 1));
    let place = maximum + 2;
    require(
        comparison,
        subject,
        &message,
        Answer::Refused { place, refusal },
    );
}

fn compare_many_instances(comparison: &mut Comparison) {
    let subject = Subject::good(
        "a group of maximum 200,000".to_string(),
        book_with(200_000, 1),
    );
    let instances = "LIN+1'QTY+145:5'".repeat(INSTANCES);
    let segments = 2 * INSTANCES + 2;
    let message = format!("UNH+1'{instances}UNT+1'");
    require(comparison, &subject, &message, Answer::Begins { segments });
    let message = format!("UNH+1'{instances}UNT+1'FTX'");
    let refused = Answer::Refused {
        place: segments + 1,
        refusal: Refusal::Earlier,
    };
    require(comparison, &subject, &message, refused);
    let message = format!("UNT'{instances}UNS'");
    let homeless = Answer::Homeless { place: segments };
    require(comparison, &subject, &message, homeless);
}

/// What comes out must also be what this message was made for.
fn require(comparison: &mut Comparison, subject: &Subject, message: &str, answer: Answer) {
    let expected = comparison.compare(subject, message.as_bytes());
    assert_eq!(
        expected.verdict,
        Verdict::Exactly(answer),
        "{}",
        subject.name
    );
}
