//! Random ways to cut a text into pieces.

use crate::described;
use crate::random::Random;

described! {
    /// How large the pieces are, or where they end.
    Cutting {
        Whole: "one piece",
        Bytes: "pieces of one byte",
        Small: "pieces of up to four bytes",
        Any: "pieces of any length",
        Halves: "two pieces",
        Marks: "cuts around marks and in tags",
    }
}

/// Where the pieces end, in rising order, the last one with the text. Some are
/// empty.
pub fn piece_ends(random: &mut Random, cutting: Cutting, text: &[u8]) -> Vec<usize> {
    let empty = random.pick(&[0, 0, 10, 30]);
    let mut ends = Vec::new();
    let mut at = 0;
    while at < text.len() {
        if random.chance(empty) {
            ends.push(at);
        }
        at += piece_length(random, cutting, text, at);
        ends.push(at);
    }
    if ends.is_empty() || random.chance(empty) {
        ends.push(at);
    }
    ends
}

/// Of the piece from this offset on, which is not the text's end; at least 1.
fn piece_length(random: &mut Random, cutting: Cutting, text: &[u8], at: usize) -> usize {
    let left = text.len() - at;
    match cutting {
        Cutting::Whole => left,
        Cutting::Bytes => 1,
        Cutting::Small => random.between(1, 4).min(left),
        Cutting::Any => random.between(1, left),
        Cutting::Halves if at == 0 => random.between(1, left),
        Cutting::Halves => left,
        Cutting::Marks => length_up_to_a_mark(random, &text[at..]),
    }
}

/// Up to before or behind one of the next marks, or up to one or two bytes behind
/// it, where it may end a segment and a tag begin.
fn length_up_to_a_mark(random: &mut Random, rest: &[u8]) -> usize {
    let passed_over = random.below(3);
    let mut marks = rest
        .iter()
        .enumerate()
        .filter(|(_, byte)| b":+'?".contains(byte));
    let mark = marks.nth(passed_over).map_or(rest.len(), |(at, _)| at);
    (mark + random.below(4)).clamp(1, rest.len())
}

#[cfg(test)]
mod tests {
    use super::*;
    use crate::bytes::Service;
    use crate::machine::state_after;
    use crate::writing::short_message;

    #[test]
    fn pieces_make_up_the_text() {
        let mut random = Random::from_seed(9);
        for &cutting in Cutting::EVERY.iter().cycle().take(3_000) {
            let text = match random.below(10) {
                0 => Vec::new(),
                _ => short_message(&mut random),
            };
            let ends = piece_ends(&mut random, cutting, &text);
            assert!(ends.is_sorted());
            assert_eq!(ends.last(), Some(&text.len()));
        }
    }

    #[test]
    fn cuts_around_marks_leave_everything_open() {
        let mut random = Random::from_seed(9);
        let text = b"AAA+?++:A'BBB+?'+A:?:'CCC'DDD+A?+?'::A++A'";
        let mut left_open = Vec::new();
        for _ in 0..1_000 {
            for end in piece_ends(&mut random, Cutting::Marks, text) {
                let state = state_after(Service::STANDARD, &text[..end]);
                if !left_open.contains(&state) {
                    left_open.push(state);
                }
            }
        }
        assert_eq!(left_open.len(), 8, "{left_open:?}");
    }
}
