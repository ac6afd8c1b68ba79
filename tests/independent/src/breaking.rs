//! Changes to a text's bytes. Most break a well-formed message, and some leave
//! it as good as it was: the reading says which.

use crate::random::Random;

/// A change, a loss, an insertion or a cut at some byte, or a needless separator.
pub fn damage_bytes(random: &mut Random, text: &mut Vec<u8>) {
    if text.is_empty() {
        text.push(random.byte());
        return;
    }
    let at = random.below(text.len());
    match random.below(8) {
        0 => text[at] = random.byte(),
        1 => text[at] = random.pick(b":+'?A\n\x7F\x80\x9F\xA0"),
        2 => text.insert(at, random.pick(b":+'?A\r\n")),
        3 => drop(text.remove(at)),
        4 => text.insert(at, b'?'),
        5 => text.truncate(at),
        _ => put_needless_separator(random, text),
    }
}

/// Puts a separator where T-05 allows none, somewhere in the text: in its first
/// and last segment as often as in all others, and often behind a released mark.
pub fn put_needless_separator(random: &mut Random, text: &mut Vec<u8>) {
    let mut spots = needless_spots(text);
    let last = spots.last().map_or(0, |spot| spot.segment);
    match random.below(4) {
        0 => keep_if_any(&mut spots, |spot| spot.segment == 0),
        1 => keep_if_any(&mut spots, |spot| spot.segment == last),
        _ => {}
    }
    if random.chance(30) {
        keep_if_any(&mut spots, |spot| spot.follows_release);
    }
    match spots.len() {
        // What has no segment's end may be a component, and then `:` ends it.
        0 => text.push(b':'),
        count => {
            let spot = &spots[random.below(count)];
            text.insert(spot.at, spot.separator);
        }
    }
}

/// Where a separator would be needless.
struct Spot {
    at: usize,
    separator: u8,
    /// Its segment, counted from 0.
    segment: usize,
    follows_release: bool,
}

/// `:` before `+` and `'`, and `+` before `'`, where these are not released.
/// Right behind a tag `:` would be another fault.
fn needless_spots(text: &[u8]) -> Vec<Spot> {
    let mut spots = Vec::new();
    let (mut at, mut segment) = (0, 0);
    let (mut is_behind_tag, mut follows_release) = (true, false);
    while let Some(&byte) = text.get(at) {
        let needless: &[u8] = match byte {
            b'\'' if is_behind_tag => b"+",
            b'\'' => b"+:",
            b'+' if !is_behind_tag => b":",
            _ => b"",
        };
        spots.extend(needless.iter().map(|&separator| Spot {
            at,
            separator,
            segment,
            follows_release,
        }));
        match byte {
            b'\'' => (segment, is_behind_tag) = (segment + 1, true),
            b'+' => is_behind_tag = false,
            _ => {}
        }
        follows_release = byte == b'?';
        at += if follows_release { 2 } else { 1 };
    }
    spots
}

fn keep_if_any(spots: &mut Vec<Spot>, is_wanted: impl Fn(&Spot) -> bool) {
    if spots.iter().any(&is_wanted) {
        spots.retain(is_wanted);
    }
}
