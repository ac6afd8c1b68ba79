//! The segments of any bytes: those found from offset 0 on, one after another,
//! until at an offset no well-formed segment starts. Nothing is copied, since
//! the benchmark measures this; the tests compare it with the reading.

use crate::bytes::{is_data, is_tag_byte, Service};

const SERVICE: Service = Service::STANDARD;
const TAG_BYTES: usize = 3;

/// A well-formed segment.
#[derive(Clone, Copy, Debug, PartialEq, Eq)]
pub struct Segment<'a> {
    /// The offset of its tag in the message.
    pub start: usize,
    /// From the tag up to and with `'`.
    pub bytes: &'a [u8],
}

pub struct Segments<'a> {
    message: &'a [u8],
    at: usize,
}

impl<'a> Segments<'a> {
    pub fn of(message: &'a [u8]) -> Segments<'a> {
        Segments { message, at: 0 }
    }
}

impl<'a> Iterator for Segments<'a> {
    type Item = Segment<'a>;

    fn next(&mut self) -> Option<Segment<'a>> {
        let start = self.at;
        let rest = &self.message[start..];
        let length = segment_length(rest)?;
        self.at = start + length;
        Some(Segment {
            start,
            bytes: &rest[..length],
        })
    }
}

/// The length of the well-formed segment at the beginning of these bytes.
fn segment_length(bytes: &[u8]) -> Option<usize> {
    let (tag, rest) = bytes.split_at_checked(TAG_BYTES)?;
    if !tag.iter().copied().all(is_tag_byte) {
        return None;
    }
    if ![SERVICE.element, SERVICE.terminator].contains(rest.first()?) {
        return None;
    }
    let mut at = TAG_BYTES;
    // The byte before, so that a separator is seen to be needless (T-05); after
    // a released byte, which is data, its release.
    let mut before = bytes[TAG_BYTES - 1];
    loop {
        let byte = *bytes.get(at)?;
        if byte == SERVICE.terminator {
            let is_needless = [SERVICE.element, SERVICE.component].contains(&before);
            return (!is_needless).then_some(at + 1);
        } else if byte == SERVICE.release {
            if !SERVICE.must_be_released(*bytes.get(at + 1)?) {
                return None;
            }
            before = byte;
            at += 2;
        } else if is_data(byte) && [before, byte] != [SERVICE.component, SERVICE.element] {
            before = byte;
            at += 1;
        } else {
            return None;
        }
    }
}

impl<'a> Segment<'a> {
    pub fn tag(self) -> &'a [u8] {
        &self.bytes[..TAG_BYTES]
    }

    /// The offset after its `'` in the message.
    pub fn end(self) -> usize {
        self.start + self.bytes.len()
    }

    /// The component if it is present, release bytes included.
    pub fn component(self, element: usize, component: usize) -> Option<&'a [u8]> {
        let mut place = (0, 0);
        let mut mark = TAG_BYTES;
        while self.bytes[mark] != SERVICE.terminator {
            place = if self.bytes[mark] == SERVICE.element {
                (place.0 + 1, 1)
            } else {
                (place.0, place.1 + 1)
            };
            let begin = mark + 1;
            mark = self.next_mark(begin);
            if place == (element, component) {
                return Some(&self.bytes[begin..mark]);
            }
        }
        None
    }

    /// The offset of the next separator that is not released.
    fn next_mark(self, begin: usize) -> usize {
        let mut at = begin;
        loop {
            let byte = self.bytes[at];
            if byte == SERVICE.release {
                at += 2;
            } else if SERVICE.must_be_released(byte) {
                return at;
            } else {
                at += 1;
            }
        }
    }
}
