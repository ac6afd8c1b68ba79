//! The independent reading of a message, straight from 01, "Bytes of a
//! message": a message is segments, a segment is a tag and elements, an element
//! is components, and there is one function for each of these words. T-05
//! amends it: "`+` or `'` directly after an unreleased `:`, and `'` directly
//! after an unreleased `+`, is number 4 at the later byte."
//!
//! Why the offset of a failure is number 4's place: every function stops at the
//! first byte that 01 allows nowhere at that point, or at the end of the text.
//! All before that byte can still be completed (a tag by letters and `'`, a
//! release by a separator and `'`, `+` and `:` by a data byte and `'`, anything
//! else by `'`), so the bytes before it begin a well-formed message and the
//! bytes up to it begin none.

use crate::bytes::{is_data, is_tag_byte, Service};

const SERVICE: Service = Service::STANDARD;

/// One component: `text[start..end]` is its raw text, release bytes included.
#[derive(Clone, Debug, PartialEq, Eq)]
pub struct Component {
    pub start: usize,
    pub end: usize,
    /// Its bytes with each releasing `?` removed.
    pub value: Vec<u8>,
}

/// The components between two element marks, never none.
pub type Element = Vec<Component>;

/// One segment: `text[start..end]`, from its tag up to and with its `'`.
#[derive(Clone, Debug, PartialEq, Eq)]
pub struct Segment {
    pub start: usize,
    pub end: usize,
    pub tag: [u8; 3],
    pub elements: Vec<Element>,
}

/// A part of the message as it is handed back to a caller.
#[derive(Clone, Copy, Debug, PartialEq, Eq)]
pub struct Part {
    pub offset: usize,
    pub length: usize,
}

impl Component {
    /// Whether its text has a releasing `?`.
    pub fn is_released(&self) -> bool {
        self.value.len() < self.end - self.start
    }

    pub fn is_empty(&self) -> bool {
        self.start == self.end
    }
}

impl Segment {
    /// The component, if present. "Elements count from 1, components from 1
    /// within their element", so there is none at number 0.
    pub fn component(&self, element: usize, component: usize) -> Option<&Component> {
        let element = self.elements.get(element.checked_sub(1)?)?;
        element.get(component.checked_sub(1)?)
    }

    /// The offset of the closing `'`.
    pub fn terminator(&self) -> usize {
        self.end - 1
    }
}

/// All segments of a well-formed message, or number 4's place.
pub fn read_message(text: &[u8]) -> Result<Vec<Segment>, usize> {
    match read_segments(text) {
        (segments, None) => Ok(segments),
        (_, Some(place)) => Err(place),
    }
}

/// The segments from offset 0 on, one after another, and number 4's place if
/// they are not all of a well-formed message.
pub fn read_segments(text: &[u8]) -> (Vec<Segment>, Option<usize>) {
    let mut at = 0;
    let mut segments = Vec::new();
    // "A message is one or more segments": the first is read even from no bytes.
    while at < text.len() || segments.is_empty() {
        match read_segment(text, at) {
            Ok(segment) => {
                at = segment.end;
                segments.push(segment);
            }
            Err(place) => return (segments, Some(place)),
        }
    }
    (segments, None)
}

/// Where the segments of a message start.
pub fn starts(segments: &[Segment]) -> Vec<usize> {
    segments.iter().map(|segment| segment.start).collect()
}

/// The component asked for, of the segment that starts at `at`.
pub fn find_component(text: &[u8], at: usize, element: usize, component: usize) -> Part {
    let segment = read_segment(text, at).ok();
    find_in_segment(segment.as_ref(), text.len(), element, component)
}

/// The component asked for, once it is known what segment starts at the offset.
pub fn find_in_segment(
    segment: Option<&Segment>,
    text_length: usize,
    element: usize,
    component: usize,
) -> Part {
    let nowhere = Part {
        offset: text_length,
        length: 0,
    };
    let Some(segment) = segment else {
        return nowhere;
    };
    if element == 0 || component == 0 {
        return nowhere;
    }
    match segment.component(element, component) {
        Some(found) => Part {
            offset: found.start,
            length: found.end - found.start,
        },
        None => Part {
            offset: segment.terminator(),
            length: 0,
        },
    }
}

/// The well-formed segment that starts at `start`, whatever follows it, or the
/// offset at which there can be none any more.
pub fn read_segment(text: &[u8], start: usize) -> Result<Segment, usize> {
    let tag = read_tag(text, start)?;
    let mut at = start + tag.len();
    let mut elements = Vec::new();
    while text.get(at) == Some(&SERVICE.element) {
        let element = read_element(text, at + 1)?;
        at = last_of(&element).end;
        elements.push(element);
    }
    if text.get(at) != Some(&SERVICE.terminator) {
        return Err(at);
    }
    // "`'` directly after an unreleased `+`": nothing lies between them.
    if elements.last().is_some_and(|last| last_of(last).is_empty()) {
        return Err(at);
    }
    Ok(Segment {
        start,
        end: at + 1,
        tag,
        elements,
    })
}

fn read_tag(text: &[u8], start: usize) -> Result<[u8; 3], usize> {
    let rest = text.get(start..).ok_or(text.len())?;
    let length = rest
        .iter()
        .take(3)
        .take_while(|&&byte| is_tag_byte(byte))
        .count();
    rest[..length].try_into().map_err(|_| start + length)
}

/// Reads up to the `+` or `'` that ends the element, which must be there.
fn read_element(text: &[u8], start: usize) -> Result<Element, usize> {
    let mut element = vec![read_component(text, start)?];
    while text.get(last_of(&element).end) == Some(&SERVICE.component) {
        element.push(read_component(text, last_of(&element).end + 1)?);
    }
    // "`+` or `'` directly after an unreleased `:`": nothing lies between them.
    let last = last_of(&element);
    if element.len() > 1 && last.is_empty() {
        return Err(last.end);
    }
    Ok(element)
}

fn last_of(element: &Element) -> &Component {
    &element[element.len() - 1]
}

/// Reads up to the separator that ends the component, which must be there.
fn read_component(text: &[u8], start: usize) -> Result<Component, usize> {
    let mut value = Vec::new();
    let mut at = start;
    loop {
        let byte = *text.get(at).ok_or(at)?;
        if byte == SERVICE.release {
            value.push(read_released(text, at + 1)?);
            at += 2;
        } else if SERVICE.must_be_released(byte) {
            let end = at;
            return Ok(Component { start, end, value });
        } else if is_data(byte) {
            value.push(byte);
            at += 1;
        } else {
            return Err(at);
        }
    }
}

/// "`?` before any other byte is a fault": it lies at that byte, since a `?`
/// alone can still be completed.
fn read_released(text: &[u8], at: usize) -> Result<u8, usize> {
    match text.get(at) {
        Some(&byte) if SERVICE.must_be_released(byte) => Ok(byte),
        _ => Err(at),
    }
}

#[cfg(test)]
mod tests;
