//! Number 12: "the smallest (element, component) at fault". A segment's
//! components and a line's fields both rise in (element, component), so they
//! are gone through together, and the first fault met is the smallest.

use crate::book::{Code, Field, Form, Presence};
use crate::bytes::Service;
use crate::placing::segments::Segment;

const SERVICE: Service = Service::STANDARD;
const TAG_BYTES: usize = 3;

/// Element and component, from 1. In a message they may be higher than in any
/// field.
pub type Place = (usize, usize);

/// The first place at fault of a segment whose line has these fields.
pub fn first_fault(segment: Segment, fields: &[Field], codes: &[Code]) -> Option<Place> {
    let mut fields = fields.iter().peekable();
    let mut components = Components::of(segment);
    let mut element_in_use = None;
    while let Some(Component { place, text }) = components.next() {
        // Fields left behind lie in the element before, after its last component.
        while let Some(field) = fields.next_if(|field| place_of(field) < place) {
            if must_have_bytes(field, element_in_use) {
                return Some(place_of(field));
            }
        }
        if components.element_has_bytes {
            element_in_use = Some(place.0);
        }
        let is_good = match fields.next_if(|field| place_of(field) == place) {
            Some(field) if text.is_empty() => !must_have_bytes(field, element_in_use),
            Some(field) => allows(field, text, codes),
            None => text.is_empty(),
        };
        if !is_good {
            return Some(place);
        }
    }
    let missing = fields.find(|field| must_have_bytes(field, element_in_use));
    missing.map(place_of)
}

fn place_of(field: &Field) -> Place {
    (usize::from(field.element), usize::from(field.component))
}

/// The element in use is the last one with bytes.
fn must_have_bytes(field: &Field, element_in_use: Option<usize>) -> bool {
    match field.presence {
        Presence::MustBeEmpty | Presence::MayHaveBytes => false,
        Presence::MustHaveBytes => true,
        Presence::MustIfItsElementHasBytes => element_in_use == Some(usize::from(field.element)),
    }
}

/// "Form, length and codes are tested where the value has bytes." No code has a
/// byte that must be released, so codes can be compared with the text.
pub fn allows(field: &Field, text: &[u8], codes: &[Code]) -> bool {
    field.presence != Presence::MustBeEmpty
        && length(field.form, text).is_some_and(|length| length <= usize::from(field.longest))
        && (field.codes.is_empty() || codes[field.codes.clone()].iter().any(|code| code == text))
}

/// The value's length as it counts in this form, if it has the form.
fn length(form: Form, text: &[u8]) -> Option<usize> {
    match form {
        Form::Alphanumeric => Some(value_length(text)),
        Form::Numeric => count_digits(text),
    }
}

fn value_length(text: &[u8]) -> usize {
    let mut length = 0;
    let mut bytes = text.iter();
    while let Some(byte) = bytes.next() {
        if *byte == SERVICE.release {
            bytes.next();
        }
        length += 1;
    }
    length
}

/// "an optional `-`, one or more digits, and optionally `.` and one or more
/// digits". A released byte is none of these, and neither is its release.
fn count_digits(text: &[u8]) -> Option<usize> {
    let unsigned = text.strip_prefix(b"-").unwrap_or(text);
    let mut digits = 0;
    for part in unsigned.splitn(2, |byte| *byte == SERVICE.decimal) {
        if part.is_empty() || !part.iter().all(u8::is_ascii_digit) {
            return None;
        }
        digits += part.len();
    }
    Some(digits)
}

struct Component<'a> {
    place: Place,
    /// Release bytes included.
    text: &'a [u8],
}

/// The components of a segment, in their order.
struct Components<'a> {
    /// From the separator on that opens the next component.
    rest: &'a [u8],
    place: Place,
    /// Of the last component's element.
    element_has_bytes: bool,
}

impl<'a> Components<'a> {
    fn of(segment: Segment<'a>) -> Components<'a> {
        Components {
            rest: &segment.bytes[TAG_BYTES..],
            place: (0, 0),
            element_has_bytes: false,
        }
    }
}

impl<'a> Iterator for Components<'a> {
    type Item = Component<'a>;

    fn next(&mut self) -> Option<Component<'a>> {
        let (&mark, after) = self.rest.split_first()?;
        let (element, component) = self.place;
        if mark == SERVICE.terminator {
            return None;
        } else if mark == SERVICE.element {
            self.place = (element + 1, 1);
            self.element_has_bytes = begins_element_with_bytes(after);
        } else {
            self.place = (element, component + 1);
        }
        let (text, rest) = after.split_at(text_length(after));
        self.rest = rest;
        Some(Component {
            place: self.place,
            text,
        })
    }
}

/// An element without bytes is one empty component (T-05), so that its end
/// follows at once.
fn begins_element_with_bytes(element: &[u8]) -> bool {
    let first = element.first();
    first.is_some_and(|byte| *byte != SERVICE.element && *byte != SERVICE.terminator)
}

/// Up to the next separator that is not released.
fn text_length(bytes: &[u8]) -> usize {
    let mut at = 0;
    while let Some(&byte) = bytes.get(at) {
        if byte == SERVICE.component || byte == SERVICE.element || byte == SERVICE.terminator {
            return at;
        }
        at += if byte == SERVICE.release { 2 } else { 1 };
    }
    bytes.len()
}
