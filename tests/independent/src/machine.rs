//! The state machine over bytes as one would write it in ordinary Rust: where a
//! message goes wrong, and in which state.

use crate::bytes::{is_tag_byte, kind_of, Kind, Service};

/// What the bytes so far leave open.
#[derive(Clone, Copy, Debug, PartialEq, Eq)]
pub enum State {
    /// Between segments: a tag's first byte must follow.
    Start,
    Second,
    Third,
    /// After the tag: an element or the end must follow.
    Tagged,
    /// After an element mark: the end must not follow.
    Opened,
    /// After a component mark: neither an element nor the end must follow.
    Parted,
    /// Within a component that has bytes.
    Inside,
    /// After a release character.
    Released,
    /// These bytes begin no well-formed message.
    Dead,
}

/// The state after one byte more.
pub fn step(service: Service, state: State, byte: u8) -> State {
    match (state, kind_of(service, byte)) {
        (State::Start, Kind::Plain) if is_tag_byte(byte) => State::Second,
        (State::Second, Kind::Plain) if is_tag_byte(byte) => State::Third,
        (State::Third, Kind::Plain) if is_tag_byte(byte) => State::Tagged,
        (State::Tagged | State::Opened | State::Inside, Kind::Element) => State::Opened,
        (State::Tagged | State::Inside, Kind::Terminator) => State::Start,
        (State::Opened | State::Parted | State::Inside, Kind::Component) => State::Parted,
        (State::Opened | State::Parted | State::Inside, Kind::Plain) => State::Inside,
        (State::Opened | State::Parted | State::Inside, Kind::Release) => State::Released,
        (State::Released, Kind::Component | Kind::Element | Kind::Terminator | Kind::Release) => {
            State::Inside
        }
        _ => State::Dead,
    }
}

/// The number of segments of a well-formed message, or number 4's place.
pub fn scan(service: Service, message: &[u8]) -> Result<usize, usize> {
    let mut state = State::Start;
    let mut segments = 0;
    for (offset, &byte) in message.iter().enumerate() {
        state = step(service, state, byte);
        match state {
            State::Start => segments += 1,
            State::Dead => return Err(offset),
            _ => {}
        }
    }
    if state == State::Start && segments > 0 {
        Ok(segments)
    } else {
        Err(message.len())
    }
}

/// The state in which the bytes leave the machine.
pub fn state_after(service: Service, bytes: &[u8]) -> State {
    bytes
        .iter()
        .fold(State::Start, |state, &byte| step(service, state, byte))
}

#[cfg(test)]
mod tests {
    use super::*;
    use crate::enumeration::{for_each_text, ALPHABET};
    use crate::reading::read_message;

    fn assert_agrees_with_the_reading(text: &[u8]) {
        let read = read_message(text).map(|segments| segments.len());
        assert_eq!(
            scan(Service::STANDARD, text),
            read,
            "on {}",
            text.escape_ascii()
        );
    }

    #[test]
    fn agrees_with_the_reading_on_short_texts() {
        for prefix in ["", "AAA", "AAA+", "AAA+A:", "AAA+A'A1", "AAA+A'AAA+?:"] {
            for_each_text(&ALPHABET, prefix.as_bytes(), 4, &mut |text| {
                assert_agrees_with_the_reading(text)
            });
        }
    }

    #[test]
    fn agrees_with_the_reading_on_every_byte_in_every_state() {
        for prefix in [
            "", "A", "AA", "AAA", "AAA+", "AAA++", "AAA+:", "AAA+A:", "AAA+A", "AAA+?", "AAA+?:",
        ] {
            for byte in 0..=u8::MAX {
                let mut text = prefix.as_bytes().to_vec();
                text.push(byte);
                assert_agrees_with_the_reading(&text);
                text.push(b'\'');
                assert_agrees_with_the_reading(&text);
            }
        }
    }
}
