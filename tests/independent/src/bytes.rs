//! The bytes that 01, "Bytes of a message", tells apart.

/// The service characters of a message.
#[derive(Clone, Copy, Debug, PartialEq, Eq)]
pub struct Service {
    pub component: u8,
    pub element: u8,
    pub decimal: u8,
    pub release: u8,
    pub terminator: u8,
}

impl Service {
    /// The service characters of 01.
    pub const STANDARD: Service = Service {
        component: b':',
        element: b'+',
        decimal: b'.',
        release: b'?',
        terminator: b'\'',
    };

    /// "A separator or `?` as data has `?` before it."
    pub fn must_be_released(self, byte: u8) -> bool {
        [self.component, self.element, self.release, self.terminator].contains(&byte)
    }
}

/// What a byte is that is not released.
#[derive(Clone, Copy, Debug, PartialEq, Eq)]
pub enum Kind {
    /// Data that needs no release.
    Plain,
    Component,
    Element,
    Terminator,
    Release,
    Other,
}

pub const fn kind_of(service: Service, byte: u8) -> Kind {
    if byte == service.component {
        Kind::Component
    } else if byte == service.element {
        Kind::Element
    } else if byte == service.terminator {
        Kind::Terminator
    } else if byte == service.release {
        Kind::Release
    } else if is_data(byte) {
        Kind::Plain
    } else {
        Kind::Other
    }
}

/// "Data bytes are 0x20–0x7E and 0xA0–0xFF."
pub const fn is_data(byte: u8) -> bool {
    matches!(byte, 0x20..=0x7E | 0xA0..=0xFF)
}

/// "A tag of three bytes (A–Z, 0–9)."
pub fn is_tag_byte(byte: u8) -> bool {
    matches!(byte, b'A'..=b'Z' | b'0'..=b'9')
}
