//! What looks like a needless separator in a well-formed message and is none:
//! separators before data, and those after a released mark, which is data.

use independent::bytes::Service;
use independent::described;
use independent::reading::{Component, Segment};

const SERVICE: Service = Service::STANDARD;

described! {
    Harmless {
        EndAfterTag: "`'` after the tag",
        ElementAfterElement: "`+` after `+`",
        ComponentAfterElement: "`:` after `+`",
        ComponentAfterComponent: "`:` after `:`",
        ComponentAfterRelease: "`:` after a released mark",
        ElementAfterRelease: "`+` after a released mark",
        EndAfterRelease: "`'` after a released mark",
    }
}

/// What there is of it in a segment of a well-formed message.
pub fn harmless_in<'a>(
    text: &'a [u8],
    segment: &'a Segment,
) -> impl Iterator<Item = Harmless> + 'a {
    let components = segment.elements.iter().flatten();
    let around = components.filter_map(|component| harmless_around(text, component));
    let after_tag = segment.elements.is_empty().then_some(Harmless::EndAfterTag);
    around.chain(after_tag)
}

/// By the separators before and after a component.
fn harmless_around(text: &[u8], component: &Component) -> Option<Harmless> {
    let [before, after] = [text[component.start - 1], text[component.end]];
    let is_element_mark = |byte| byte == SERVICE.element;
    if component.is_empty() {
        return Some(match (is_element_mark(before), is_element_mark(after)) {
            (true, true) => Harmless::ElementAfterElement,
            (true, false) => Harmless::ComponentAfterElement,
            (false, _) => Harmless::ComponentAfterComponent,
        });
    }
    let last = component.value.last()?;
    SERVICE.must_be_released(*last).then_some(match after {
        _ if is_element_mark(after) => Harmless::ElementAfterRelease,
        _ if after == SERVICE.component => Harmless::ComponentAfterRelease,
        _ => Harmless::EndAfterRelease,
    })
}
