//! "A segment's home is the segment line of its tag whose codes, if it has a
//! selector, include the value there." Lines are tried in their order; in a
//! good book at most one fits.

use super::segments::Segment;
use crate::book::{Book, Code, SegmentLine, Tag};

/// The segment lines of a book. The rules between records need not hold: then
/// the home is the first line that fits.
pub struct Homes {
    lines: Vec<HomeLine>,
}

struct HomeLine {
    number: usize,
    tag: Tag,
    selector: Option<HomeSelector>,
}

struct HomeSelector {
    element: usize,
    component: usize,
    codes: Vec<Code>,
}

/// Why a segment has no home.
#[derive(Clone, Copy, Debug, PartialEq, Eq)]
pub enum Homeless {
    UnknownTag,
    /// Every line of the tag has a selector, and there is no value.
    NoValue,
    UnknownValue,
}

impl Homes {
    pub fn of(book: &Book) -> Homes {
        let mut lines = Vec::new();
        for (index, line) in book.lines.iter().enumerate() {
            if let Some(segment) = line.segment() {
                lines.push(HomeLine::of(index + 1, segment, &book.codes));
            }
        }
        Homes { lines }
    }

    /// The number of the segment's line.
    pub fn home(&self, segment: Segment) -> Option<usize> {
        let home = self.lines.iter().find(|line| line.fits(segment));
        home.map(|line| line.number)
    }

    /// Why this segment, which has no home, has none.
    pub fn why_homeless(&self, segment: Segment) -> Homeless {
        let of_its_tag = self.lines.iter().find(|line| segment.tag() == line.tag);
        let Some(selector) = of_its_tag.and_then(|line| line.selector.as_ref()) else {
            return Homeless::UnknownTag;
        };
        match segment.component(selector.element, selector.component) {
            None | Some(b"") => Homeless::NoValue,
            Some(_) => Homeless::UnknownValue,
        }
    }
}

impl HomeLine {
    fn of(number: usize, segment: &SegmentLine, codes: &[Code]) -> HomeLine {
        let selector = segment.selector.as_ref();
        HomeLine {
            number,
            tag: segment.tag,
            selector: selector.map(|selector| HomeSelector {
                element: usize::from(selector.element),
                component: usize::from(selector.component),
                codes: codes[selector.codes.clone()].to_vec(),
            }),
        }
    }

    fn fits(&self, segment: Segment) -> bool {
        segment.tag() == self.tag
            && match &self.selector {
                Some(selector) => selector.includes_the_value(segment),
                None => true,
            }
    }
}

impl HomeSelector {
    /// No code has a byte that must be released, so a component whose text
    /// differs from its value fits none, and the text can be compared.
    fn includes_the_value(&self, segment: Segment) -> bool {
        segment
            .component(self.element, self.component)
            .is_some_and(|text| self.codes.iter().any(|code| code == text))
    }
}
