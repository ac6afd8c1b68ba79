//! The kinds of cases: every outcome of a message alone, of a segment's end and
//! of a lookup, and what there is in texts that are written again.

use independent::bytes::Service;
use independent::content::Content;
use independent::described;
use independent::judging::Record;
use independent::machine::{state_after, State};
use independent::needless::{is_good_but_for_needless, needless_at};
use independent::reading::{Component, Segment};

described! {
    Kind {
        Accepted: "0: UNH and UNT with a reference",
        AcceptedWithRelease: "0: a reference with a release",
        AcceptedWithoutReference: "0: an empty reference",
        AcceptedBeyond16Bits: "0: over 65,535 segments",
        Empty: "3: empty",
        TooLong: "3: too long",
        FaultInStart: "4: fault at the first byte",
        FaultBetweenSegments: "4: fault right after a segment",
        FaultInSecond: "4: fault at a tag's second byte",
        FaultInThird: "4: fault at a tag's third byte",
        FaultInTagged: "4: fault after a tag",
        FaultInOpened: "4: fault after `+`, no needless separator",
        FaultInParted: "4: fault after `:`, no needless separator",
        NeedlessSeparator: "4: a needless separator",
        FaultInInside: "4: fault after data",
        FaultInReleased: "4: fault after a release",
        CutInSecond: "4: cut after a tag's first byte",
        CutInThird: "4: cut after a tag's second byte",
        CutInTagged: "4: cut after a tag",
        CutInOpened: "4: cut after `+`",
        CutInParted: "4: cut after `:`",
        CutInInside: "4: cut after data",
        CutInReleased: "4: cut after a release",
        TooManySegments: "5: over 999,999 segments",
        OnlyOne: "7: only one segment",
        FirstIsNotUnh: "7: the first is not UNH",
        LastIsNotUnt: "7: the last is not UNT",
        AnotherUnh: "7: another UNH",
        AnotherUnt: "7: another UNT",
        MisplacedBeyond16Bits: "7: place over 65,535",
        NoCount: "8: no count",
        CountWithOtherBytes: "8: not only digits",
        CountWithZeros: "8: leading zeros",
        CountRightIn16Bits: "8: right in 16 bits",
        OtherCount: "8: another count",
        NoReference: "9: no reference in UNT",
        ReferenceInUntAlone: "9: no reference in UNH",
        ReferenceBegins: "9: one reference begins with the other",
        OtherReference: "9: another reference",
        NextAfterSegment: "next: after a segment",
        NextWithoutSegment: "next: no segment at the offset",
        NextButForNeedless: "next: a segment but for needless separators",
        NextPastTheEnd: "next: offset past the end",
        LookupOfNumberZero: "lookup: number 0",
        LookupWithoutSegment: "lookup: no segment at the offset",
        LookupButForNeedless: "lookup: a segment but for needless separators",
        LookupPastTheEnd: "lookup: offset past the end",
        PresentPlain: "lookup: present",
        PresentReleased: "lookup: present with a release",
        PresentEmpty: "lookup: present and empty",
        PresentBeyond8Bits: "lookup: present, number over 255",
        PresentBeyond16Bits: "lookup: present, number over 65,535",
        AbsentElement: "lookup: no such element",
        AbsentComponent: "lookup: no such component",
        AgainTagAlone: "again: a tag alone",
        AgainPlain: "again: values without marks, none empty before others",
        AgainWithMark: "again: a released mark",
        AgainWithGap: "again: an empty value before others",
        AgainWithBoth: "again: a released mark, an empty value before others",
        AgainSeveral: "again: several segments",
        AgainSeveralWithBoth: "again: several segments with both",
    }
}

const NARROW: usize = u16::MAX as usize;

impl Kind {
    /// By what the independent judge says of a message, and by its segments.
    pub fn of_message(text: &[u8], segments: &[Segment], record: Record) -> Kind {
        let place = record.place as usize;
        match record.number {
            3 if text.is_empty() => Kind::Empty,
            3 => Kind::TooLong,
            4 if needless_at(text, place).is_some() => Kind::NeedlessSeparator,
            4 if place < text.len() => {
                fault_in(state_after(Service::STANDARD, &text[..place]), place)
            }
            4 => cut_in(state_after(Service::STANDARD, text)),
            5 => Kind::TooManySegments,
            7 => misplaced(segments, place),
            8 => counted_wrongly(segments),
            9 => referred_wrongly(segments),
            _ => accepted(segments),
        }
    }

    /// By what segment starts at the offset.
    pub fn of_next(text: &[u8], at: usize, segment: Option<&Segment>) -> Kind {
        match segment {
            Some(_) => Kind::NextAfterSegment,
            None if at > text.len() => Kind::NextPastTheEnd,
            None if is_good_but_for_needless(text, at) => Kind::NextButForNeedless,
            None => Kind::NextWithoutSegment,
        }
    }

    /// By what segment starts at the offset, and what it has at the numbers.
    pub fn of_lookup(
        text: &[u8],
        at: usize,
        segment: Option<&Segment>,
        element: usize,
        component: usize,
    ) -> Kind {
        let Some(segment) = segment else {
            return match () {
                () if at > text.len() => Kind::LookupPastTheEnd,
                () if is_good_but_for_needless(text, at) => Kind::LookupButForNeedless,
                () => Kind::LookupWithoutSegment,
            };
        };
        if element == 0 || component == 0 {
            return Kind::LookupOfNumberZero;
        }
        match segment.component(element, component) {
            Some(found) => present(found, element.max(component)),
            None if element > segment.elements.len() => Kind::AbsentElement,
            None => Kind::AbsentComponent,
        }
    }

    /// By what the segments of a text are written again from.
    pub fn of_written_again(contents: &[Content]) -> Kind {
        let is_several = contents.len() > 1;
        let has_mark = contents.iter().any(Content::has_a_mark);
        let has_gap = contents.iter().any(Content::has_a_gap);
        match (is_several, has_mark, has_gap) {
            (true, true, true) => Kind::AgainSeveralWithBoth,
            (true, ..) => Kind::AgainSeveral,
            (false, true, true) => Kind::AgainWithBoth,
            (false, true, false) => Kind::AgainWithMark,
            (false, false, true) => Kind::AgainWithGap,
            _ if contents.iter().any(Content::has_a_value) => Kind::AgainPlain,
            _ => Kind::AgainTagAlone,
        }
    }
}

/// The kind of a text whose fault lies at this offset, met in this state.
fn fault_in(state: State, offset: usize) -> Kind {
    match state {
        State::Start if offset == 0 => Kind::FaultInStart,
        State::Start => Kind::FaultBetweenSegments,
        State::Second => Kind::FaultInSecond,
        State::Third => Kind::FaultInThird,
        State::Tagged => Kind::FaultInTagged,
        State::Opened => Kind::FaultInOpened,
        State::Parted => Kind::FaultInParted,
        State::Inside => Kind::FaultInInside,
        State::Released => Kind::FaultInReleased,
        State::Dead => unreachable!("number 4's place lies at the first fault"),
    }
}

/// The kind of a text without a fault that ends in this state.
fn cut_in(state: State) -> Kind {
    match state {
        State::Second => Kind::CutInSecond,
        State::Third => Kind::CutInThird,
        State::Tagged => Kind::CutInTagged,
        State::Opened => Kind::CutInOpened,
        State::Parted => Kind::CutInParted,
        State::Inside => Kind::CutInInside,
        State::Released => Kind::CutInReleased,
        State::Start => unreachable!("whole segments are well-formed, and no bytes are number 3"),
        State::Dead => unreachable!("number 4's place lies at the first fault"),
    }
}

fn misplaced(segments: &[Segment], place: usize) -> Kind {
    match &segments[place - 1].tag {
        _ if segments.len() == 1 => Kind::OnlyOne,
        _ if place == 1 => Kind::FirstIsNotUnh,
        _ if place > NARROW => Kind::MisplacedBeyond16Bits,
        b"UNH" => Kind::AnotherUnh,
        b"UNT" => Kind::AnotherUnt,
        _ => Kind::LastIsNotUnt,
    }
}

fn counted_wrongly(segments: &[Segment]) -> Kind {
    let n = segments.len();
    let count = value(segments[n - 1].component(1, 1));
    let Ok(digits) = std::str::from_utf8(count) else {
        return Kind::CountWithOtherBytes;
    };
    let is_right_narrowly = || {
        let number = digits.parse::<u128>();
        number.is_ok_and(|number| number as u16 == n as u16)
    };
    if digits.is_empty() {
        Kind::NoCount
    } else if !digits.bytes().all(|byte| byte.is_ascii_digit()) {
        Kind::CountWithOtherBytes
    } else if digits.trim_start_matches('0') == n.to_string() {
        Kind::CountWithZeros
    } else if is_right_narrowly() {
        Kind::CountRightIn16Bits
    } else {
        Kind::OtherCount
    }
}

fn referred_wrongly(segments: &[Segment]) -> Kind {
    let opening = value(segments[0].component(1, 1));
    let closing = value(segments[segments.len() - 1].component(2, 1));
    if closing.is_empty() {
        Kind::NoReference
    } else if opening.is_empty() {
        Kind::ReferenceInUntAlone
    } else if opening.starts_with(closing) || closing.starts_with(opening) {
        Kind::ReferenceBegins
    } else {
        Kind::OtherReference
    }
}

fn accepted(segments: &[Segment]) -> Kind {
    let opening = segments[0].component(1, 1);
    match opening {
        _ if segments.len() > NARROW => Kind::AcceptedBeyond16Bits,
        Some(found) if found.is_released() => Kind::AcceptedWithRelease,
        Some(found) if !found.is_empty() => Kind::Accepted,
        _ => Kind::AcceptedWithoutReference,
    }
}

fn value(component: Option<&Component>) -> &[u8] {
    component.map_or(&[], |found| &found.value)
}

/// The kind of a lookup that finds this component, by the higher of its numbers.
fn present(found: &Component, number: usize) -> Kind {
    if number > NARROW {
        Kind::PresentBeyond16Bits
    } else if number > usize::from(u8::MAX) {
        Kind::PresentBeyond8Bits
    } else if found.is_empty() {
        Kind::PresentEmpty
    } else if found.is_released() {
        Kind::PresentReleased
    } else {
        Kind::PresentPlain
    }
}
