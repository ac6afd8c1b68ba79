//! The rules of 01 between the records of a book, one function for each.

use super::decode::require;
use super::fault::Fault;
use super::{Book, Code, Line, Row, SegmentLine, Tag};
use std::collections::{BTreeMap, HashMap};

const DEEPEST: u8 = 7;
const FIRST_TAG: &Tag = b"UNH";
const LAST_TAG: &Tag = b"UNT";

pub fn check_structure(book: &Book) -> Result<(), Fault> {
    fields_of_a_line_rise(book)?;
    identifiers_rise(book)?;
    no_line_is_deeper_than_7(book)?;
    each_group_has_its_trigger(book)?;
    after_a_segment_line_the_depth_stays_or_falls(book)?;
    first_line_is_unh(book)?;
    last_line_is_unt(book)?;
    no_other_line_has_those_tags(book)?;
    each_segment_has_one_home(book)?;
    carrier_is_a_required_segment_line_of_maximum_1(book)?;
    so_is_each_group_around_the_carrier(book)?;
    rows_of_required_lines_have_mode_1(book)
}

/// "A line's fields rise in (element, component)": strictly, so that no
/// component is named twice.
fn fields_of_a_line_rise(book: &Book) -> Result<(), Fault> {
    for segment in segment_lines(book) {
        let fields = &book.fields[segment.fields.clone()];
        let places = fields.iter().map(|field| (field.element, field.component));
        require(rise_strictly(places), Fault::FieldsRise)?;
    }
    Ok(())
}

/// "entries rise strictly": as numbers of five digits, which is as bytes.
fn identifiers_rise(book: &Book) -> Result<(), Fault> {
    require(
        rise_strictly(book.identifiers.iter()),
        Fault::IdentifiersRise,
    )
}

fn rise_strictly<T: PartialOrd>(values: impl Iterator<Item = T> + Clone) -> bool {
    let following = values.clone().skip(1);
    values.zip(following).all(|(one, next)| one < next)
}

/// "groups inside groups, no line deeper than 7."
fn no_line_is_deeper_than_7(book: &Book) -> Result<(), Fault> {
    let is_deep = |line: &Line| line.depth > DEEPEST;
    require(!book.lines.iter().any(is_deep), Fault::Depth)
}

/// "After a group of depth d comes a segment line of depth d+1, its trigger,
/// required with maximum 1."
fn each_group_has_its_trigger(book: &Book) -> Result<(), Fault> {
    for (index, group) in book.lines.iter().enumerate() {
        if !group.is_group() {
            continue;
        }
        let trigger = book.lines.get(index + 1).ok_or(Fault::GroupLast)?;
        require(!trigger.is_group(), Fault::TriggerKind)?;
        require(trigger.depth == group.depth + 1, Fault::TriggerDepth)?;
        require(trigger.required, Fault::TriggerRequired)?;
        require(trigger.maximum == 1, Fault::TriggerMaximum)?;
    }
    Ok(())
}

/// "After a segment line the depth stays or falls."
fn after_a_segment_line_the_depth_stays_or_falls(book: &Book) -> Result<(), Fault> {
    let keeps = |pair: &[Line]| pair[0].is_group() || pair[1].depth <= pair[0].depth;
    require(book.lines.windows(2).all(keeps), Fault::DepthRises)
}

/// "Line 1 is UNH, ... depth 0, required, maximum 1, without selector"
fn first_line_is_unh(book: &Book) -> Result<(), Fault> {
    let line = &book.lines[0];
    let segment = line.segment().ok_or(Fault::FirstTag)?;
    require(segment.tag == *FIRST_TAG, Fault::FirstTag)?;
    require(line.depth == 0, Fault::FirstDepth)?;
    require(line.required, Fault::FirstRequired)?;
    require(line.maximum == 1, Fault::FirstMaximum)?;
    require(segment.selector.is_none(), Fault::FirstSelector)
}

/// "line L is UNT, both depth 0, required, maximum 1, without selector"
fn last_line_is_unt(book: &Book) -> Result<(), Fault> {
    let line = &book.lines[book.lines.len() - 1];
    let segment = line.segment().ok_or(Fault::LastTag)?;
    require(segment.tag == *LAST_TAG, Fault::LastTag)?;
    require(line.depth == 0, Fault::LastDepth)?;
    require(line.required, Fault::LastRequired)?;
    require(line.maximum == 1, Fault::LastMaximum)?;
    require(segment.selector.is_none(), Fault::LastSelector)
}

/// "no other line has those tags." One home would forbid it too, since neither
/// line has a selector.
fn no_other_line_has_those_tags(book: &Book) -> Result<(), Fault> {
    let count = |tag: &Tag| {
        segment_lines(book)
            .filter(|segment| segment.tag == *tag)
            .count()
    };
    require(count(FIRST_TAG) == 1, Fault::UnhElsewhere)?;
    require(count(LAST_TAG) == 1, Fault::UntElsewhere)
}

/// "One home: two segment lines of the same tag have the same selector place,
/// not 0, and no code in common."
fn each_segment_has_one_home(book: &Book) -> Result<(), Fault> {
    let mut lines_by_tag = BTreeMap::<Tag, Vec<&SegmentLine>>::new();
    for segment in segment_lines(book) {
        lines_by_tag.entry(segment.tag).or_default().push(segment);
    }
    for lines in lines_by_tag.values().filter(|lines| lines.len() > 1) {
        selectors_have_the_same_place(lines)?;
        selectors_share_no_code(lines, &book.codes)?;
    }
    Ok(())
}

fn selectors_have_the_same_place(lines: &[&SegmentLine]) -> Result<(), Fault> {
    let mut places = Vec::new();
    for line in lines {
        let selector = line.selector.as_ref().ok_or(Fault::HomeWithoutSelector)?;
        places.push((selector.element, selector.component));
    }
    require(
        places.iter().all(|place| *place == places[0]),
        Fault::HomePlaces,
    )
}

/// What counts is the codes' values, wherever they stand in the block.
fn selectors_share_no_code(lines: &[&SegmentLine], codes: &[Code]) -> Result<(), Fault> {
    let mut line_of_code = HashMap::new();
    for (number, line) in lines.iter().enumerate() {
        let selector = line.selector.as_ref().ok_or(Fault::HomeWithoutSelector)?;
        for code in &codes[selector.codes.clone()] {
            let first_line = *line_of_code.entry(code).or_insert(number);
            require(first_line == number, Fault::HomeSharedCode)?;
        }
    }
    Ok(())
}

/// "The Prüfidentifikator's line is a required segment line of maximum 1 ..."
fn carrier_is_a_required_segment_line_of_maximum_1(book: &Book) -> Result<(), Fault> {
    let carrier = &book.lines[book.carrier_index()];
    require(!carrier.is_group(), Fault::CarrierKind)?;
    require(carrier.required, Fault::CarrierRequired)?;
    require(carrier.maximum == 1, Fault::CarrierMaximum)
}

/// "... and so is each group around it": required, of maximum 1.
fn so_is_each_group_around_the_carrier(book: &Book) -> Result<(), Fault> {
    for group in book.groups_around(book.carrier_index()) {
        require(book.lines[group].required, Fault::AroundCarrierRequired)?;
        require(book.lines[group].maximum == 1, Fault::AroundCarrierMaximum)?;
    }
    Ok(())
}

/// "Rows of required lines have mode 1": for every Prüfidentifikator.
fn rows_of_required_lines_have_mode_1(book: &Book) -> Result<(), Fault> {
    for rows in &book.rows {
        for (line, row) in book.lines.iter().zip(rows) {
            require(!line.required || *row == Row::Must, Fault::RequiredRow)?;
        }
    }
    Ok(())
}

fn segment_lines(book: &Book) -> impl Iterator<Item = &SegmentLine> {
    book.lines.iter().filter_map(Line::segment)
}
