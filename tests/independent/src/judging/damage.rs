//! Changes to a message that fits a book. Most break it, and some leave it as
//! good as it was: the judge says which.

use super::fitting::{written_data, Draft};
use crate::book::edit::segment;
use crate::book::{Book, Field};
use crate::bytes::is_tag_byte;
use crate::random::Random;
use crate::writing::{byte_such_that, put};

/// A change of which segments there are, and in which order.
type Reordering = fn(&mut Random, &mut Vec<Draft>);
/// A change of what stands in the segments.
type Rewriting = fn(&mut Random, &Book, &mut [Draft]);

const ORDER: [Reordering; 8] = [
    leave_one_out,
    leave_some_out,
    repeat_one,
    |random, drafts| swap_two(random, drafts),
    move_one,
    copy_one_elsewhere,
    put_an_envelope_tag,
    put_one_made_of_another,
];

/// What leaves a segment without a home, mostly.
const HOMES: [Rewriting; 2] = [change_a_tag, change_a_selected_value];

const FIELDS: [Rewriting; 9] = [
    empty_a_field,
    fill_a_field,
    lengthen_a_field,
    change_a_byte_of_a_field,
    put_a_number_like_value,
    put_any_code,
    put_an_unnamed_component,
    put_a_far_component,
    put_an_empty_one_before,
];

/// What the closing segment says, and the Prüfidentifikator.
const NUMBERS: [Rewriting; 3] = [
    change_the_count,
    change_the_reference,
    change_the_identifier,
];

/// Changes the message in one way.
pub fn damage(random: &mut Random, book: &Book, drafts: &mut Vec<Draft>) {
    let rewritings: &[Rewriting] = match random.below(10) {
        0..=3 => return reorder(random, drafts),
        4 => &HOMES,
        5..=7 => &FIELDS,
        _ => &NUMBERS,
    };
    random.pick(rewritings)(random, book, drafts);
}

/// The segment count is made right again, mostly, so that later faults are met
/// too.
fn reorder(random: &mut Random, drafts: &mut Vec<Draft>) {
    let count = drafts.len();
    random.pick(&ORDER)(random, drafts);
    if drafts.len() != count && random.chance(90) {
        set_count(drafts);
    }
}

fn set_count(drafts: &mut [Draft]) {
    let count = drafts.len().to_string().into_bytes();
    if let Some(last) = drafts.last_mut() {
        put(&mut last.elements, (1, 1), count);
    }
}

// The order of segments. All but a few changes leave the envelope alone.

/// The index of some segment, mostly not the first or last.
fn any(random: &mut Random, drafts: &[Draft]) -> usize {
    if drafts.len() > 2 && random.chance(90) {
        random.between(1, drafts.len() - 2)
    } else {
        random.below(drafts.len())
    }
}

fn leave_one_out(random: &mut Random, drafts: &mut Vec<Draft>) {
    if drafts.len() > 1 {
        drafts.remove(any(random, drafts));
    }
}

fn leave_some_out(random: &mut Random, drafts: &mut Vec<Draft>) {
    let begin = any(random, drafts);
    let end = random.between(begin, drafts.len() - 1);
    drafts.drain(begin..end);
}

fn repeat_one(random: &mut Random, drafts: &mut Vec<Draft>) {
    let at = any(random, drafts);
    let copies = vec![drafts[at].clone(); random.pick(&[1, 1, 1, 2, 3])];
    drafts.splice(at..at, copies);
}

fn swap_two(random: &mut Random, drafts: &mut [Draft]) {
    let (one, other) = (any(random, drafts), any(random, drafts));
    drafts.swap(one, other);
}

fn move_one(random: &mut Random, drafts: &mut Vec<Draft>) {
    let moved = drafts.remove(any(random, drafts));
    if drafts.is_empty() {
        drafts.push(moved);
    } else {
        drafts.insert(any(random, drafts), moved);
    }
}

fn copy_one_elsewhere(random: &mut Random, drafts: &mut Vec<Draft>) {
    let copied = drafts[any(random, drafts)].clone();
    drafts.insert(any(random, drafts), copied);
}

fn put_an_envelope_tag(random: &mut Random, drafts: &mut Vec<Draft>) {
    let at = random.below(drafts.len());
    match random.below(4) {
        0 => drafts[at].tag = random.pick(&[*b"UNH", *b"UNT"]),
        1 => drafts[0].tag = random.pick(&[*b"UNS", *b"UNT", *b"UNZ"]),
        2 => {
            let last = drafts.len() - 1;
            drafts[last].tag = random.pick(&[*b"UNS", *b"UNH", *b"UNZ"]);
        }
        _ => drafts.truncate(at.max(1)),
    }
}

fn put_one_made_of_another(random: &mut Random, drafts: &mut Vec<Draft>) {
    let mut made = drafts[any(random, drafts)].clone();
    made.elements = drafts[any(random, drafts)].elements.clone();
    drafts.insert(any(random, drafts), made);
}

// Homes.

fn change_a_tag(random: &mut Random, _: &Book, drafts: &mut [Draft]) {
    let at = any(random, drafts);
    let byte = random.below(3);
    drafts[at].tag[byte] = byte_such_that(random, is_tag_byte);
}

fn change_a_selected_value(random: &mut Random, book: &Book, drafts: &mut [Draft]) {
    let selected = drafts
        .iter_mut()
        .filter(|draft| segment(book, draft.home - 1).selector.is_some());
    let mut selected: Vec<&mut Draft> = selected.collect();
    if selected.is_empty() {
        return change_a_tag(random, book, drafts);
    }
    let at = random.below(selected.len());
    let draft = &mut selected[at];
    if let Some(selector) = &segment(book, draft.home - 1).selector {
        let place = (selector.element.into(), selector.component.into());
        let text = match random.below(4) {
            0 => Vec::new(),
            1 => any_code(random, book),
            2 => [any_code(random, book), b"?:".to_vec()].concat(),
            _ => written_data(random, 3),
        };
        put(&mut draft.elements, place, text);
    }
}

fn any_code(random: &mut Random, book: &Book) -> Vec<u8> {
    match book.codes.len() {
        0 => b"Z".to_vec(),
        count => book.codes[random.below(count)].clone(),
    }
}

// Fields.

/// Some segment, and some field of its line, if that has any.
fn any_field<'a, 'b>(
    random: &mut Random,
    book: &'a Book,
    drafts: &'b mut [Draft],
) -> (&'b mut Draft, Option<&'a Field>) {
    let at = random.below(drafts.len());
    let draft = &mut drafts[at];
    let fields = &book.fields[segment(book, draft.home - 1).fields.clone()];
    let field = match fields.len() {
        0 => None,
        count => Some(&fields[random.below(count)]),
    };
    (draft, field)
}

/// Changes what some field has.
fn change_a_value(
    random: &mut Random,
    book: &Book,
    drafts: &mut [Draft],
    change: fn(&mut Random, &Field, Vec<u8>) -> Vec<u8>,
) {
    let (draft, field) = any_field(random, book, drafts);
    let Some(field) = field else {
        return put(&mut draft.elements, (1, 1), b"X".to_vec());
    };
    let (element, component) = (usize::from(field.element), usize::from(field.component));
    let components = draft.elements.get(element - 1);
    let text = components.and_then(|components| components.get(component - 1));
    let changed = change(random, field, text.cloned().unwrap_or_default());
    put(&mut draft.elements, (element, component), changed);
}

fn empty_a_field(random: &mut Random, book: &Book, drafts: &mut [Draft]) {
    change_a_value(random, book, drafts, |_, _, _| Vec::new());
}

fn fill_a_field(random: &mut Random, book: &Book, drafts: &mut [Draft]) {
    change_a_value(random, book, drafts, |random, _, text| match text[..] {
        [] => random.pick(&[b"1", b"X", b"-", b"."]).to_vec(),
        _ => text,
    });
}

/// To the longest that is allowed, or one byte more; what does not count for a
/// number, or is a release, may come in addition.
fn lengthen_a_field(random: &mut Random, book: &Book, drafts: &mut [Draft]) {
    change_a_value(random, book, drafts, |random, field, _| {
        let length = usize::from(field.longest).min(400) + random.below(2);
        let mut text = vec![b'7'; length];
        match random.below(4) {
            0 => text.insert(0, b'-'),
            1 if length > 1 => text.insert(random.between(1, length - 1), b'.'),
            2 => drop(text.splice(..1, *b"?+")),
            _ => {}
        }
        text
    });
}

fn change_a_byte_of_a_field(random: &mut Random, book: &Book, drafts: &mut [Draft]) {
    change_a_value(random, book, drafts, |random, _, mut text| {
        // Only where no release is torn apart.
        if !text.is_empty() && !text.contains(&b'?') {
            let at = random.below(text.len());
            text[at] = random.pick(b"0A-., z");
        }
        text
    });
}

fn put_a_number_like_value(random: &mut Random, book: &Book, drafts: &mut [Draft]) {
    change_a_value(random, book, drafts, |random, _, _| {
        let values = [
            "-", ".", "-.", "1.", ".1", "-.1", "-1.", "1.1", "-1.1", "--1", "1-", "1.1.1", "?+1",
            "1,5", "1 ", "0",
        ];
        random.pick(&values).as_bytes().to_vec()
    });
}

fn put_any_code(random: &mut Random, book: &Book, drafts: &mut [Draft]) {
    let code = any_code(random, book);
    let (draft, field) = any_field(random, book, drafts);
    if let Some(field) = field {
        let place = (field.element.into(), field.component.into());
        put(&mut draft.elements, place, code);
    }
}

/// Beside or behind what fields name, by chance at a field.
fn put_an_unnamed_component(random: &mut Random, _: &Book, drafts: &mut [Draft]) {
    let at = random.below(drafts.len());
    let place = (random.between(1, 5), random.between(1, 5));
    put(&mut drafts[at].elements, place, b"X".to_vec());
}

/// Numbers that a byte does not hold, and rarely such as two do not hold.
fn put_a_far_component(random: &mut Random, _: &Book, drafts: &mut [Draft]) {
    let at = random.below(drafts.len());
    let far = match random.chance(1) {
        true => random.pick(&[65_536, 65_537, 65_538]),
        false => random.pick(&[255, 256, 257, 258, 259, 511, 513]),
    };
    let near = random.between(1, 3);
    let place = random.pick(&[(far, near), (far, near), (near, far)]);
    put(&mut drafts[at].elements, place, b"X".to_vec());
}

/// An empty element or component before others, so that these move on by one.
fn put_an_empty_one_before(random: &mut Random, _: &Book, drafts: &mut [Draft]) {
    let at = random.below(drafts.len());
    let elements = &mut drafts[at].elements;
    if elements.is_empty() {
        return put(elements, (2, 2), b"X".to_vec());
    }
    let element = random.below(elements.len());
    if random.chance(50) {
        elements.insert(element, vec![Vec::new()]);
    } else {
        let components = &mut elements[element];
        components.insert(random.below(components.len()), Vec::new());
    }
}

// What numbers 8, 9 and 13 look at.

fn change_the_count(random: &mut Random, _: &Book, drafts: &mut [Draft]) {
    let count = drafts.len();
    let text = match random.below(8) {
        0 => (count + 1).to_string(),
        1 => (count - 1).to_string(),
        2 => format!("0{count}"),
        3 => format!("{count} "),
        4 => format!("{}", count + 65_536),
        5 => format!("-{count}"),
        6 => format!("?+{count}"),
        _ => String::new(),
    };
    let last = &mut drafts[count - 1];
    put(&mut last.elements, (1, 1), text.into_bytes());
}

fn change_the_reference(random: &mut Random, _: &Book, drafts: &mut [Draft]) {
    let count = drafts.len();
    let (at, place) = random.pick(&[(0, (1, 1)), (count - 1, (2, 1))]);
    let text = random.pick(&["1", "", "A", "?+", "X1", "1X"]);
    put(&mut drafts[at].elements, place, text.as_bytes().to_vec());
    // Two absent references are the same.
    if random.chance(20) {
        put(&mut drafts[0].elements, (1, 1), Vec::new());
        put(&mut drafts[count - 1].elements, (2, 1), Vec::new());
    }
}

fn change_the_identifier(random: &mut Random, book: &Book, drafts: &mut [Draft]) {
    let Some(carrier) = drafts.iter_mut().find(|draft| draft.home == book.carrier) else {
        return;
    };
    let mut text = book.identifiers[random.below(book.identifiers.len())].to_vec();
    match random.below(6) {
        0 => {}
        1 => drop(text.pop()),
        2 => text.push(b'0'),
        3 => text.clear(),
        _ => {
            let at = random.below(text.len());
            text[at] = random.pick(b"0123456789A");
        }
    }
    put(&mut carrier.elements, (1, 2), text);
}
