//! Breaks the rules of how lines nest, and of UNH and UNT.

use super::damages;
use crate::book::edit::{
    add_codes, add_group, add_segment_line, insert_group, insert_line, make_carrier, new_tag,
    optional_group, segment_mut, set_selector,
};
use crate::book::encode::encode;
use crate::book::{Book, Row};
use crate::random::Random;

damages! {
    Depth: groups_nested_to_depth_8,
    Depth: depth_far_over_7,
    GroupLast: group_after_the_last_line,
    TriggerKind: group_after_a_group,
    TriggerDepth: trigger_beside_its_group,
    TriggerDepth: trigger_too_deep,
    TriggerRequired: optional_trigger,
    TriggerMaximum: trigger_of_maximum_2,
    DepthRises: deeper_line_after_a_segment_line,
    DepthRises: deeper_group_after_a_segment_line,
    FirstTag: another_tag_on_the_first_line,
    FirstTag: a_line_before_unh,
    FirstTag: a_group_before_unh,
    FirstDepth: depth_of_the_first_line,
    FirstRequired: optional_first_line,
    FirstMaximum: maximum_of_the_first_line,
    FirstSelector: selector_of_the_first_line,
    LastTag: another_tag_on_the_last_line,
    LastTag: a_line_after_unt,
    LastDepth: last_line_in_a_group,
    LastRequired: optional_last_line,
    LastMaximum: maximum_of_the_last_line,
    LastSelector: selector_of_the_last_line,
    UnhElsewhere: second_unh,
    UnhElsewhere: second_unh_as_a_trigger,
    UntElsewhere: second_unt,
}

/// One over what 01 allows for a line that comes once.
fn maximum_over_1(random: &mut Random) -> u32 {
    random.pick(&[2, 2, 256, 999_999])
}

/// Groups from some line on, each holding the next, the last trigger at depth 8.
fn groups_nested_to_depth_8(random: &mut Random, mut book: Book) -> Vec<u8> {
    let start = add_segment_line(random, &mut book);
    let mut index = start + 1;
    for depth in book.lines[start].depth..=7 {
        insert_group(random, &mut book, index, depth);
        index += 2;
    }
    encode(&book)
}

fn depth_far_over_7(random: &mut Random, mut book: Book) -> Vec<u8> {
    let index = random.below(book.lines.len());
    book.lines[index].depth = random.pick(&[8, 9, 128, 255]);
    encode(&book)
}

fn group_after_the_last_line(random: &mut Random, mut book: Book) -> Vec<u8> {
    let [group, _] = optional_group(new_tag(random, &book), 0);
    let end = book.lines.len();
    insert_line(&mut book, end, group);
    encode(&book)
}

/// The inner group has its trigger, the outer one does not.
fn group_after_a_group(random: &mut Random, mut book: Book) -> Vec<u8> {
    let inner = add_group(random, &mut book, 6);
    let depth = book.lines[inner].depth;
    book.lines[inner].depth += 1;
    book.lines[inner + 1].depth += 1;
    let [outer, _] = optional_group(new_tag(random, &book), depth);
    insert_line(&mut book, inner, outer);
    encode(&book)
}

fn trigger_beside_its_group(random: &mut Random, mut book: Book) -> Vec<u8> {
    let group = add_group(random, &mut book, 7);
    book.lines[group + 1].depth -= 1;
    encode(&book)
}

fn trigger_too_deep(random: &mut Random, mut book: Book) -> Vec<u8> {
    let group = add_group(random, &mut book, 6);
    book.lines[group + 1].depth += 1;
    encode(&book)
}

fn optional_trigger(random: &mut Random, mut book: Book) -> Vec<u8> {
    let group = add_group(random, &mut book, 7);
    book.lines[group + 1].required = false;
    encode(&book)
}

fn trigger_of_maximum_2(random: &mut Random, mut book: Book) -> Vec<u8> {
    let group = add_group(random, &mut book, 7);
    book.lines[group + 1].maximum = maximum_over_1(random);
    encode(&book)
}

/// After a trigger at most 6 deep comes a line one deeper.
fn deeper_line_after_a_segment_line(random: &mut Random, mut book: Book) -> Vec<u8> {
    let group = add_group(random, &mut book, 6);
    let mut line = book.lines[group + 1].clone();
    segment_mut(&mut book, group + 1).tag = new_tag(random, &book);
    line.depth += 1;
    insert_line(&mut book, group + 2, line);
    encode(&book)
}

fn deeper_group_after_a_segment_line(random: &mut Random, mut book: Book) -> Vec<u8> {
    let group = add_group(random, &mut book, 5);
    let depth = book.lines[group + 1].depth + 1;
    insert_group(random, &mut book, group + 2, depth);
    encode(&book)
}

fn another_tag_on_the_first_line(random: &mut Random, mut book: Book) -> Vec<u8> {
    segment_mut(&mut book, 0).tag = new_tag(random, &book);
    encode(&book)
}

fn a_line_before_unh(random: &mut Random, mut book: Book) -> Vec<u8> {
    let mut line = book.lines[0].clone();
    line.required = random.chance(50);
    insert_line(&mut book, 0, line);
    segment_mut(&mut book, 0).tag = new_tag(random, &book);
    encode(&book)
}

fn a_group_before_unh(random: &mut Random, mut book: Book) -> Vec<u8> {
    insert_group(random, &mut book, 0, 0);
    encode(&book)
}

fn depth_of_the_first_line(random: &mut Random, mut book: Book) -> Vec<u8> {
    book.lines[0].depth = random.pick(&[1, 2, 7]);
    encode(&book)
}

/// Neither UNH nor UNT carries the Prüfidentifikator, so that a change to them
/// breaks no rule of the carrier.
fn carried_by_another_line(random: &mut Random, mut book: Book) -> Book {
    let index = add_segment_line(random, &mut book);
    make_carrier(&mut book, index);
    book
}

fn optional_first_line(random: &mut Random, book: Book) -> Vec<u8> {
    let mut book = carried_by_another_line(random, book);
    book.lines[0].required = false;
    encode(&book)
}

fn maximum_of_the_first_line(random: &mut Random, book: Book) -> Vec<u8> {
    let mut book = carried_by_another_line(random, book);
    book.lines[0].maximum = maximum_over_1(random);
    encode(&book)
}

fn selector_of_the_first_line(random: &mut Random, mut book: Book) -> Vec<u8> {
    let codes = add_codes(random, &mut book, 1);
    set_selector(&mut book, 0, (1, 1), codes);
    encode(&book)
}

fn last_index(book: &Book) -> usize {
    book.lines.len() - 1
}

fn another_tag_on_the_last_line(random: &mut Random, mut book: Book) -> Vec<u8> {
    let last = last_index(&book);
    segment_mut(&mut book, last).tag = new_tag(random, &book);
    encode(&book)
}

fn a_line_after_unt(random: &mut Random, mut book: Book) -> Vec<u8> {
    let mut line = book.lines[last_index(&book)].clone();
    line.required = random.chance(50);
    let end = book.lines.len();
    insert_line(&mut book, end, line);
    segment_mut(&mut book, end).tag = new_tag(random, &book);
    encode(&book)
}

fn last_line_in_a_group(random: &mut Random, book: Book) -> Vec<u8> {
    let mut book = carried_by_another_line(random, book);
    let last = last_index(&book);
    insert_group(random, &mut book, last, 0);
    book.lines[last + 2].depth = 1;
    encode(&book)
}

fn optional_last_line(random: &mut Random, book: Book) -> Vec<u8> {
    let mut book = carried_by_another_line(random, book);
    let last = last_index(&book);
    book.lines[last].required = false;
    // Any row is good for a line that is not required.
    for rows in &mut book.rows {
        rows[last] = random.pick(&[&Row::Must, &Row::May, &Row::Never]).clone();
    }
    encode(&book)
}

fn maximum_of_the_last_line(random: &mut Random, book: Book) -> Vec<u8> {
    let mut book = carried_by_another_line(random, book);
    let last = last_index(&book);
    book.lines[last].maximum = maximum_over_1(random);
    encode(&book)
}

fn selector_of_the_last_line(random: &mut Random, mut book: Book) -> Vec<u8> {
    let codes = add_codes(random, &mut book, 1);
    let last = last_index(&book);
    set_selector(&mut book, last, (1, 1), codes);
    encode(&book)
}

fn second_unh(random: &mut Random, mut book: Book) -> Vec<u8> {
    let index = add_segment_line(random, &mut book);
    segment_mut(&mut book, index).tag = *b"UNH";
    encode(&book)
}

fn second_unh_as_a_trigger(random: &mut Random, mut book: Book) -> Vec<u8> {
    let group = add_group(random, &mut book, 7);
    segment_mut(&mut book, group + 1).tag = *b"UNH";
    encode(&book)
}

fn second_unt(random: &mut Random, mut book: Book) -> Vec<u8> {
    let index = add_segment_line(random, &mut book);
    segment_mut(&mut book, index).tag = *b"UNT";
    encode(&book)
}
