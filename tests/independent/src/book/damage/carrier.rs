//! Breaks the rules of the line that carries the Prüfidentifikator and of the
//! groups around it.

use super::damages;
use crate::book::edit::{add_group, add_segment_line, insert_group, make_carrier};
use crate::book::encode::encode;
use crate::book::Book;
use crate::random::Random;

damages! {
    CarrierKind: carried_by_a_group,
    CarrierRequired: optional_carrier,
    CarrierMaximum: carrier_of_maximum_2,
    AroundCarrierRequired: optional_group_around_the_carrier,
    AroundCarrierMaximum: group_of_maximum_2_around_the_carrier,
}

/// Required and of maximum 1, but a group.
fn carried_by_a_group(random: &mut Random, mut book: Book) -> Vec<u8> {
    let group = add_group(random, &mut book, 7);
    make_carrier(&mut book, group);
    encode(&book)
}

fn optional_carrier(random: &mut Random, mut book: Book) -> Vec<u8> {
    let index = add_segment_line(random, &mut book);
    make_carrier(&mut book, index);
    book.lines[index].required = false;
    encode(&book)
}

fn carrier_of_maximum_2(random: &mut Random, mut book: Book) -> Vec<u8> {
    let index = add_segment_line(random, &mut book);
    make_carrier(&mut book, index);
    book.lines[index].maximum = random.pick(&[2, 3, 256, 257, 65_537, 999_999]);
    encode(&book)
}

/// Puts the Prüfidentifikator on a trigger within two groups or more, and
/// answers one of these.
fn some_group_around_the_carrier(random: &mut Random, book: &mut Book) -> usize {
    let outer = add_group(random, book, 6);
    let trigger = outer + 1;
    let depth = book.lines[trigger].depth;
    insert_group(random, book, trigger + 1, depth);
    let inner_trigger = trigger + 2;
    make_carrier(book, inner_trigger);
    random.pick(&book.groups_around(inner_trigger))
}

fn optional_group_around_the_carrier(random: &mut Random, mut book: Book) -> Vec<u8> {
    let group = some_group_around_the_carrier(random, &mut book);
    book.lines[group].required = false;
    encode(&book)
}

fn group_of_maximum_2_around_the_carrier(random: &mut Random, mut book: Book) -> Vec<u8> {
    let group = some_group_around_the_carrier(random, &mut book);
    book.lines[group].maximum = random.pick(&[2, 3, 256, 257, 65_537, 999_999]);
    encode(&book)
}
