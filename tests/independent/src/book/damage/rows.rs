//! Breaks the rules of a row, each time in the row of an optional line for some
//! Prüfidentifikator.

use super::{damages, nonzero_byte, Draft};
use crate::book::edit::add_segment_line;
use crate::book::layout::row;
use crate::book::Book;
use crate::random::Random;

damages! {
    RowMode: mode_over_4,
    PlainRow: plain_row_with_another_byte,
    RowZeros: last_bytes_of_a_row,
    NoCondition: no_condition,
    ConditionGap: unused_byte_before_a_condition,
    ConditionZero: condition_number_0,
    ConditionOverCount: condition_one_over_the_count,
    ConditionOverCount: condition_far_over_the_count,
    ConditionsRise: same_condition_twice,
    ConditionsRise: same_condition_plain_and_negated,
    ConditionsRise: conditions_fall,
    Joint: another_joint_of_several,
    Joint: another_joint_of_one,
    JointOfOne: any_of_one,
    RequiredRow: row_of_a_required_line,
}

const NEVER: u8 = 0;
const MUST: u8 = 1;
const MAY: u8 = 2;
const MUST_IF: u8 = 3;
const MAY_IF: u8 = 4;
const ALL: u8 = 1;
const ANY: u8 = 2;

/// The good rows use at least three conditions.
fn with_three_conditions(mut book: Book) -> Book {
    book.conditions = book.conditions.max(3);
    book
}

/// Makes this the row of an optional line.
fn with_row(random: &mut Random, mut book: Book, record: [u8; 8]) -> Vec<u8> {
    let line = add_segment_line(random, &mut book);
    let identifier = random.below(book.identifiers.len());
    let mut draft = Draft::of(&book);
    draft.row(identifier, line).copy_from_slice(&record);
    draft.bytes
}

/// A row of mode 3 or 4 with these conditions.
fn conditional(random: &mut Random, joint: u8, conditions: [u8; 3]) -> [u8; 8] {
    let [one, two, three] = conditions;
    let mode = random.pick(&[MUST_IF, MAY_IF]);
    [mode, joint, one, two, three, 0, 0, 0]
}

fn with_conditions(random: &mut Random, book: Book, conditions: [u8; 3]) -> Vec<u8> {
    let used = conditions.iter().filter(|&&byte| byte != 0).count();
    let joint = if used > 1 && random.chance(50) {
        ANY
    } else {
        ALL
    };
    let record = conditional(random, joint, conditions);
    with_row(random, book, record)
}

fn mode_over_4(random: &mut Random, book: Book) -> Vec<u8> {
    let mode = random.pick(&[5, 6, 131, 255]);
    let record = random.pick(&[
        [mode, 0, 0, 0, 0, 0, 0, 0],
        [mode, ALL, 1, 0, 0, 0, 0, 0],
        [mode, ANY, 1, 2, 3, 0, 0, 0],
    ]);
    with_row(random, with_three_conditions(book), record)
}

fn plain_row_with_another_byte(random: &mut Random, book: Book) -> Vec<u8> {
    let mut record = [0; 8];
    record[row::MODE] = random.pick(&[NEVER, MUST, MAY]);
    record[random.between(row::JOINT, 7)] = random.pick(&[1, 2, 128, 255]);
    with_row(random, with_three_conditions(book), record)
}

fn last_bytes_of_a_row(random: &mut Random, book: Book) -> Vec<u8> {
    let mut record = conditional(random, ALL, [1, 0, 0]);
    record[row::ZEROS + random.below(3)] = nonzero_byte(random);
    with_row(random, with_three_conditions(book), record)
}

fn no_condition(random: &mut Random, book: Book) -> Vec<u8> {
    let joint = random.pick(&[0, ALL, ANY]);
    let record = conditional(random, joint, [0, 0, 0]);
    with_row(random, book, record)
}

fn unused_byte_before_a_condition(random: &mut Random, book: Book) -> Vec<u8> {
    let conditions = random.pick(&[
        [0, 1, 0],
        [0, 0, 1],
        [0, 1, 2],
        [1, 0, 2],
        [0, 129, 0],
        [129, 0, 130],
    ]);
    with_conditions(random, with_three_conditions(book), conditions)
}

/// "Not" of no condition.
fn condition_number_0(random: &mut Random, book: Book) -> Vec<u8> {
    let conditions = random.pick(&[[128, 0, 0], [128, 1, 0], [128, 1, 2], [128, 129, 130]]);
    with_conditions(random, with_three_conditions(book), conditions)
}

fn plain_or_negated(random: &mut Random, number: usize) -> u8 {
    number as u8 + random.pick(&[0, row::NOT])
}

fn condition_one_over_the_count(random: &mut Random, book: Book) -> Vec<u8> {
    let number = book.conditions + 1;
    with_last_condition(random, book, number)
}

fn condition_far_over_the_count(random: &mut Random, book: Book) -> Vec<u8> {
    let number = random.pick(&[book.conditions + 2, 66, 100, 127]);
    with_last_condition(random, book, number)
}

/// A row whose last condition has this number.
fn with_last_condition(random: &mut Random, book: Book, number: usize) -> Vec<u8> {
    let last = plain_or_negated(random, number);
    let mut choices = vec![[last, 0, 0]];
    if book.conditions >= 1 {
        choices.push([1, last, 0]);
    }
    if book.conditions >= 2 {
        choices.push([1, 2, last]);
    }
    let conditions = random.pick(&choices);
    with_conditions(random, book, conditions)
}

fn same_condition_twice(random: &mut Random, book: Book) -> Vec<u8> {
    let conditions = random.pick(&[
        [1, 1, 0],
        [129, 129, 0],
        [1, 1, 2],
        [1, 2, 2],
        [1, 130, 130],
        [3, 3, 3],
    ]);
    with_conditions(random, with_three_conditions(book), conditions)
}

/// The bytes rise or fall, and the numbers do neither.
fn same_condition_plain_and_negated(random: &mut Random, book: Book) -> Vec<u8> {
    let conditions = random.pick(&[[1, 129, 0], [129, 1, 0], [1, 2, 130], [1, 130, 2]]);
    with_conditions(random, with_three_conditions(book), conditions)
}

/// Also where the bytes rise.
fn conditions_fall(random: &mut Random, book: Book) -> Vec<u8> {
    let conditions = random.pick(&[
        [2, 1, 0],
        [2, 129, 0],
        [1, 3, 2],
        [1, 3, 130],
        [2, 3, 1],
        [3, 1, 2],
    ]);
    with_conditions(random, with_three_conditions(book), conditions)
}

fn another_joint_of_several(random: &mut Random, book: Book) -> Vec<u8> {
    let joint = random.pick(&[0, 3, 129, 255]);
    let conditions = random.pick(&[[1, 2, 0], [1, 2, 3]]);
    let record = conditional(random, joint, conditions);
    with_row(random, with_three_conditions(book), record)
}

fn another_joint_of_one(random: &mut Random, book: Book) -> Vec<u8> {
    let joint = random.pick(&[0, 3, 129, 255]);
    let record = conditional(random, joint, [1, 0, 0]);
    with_row(random, with_three_conditions(book), record)
}

fn any_of_one(random: &mut Random, book: Book) -> Vec<u8> {
    let condition = random.pick(&[1, 129]);
    let record = conditional(random, ANY, [condition, 0, 0]);
    with_row(random, with_three_conditions(book), record)
}

/// A good row, but not for a line that must always be there.
fn row_of_a_required_line(random: &mut Random, book: Book) -> Vec<u8> {
    let book = with_three_conditions(book);
    let required: Vec<usize> = (0..book.lines.len())
        .filter(|&index| book.lines[index].required)
        .collect();
    let line = random.pick(&required);
    let identifier = random.below(book.identifiers.len());
    let mut draft = Draft::of(&book);
    draft.row(identifier, line).copy_from_slice(&random.pick(&[
        [NEVER, 0, 0, 0, 0, 0, 0, 0],
        [MAY, 0, 0, 0, 0, 0, 0, 0],
        [MUST_IF, ALL, 1, 0, 0, 0, 0, 0],
        [MAY_IF, ANY, 1, 2, 0, 0, 0, 0],
    ]));
    draft.bytes
}
