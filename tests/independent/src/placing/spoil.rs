//! Changes to an allowed sequence of homes. Most make it one that 01 does not
//! allow, and some leave it allowed: the independent walk says which.

use crate::book::Book;
use crate::random::Random;

/// Copies beyond this would only make sequences long.
const MOST_COPIES: usize = 4;

type Change = fn(&mut Random, &Book, &mut Vec<usize>);

const CHANGES: [Change; 11] = [
    swap_neighbours,
    move_one,
    leave_one_out,
    leave_out_up_to_a_shallower_line,
    leave_out_up_to_a_shallower_line,
    repeat_one,
    go_over_a_segment_line_maximum,
    repeat_an_instance,
    go_over_a_group_maximum,
    put_any_home,
    break_off,
];

/// Changes the sequence in one of these ways.
pub fn spoil(random: &mut Random, book: &Book, homes: &mut Vec<usize>) {
    if homes.is_empty() {
        homes.push(any_home(random, book));
    }
    random.pick(&CHANGES)(random, book, homes);
}

pub fn any_home(random: &mut Random, book: &Book) -> usize {
    loop {
        let index = random.below(book.lines.len());
        if !book.lines[index].is_group() {
            return index + 1;
        }
    }
}

fn swap_neighbours(random: &mut Random, _: &Book, homes: &mut Vec<usize>) {
    let at = random.below(homes.len());
    let home = homes.remove(at);
    homes.insert(homes.len().min(at + 1), home);
}

fn move_one(random: &mut Random, _: &Book, homes: &mut Vec<usize>) {
    let home = homes.remove(random.below(homes.len()));
    homes.insert(random.between(0, homes.len()), home);
}

fn leave_one_out(random: &mut Random, _: &Book, homes: &mut Vec<usize>) {
    homes.remove(random.below(homes.len()));
}

fn repeat_one(random: &mut Random, _: &Book, homes: &mut Vec<usize>) {
    let at = random.below(homes.len());
    homes.insert(at, homes[at]);
}

fn put_any_home(random: &mut Random, book: &Book, homes: &mut Vec<usize>) {
    let at = random.below(homes.len());
    let home = any_home(random, book);
    if random.chance(50) {
        homes[at] = home;
    } else {
        homes.insert(at, home);
    }
}

fn break_off(random: &mut Random, _: &Book, homes: &mut Vec<usize>) {
    homes.truncate(random.below(homes.len()));
}

/// Leaves out the rest of several instances, up to where they have all closed.
fn leave_out_up_to_a_shallower_line(random: &mut Random, book: &Book, homes: &mut Vec<usize>) {
    let at = deeper_of_two(random, book, homes);
    let depth = depth_of(book, homes[at]);
    let wanted = random.below(depth + 1);
    let is_shallow = |home: &usize| repeated_depth_of(book, *home) <= wanted;
    let length = homes[at..].iter().position(is_shallow);
    let end = length.map_or(homes.len(), |length| at + length);
    homes.drain(at..end);
}

/// The deeper of two segments, so that the depths are not left to the many
/// segments at the root.
fn deeper_of_two(random: &mut Random, book: &Book, homes: &[usize]) -> usize {
    let one = random.below(homes.len());
    let other = random.below(homes.len());
    if depth_of(book, homes[one]) < depth_of(book, homes[other]) {
        other
    } else {
        one
    }
}

fn go_over_a_segment_line_maximum(random: &mut Random, book: &Book, homes: &mut Vec<usize>) {
    let at = deeper_of_two(random, book, homes);
    let home = homes[at];
    let copies = copies_over(book, home - 1);
    homes.splice(at..at, vec![home; copies]);
}

fn repeat_an_instance(random: &mut Random, book: &Book, homes: &mut Vec<usize>) {
    repeat_instance(random, book, homes, |_, _| 1);
}

fn go_over_a_group_maximum(random: &mut Random, book: &Book, homes: &mut Vec<usize>) {
    repeat_instance(random, book, homes, copies_over);
}

/// As many as the line's maximum, if that is not large: one is there already.
fn copies_over(book: &Book, index: usize) -> usize {
    MOST_COPIES.min(book.lines[index].maximum as usize)
}

/// Repeats some instance, with as many copies as are said for its group.
fn repeat_instance(
    random: &mut Random,
    book: &Book,
    homes: &mut Vec<usize>,
    copies: fn(&Book, usize) -> usize,
) {
    let begin = deeper_of_two(random, book, homes);
    let trigger = homes[begin];
    if !book.is_trigger(trigger - 1) {
        return;
    }
    let group = trigger - 2;
    let holds =
        |home: &usize| *home != trigger && (group..book.end_of(group)).contains(&(home - 1));
    let inside = homes[begin + 1..].iter().take_while(|home| holds(home));
    let end = begin + 1 + inside.count();
    let instance = homes[begin..end].repeat(copies(book, group));
    homes.splice(end..end, instance);
}

fn depth_of(book: &Book, home: usize) -> usize {
    usize::from(book.lines[home - 1].depth)
}

/// A trigger stands for its group.
fn repeated_depth_of(book: &Book, home: usize) -> usize {
    depth_of(book, home) - usize::from(book.is_trigger(home - 1))
}
