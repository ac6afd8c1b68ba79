//! The placing against 01's own messages and against plainer definitions: every
//! short sequence of homes over many small books, and random long ones.

use super::definition::{begins, Definition};
use super::render::{plain_message, write_at_home, write_homeless};
use super::sequences::allowed_sequence;
use super::spoil::spoil;
use super::*;
use crate::book::edit::{insert_line, optional_group, optional_line, smallest_book};
use crate::book::generate::{good_book, nested_book, Size};
use crate::book::{check, Line};
use crate::enumeration::{for_each_text, ALPHABET};
use crate::random::Random;
use crate::reading::{self, read_segment};

const HEAD: &str = "UNH+1'BGM+7'RFF+Z13:10001'";

fn book_k() -> Book {
    check(include_bytes!("../../../../books/k.bin")).expect("a good book")
}

fn second_book() -> Book {
    check(include_bytes!("../../../../books/second.bin")).expect("a good book")
}

fn number_and_place(book: &Book, message: &str) -> (u32, usize) {
    let answer = Placer::new(book).place(message.as_bytes());
    (answer.number(), answer.place())
}

/// Tag offsets, line numbers, the tree.
fn tables(book: &Book, message: &[u8], length: usize) -> [Vec<u32>; 3] {
    let mut starts = vec![u32::MAX; length];
    let mut homes = starts.clone();
    let mut parents = starts.clone();
    Placer::new(book).write_tree(message, &mut starts, &mut homes, &mut parents);
    [starts, homes, parents]
}

#[test]
fn bench_messages_of_01_are_placed() {
    let place = |tail: &str| number_and_place(&book_k(), &format!("{HEAD}{tail}"));
    assert_eq!(place("UNT+4+1'"), (0, 4));
    assert_eq!(place("LIN+1'QTY+145:5'UNT+6+1'"), (0, 6));
    assert_eq!(place("LIN+1'QTY+145:5'LIN+2'UNT+7+1'"), (0, 7));
    assert_eq!(place("LIN+1'LIN+2'LIN+3'UNT+7+1'"), (11, 6));
    assert_eq!(place("QTY+145:5'LIN+1'UNT+6+1'"), (11, 4));
    let without_rff = "UNH+1'BGM+7'UNT+3+1'";
    assert_eq!(number_and_place(&book_k(), without_rff), (11, 3));
}

#[test]
fn a_bench_message_of_01_has_its_tree() {
    let message = format!("{HEAD}LIN+1'QTY+145:5'LIN+2'UNT+7+1'");
    let [starts, homes, parents] = tables(&book_k(), message.as_bytes(), 8);
    assert_eq!(starts, [0, 6, 12, 26, 32, 42, 48, u32::MAX]);
    assert_eq!(homes, [1, 2, 3, 5, 6, 5, 7, u32::MAX]);
    assert_eq!(parents, [0, 0, 0, 0, 4, 0, 0, u32::MAX]);
}

#[test]
fn a_trigger_points_to_the_trigger_of_its_parent_instance() {
    let homes = [
        1, 2, 4, 6, 8, 10, 12, 14, 16, 18, 20, 21, 20, 18, 22, 8, 10, 12,
    ];
    let message = plain_message(&second_book(), &homes);
    let [_, _, parents] = tables(&second_book(), &message, homes.len());
    let expected = [0, 0, 0, 3, 0, 5, 6, 7, 8, 9, 10, 11, 10, 9, 5, 0, 16, 17];
    assert_eq!(parents, expected);
}

#[test]
fn a_segment_without_a_home_comes_before_homes_that_are_not_allowed() {
    let place = |message: &str| number_and_place(&book_k(), message);
    assert_eq!(place("QTY'LIN'UNS'UNS'"), (10, 3));
    assert_eq!(place("QTY'LIN'"), (11, 1));
    assert_eq!(place("UNH'UNS"), (0, 1));
    assert_eq!(place(""), (0, 0));
}

#[test]
fn segments_end_before_a_needless_separator() {
    let place = |message: &str| number_and_place(&book_k(), message);
    for needless in ["BGM+'", "BGM+7:'", "BGM+7:+8'", "BGM+?:+'", "XYZ+'"] {
        assert_eq!(
            place(&format!("UNH+1'{needless}XYZ'")),
            (0, 1),
            "{needless}"
        );
    }
    assert_eq!(place("UNH+1'BGM+?:'XYZ'"), (10, 3));
    assert_eq!(place("UNH+1'BGM++:7'XYZ'"), (10, 3));
}

#[test]
fn only_the_value_at_the_selector_decides() {
    let book = second_book();
    let has_a_home = |segment: &str| number_and_place(&book, segment).0 != 10;
    assert!(has_a_home("NAD+MS'"));
    assert!(has_a_home("NAD+VY::X+MS'"));
    assert!(has_a_home("CCI+++Z16:?''"));
    for homeless in [
        "NAD'",
        "NAD+:MS'",
        "NAD++MS'",
        "NAD+M'",
        "NAD+MSX'",
        "NAD+ms'",
        "NAD+MS?''",
        "NAD+Z13'",
        "CCI+Z15'",
        "CCI++Z15'",
        "NAE+MS'",
    ] {
        assert_eq!(number_and_place(&book, homeless), (10, 1), "{homeless}");
    }
    for no_segment in ["nad+MS'", "NAD+'", "NAD+MS:'"] {
        assert_eq!(number_and_place(&book, no_segment), (0, 0), "{no_segment}");
    }
}

#[test]
fn the_shortest_table_says_how_much_is_written() {
    let message = format!("{HEAD}UNT+4+1'");
    let (mut starts, mut homes, mut parents) = ([9; 5], [9; 2], [9; 3]);
    let placer = Placer::new(&book_k());
    placer.write_tree(message.as_bytes(), &mut starts, &mut homes, &mut parents);
    assert_eq!(starts, [0, 6, 9, 9, 9]);
    assert_eq!(homes, [1, 2]);
    assert_eq!(parents, [0, 0, 9]);
}

// The segments, against the reading.

fn assert_segments_as_read(text: &[u8]) {
    let mut at = 0;
    for segment in Segments::of(text) {
        let read = read_segment(text, at).expect("a well-formed segment");
        assert_eq!((segment.start, segment.bytes), (at, &text[at..read.end]));
        assert_eq!(segment.tag(), read.tag);
        assert_components_as_read(text, segment, &read);
        at = read.end;
    }
    assert!(read_segment(text, at).is_err(), "{}", text.escape_ascii());
}

fn assert_components_as_read(text: &[u8], segment: segments::Segment, read: &reading::Segment) {
    for element in 0..=read.elements.len() + 1 {
        for component in 0..=4 {
            let expected = read
                .component(element, component)
                .map(|found| &text[found.start..found.end]);
            assert_eq!(segment.component(element, component), expected);
        }
    }
}

#[test]
fn short_texts_have_the_segments_that_the_reading_finds() {
    for beginning in [
        "",
        "AAA",
        "A1A+",
        "A1A+a:",
        "AAA+a:?'+",
        "AAA+a?::",
        "AAA+:a'A11",
    ] {
        for_each_text(&ALPHABET, beginning.as_bytes(), 5, &mut |text| {
            assert_segments_as_read(text)
        });
    }
}

// Homes, against the words of 01.

/// Every line that is the segment's home.
fn homes_in_words(book: &Book, segment: &reading::Segment) -> Vec<usize> {
    let is_home = |line: &Line| {
        line.segment().is_some_and(|line| {
            line.tag == segment.tag
                && line.selector.as_ref().is_none_or(|selector| {
                    let place = (selector.element.into(), selector.component.into());
                    segment.component(place.0, place.1).is_some_and(|found| {
                        book.codes[selector.codes.clone()].contains(&found.value)
                    })
                })
        })
    };
    let numbers = 1..=book.lines.len();
    numbers
        .filter(|number| is_home(&book.lines[number - 1]))
        .collect()
}

fn random_book(random: &mut Random, most_lines: usize) -> Book {
    let size = Size::random_lines(random, most_lines);
    good_book(random, &size)
}

#[test]
fn random_segments_have_the_home_that_01_gives_them() {
    let mut random = Random::from_seed(10);
    let mut homeless = 0;
    for _ in 0..400 {
        let most_lines = random.pick(&[7, 12, 40]);
        let book = random_book(&mut random, most_lines);
        let homes = Homes::of(&book);
        for _ in 0..100 {
            let wanted = spoil::any_home(&mut random, &book);
            let mut text = Vec::new();
            if random.chance(50) {
                write_at_home(&mut random, &book, wanted, &mut text);
                assert_eq!(homes.home(only_segment(&text)), Some(wanted));
            } else {
                write_homeless(&mut random, &book, &mut text);
            }
            let read = read_segment(&text, 0).expect("a well-formed segment");
            let expected = homes_in_words(&book, &read);
            assert!(expected.len() <= 1, "two homes");
            assert_eq!(homes.home(only_segment(&text)), expected.first().copied());
            homeless += usize::from(expected.is_empty());
            assert_segments_as_read(&text);
        }
    }
    assert!(homeless > 15_000, "{homeless}");
}

fn only_segment(text: &[u8]) -> segments::Segment<'_> {
    let segment = Segments::of(text).next().expect("a segment");
    assert_eq!(segment.bytes, text);
    segment
}

// The walk, against the definitions.

/// The smallest k whose first k homes the walk refuses, or the tree.
fn walked(outline: &Outline, homes: &[usize]) -> Result<Vec<u32>, usize> {
    let mut walk = Walk::new(outline);
    let mut tree = Vec::new();
    for (index, home) in homes.iter().enumerate() {
        tree.push(walk.advance(*home).map_err(|_| index + 1)?);
    }
    Ok(tree)
}

fn segment_lines(book: &Book) -> Vec<usize> {
    let numbers = 1..=book.lines.len();
    numbers
        .filter(|number| !book.lines[number - 1].is_group())
        .collect()
}

/// All sequences of homes up to a length, and longer ones as long as all but
/// their last home are allowed, held against the written definition.
struct Exhaustive<'a> {
    book: &'a Book,
    outline: Outline,
    definition: Definition,
    letters: Vec<usize>,
    /// Up to this length there is every sequence.
    longest_of_all: usize,
    sequences: usize,
    allowed: usize,
}

/// How many sequences of one book are worth the time, of all and of the allowed.
const MOST_OF_ALL: usize = 20_000;
const MOST_ALLOWED: usize = 2_000;
const LONGEST: usize = 9;

impl Exhaustive<'_> {
    fn of(book: &Book) -> Exhaustive<'_> {
        let letters = segment_lines(book);
        let lengths = (1..).take_while(|length| letters.len().pow(*length) <= MOST_OF_ALL);
        Exhaustive {
            book,
            outline: Outline::of(book),
            definition: longest_definition(book),
            longest_of_all: lengths.take(LONGEST).last().expect("a length") as usize,
            letters,
            sequences: 0,
            allowed: 0,
        }
    }

    /// The sequence and all that it begins. `refused` is the definition's
    /// smallest k among the shorter beginnings.
    fn compare(&mut self, homes: &mut Vec<usize>, refused: Option<usize>) {
        let tree = self.definition.tree(homes);
        let refused = match (refused, tree) {
            (None, None) => Some(homes.len()),
            _ => refused,
        };
        let expected = match refused {
            Some(place) => Err(place),
            None => Ok(tree.expect("a tree").to_vec()),
        };
        let answer = walked(&self.outline, homes);
        assert_eq!(answer, expected, "{homes:?} in {:?}", self.book);
        self.sequences += 1;
        self.allowed += usize::from(refused.is_none());
        if self.goes_on(homes.len(), refused) {
            for letter in self.letters.clone() {
                homes.push(letter);
                self.compare(homes, refused);
                homes.pop();
            }
        }
    }

    fn goes_on(&self, length: usize, refused: Option<usize>) -> bool {
        match refused {
            None => length < self.definition.longest(),
            Some(_) => length < self.longest_of_all.min(self.definition.longest()),
        }
    }

    /// Compares all and answers how many sequences, and how many were allowed.
    fn run(mut self) -> (usize, usize) {
        self.compare(&mut Vec::new(), None);
        assert_eq!(self.allowed, self.definition.beginnings());
        (self.sequences, self.allowed)
    }
}

/// As long as the allowed beginnings are not too many.
fn longest_definition(book: &Book) -> Definition {
    let mut definition = Definition::of(book, 1);
    while definition.longest() < LONGEST && definition.beginnings() < MOST_ALLOWED {
        definition = Definition::of(book, definition.longest() + 1);
    }
    definition
}

fn compare_exhaustively(books: impl Iterator<Item = Book>) {
    let mut sequences = 0;
    let mut allowed = 0;
    let mut count = 0;
    for book in books {
        let (more, more_allowed) = Exhaustive::of(&book).run();
        count += 1;
        sequences += more;
        allowed += more_allowed;
    }
    println!("{count} books, {sequences} sequences of homes, {allowed} of them allowed");
}

#[test]
fn every_short_sequence_of_the_given_books() {
    compare_exhaustively([book_k(), second_book(), smallest_book()].into_iter());
}

#[test]
fn every_short_sequence_of_small_random_books() {
    let mut random = Random::from_seed(11);
    compare_exhaustively((0..300).map(|_| {
        let most_lines = random.pick(&[5, 6, 7, 7, 8, 9]);
        random_book(&mut random, most_lines)
    }));
}

/// With each line required or not, and with maximum 1, 2 or 999,999, but for the
/// last line of the outer group.
#[test]
fn every_short_sequence_of_every_book_of_one_shape() {
    let manners: Vec<(bool, u32)> = [false, true]
        .into_iter()
        .flat_map(|required| [1, 2, 999_999].map(|maximum| (required, maximum)))
        .collect();
    let mut books = Vec::new();
    for outer in &manners {
        for inner in &manners {
            for held in &manners {
                for last in [(false, 1), (true, 1)] {
                    books.push(book_of_the_shape([*outer, *inner, *held, last]));
                }
            }
        }
    }
    compare_exhaustively(books.into_iter());
}

/// UNH, a group, and UNT. The group holds a group, which holds a segment line,
/// and after it a segment line of its own.
fn book_of_the_shape(manners: [(bool, u32); 4]) -> Book {
    let mut book = smallest_book();
    let [outer, outer_trigger] = optional_group(*b"AAA", 0);
    let [inner, inner_trigger] = optional_group(*b"BBB", 1);
    let held = optional_line(*b"CCC", 2);
    let last = optional_line(*b"DDD", 1);
    let lines = [outer, outer_trigger, inner, inner_trigger, held, last];
    for (place, line) in lines.into_iter().enumerate() {
        insert_line(&mut book, place + 1, line);
    }
    for (index, (required, maximum)) in [1, 3, 5, 6].into_iter().zip(manners) {
        book.lines[index].required = required;
        book.lines[index].maximum = maximum;
    }
    book
}

/// "The tree gives for each segment the trigger's segment number of the
/// innermost instance holding it": in an allowed sequence, the last trigger of
/// the innermost group around it.
fn tree_in_words(book: &Book, homes: &[usize]) -> Vec<u32> {
    let mut tree = Vec::new();
    for (index, home) in homes.iter().enumerate() {
        let line = home - 1;
        let own_group = usize::from(book.is_trigger(line));
        let around = book.groups_around(line);
        let holder = around.get(own_group).map(|group| group + 2);
        let trigger = holder.and_then(|trigger| homes[..index].iter().rposition(|h| *h == trigger));
        tree.push(trigger.map_or(0, |index| index as u32 + 1));
    }
    tree
}

/// What the walk says of the homes, held against the plain definitions.
fn assert_walked_as_defined(book: &Book, outline: &Outline, homes: &[usize]) {
    match walked(outline, homes) {
        Ok(tree) => {
            assert_eq!(tree, tree_in_words(book, homes));
            assert!(begins(book, homes));
        }
        Err(place) => {
            assert!(begins(book, &homes[..place - 1]));
            assert!(!begins(book, &homes[..place]));
        }
    }
}

fn random_or_nested_book(random: &mut Random) -> Book {
    if random.chance(30) {
        let deepest = random.between(2, 7) as u8;
        nested_book(random, deepest)
    } else {
        let most_lines = random.pick(&[12, 20, 40, 80]);
        random_book(random, most_lines)
    }
}

#[test]
fn random_sequences_are_walked_as_the_definition_says() {
    let mut random = Random::from_seed(12);
    let mut met = vec![0; Refusal::EVERY.len()];
    for _ in 0..600 {
        let book = random_or_nested_book(&mut random);
        let placer = Placer::new(&book);
        for _ in 0..20 {
            let wanted = random.between(3, 60);
            let mut homes = allowed_sequence(&mut random, &book, wanted);
            assert!(walked(&placer.outline, &homes).is_ok());
            assert_walked_as_defined(&book, &placer.outline, &homes);
            for _ in 0..random.between(1, 3) {
                spoil(&mut random, &book, &mut homes);
            }
            assert_walked_as_defined(&book, &placer.outline, &homes);
            let answer = placer.place(&plain_message(&book, &homes));
            if let Answer::Refused { refusal, .. } = answer {
                met[refusal as usize] += 1;
            }
        }
    }
    for refusal in Refusal::EVERY {
        let count = met[*refusal as usize];
        println!("{count:>6}  {}", refusal.description());
        assert!(count >= 100, "{refusal:?}: {count}");
    }
}

/// The two definitions agree, so that neither is wrong alone.
#[test]
fn the_definitions_agree() {
    let mut random = Random::from_seed(13);
    for _ in 0..40 {
        let book = random_book(&mut random, 8);
        let definition = Definition::of(&book, 5);
        let letters: Vec<u8> = segment_lines(&book)
            .iter()
            .map(|home| *home as u8)
            .collect();
        let longest = if letters.len() > 5 { 4 } else { 5 };
        for_each_text(&letters, &[], longest, &mut |text| {
            let homes: Vec<usize> = text.iter().map(|letter| usize::from(*letter)).collect();
            let is_written = definition.tree(&homes).is_some();
            assert_eq!(begins(&book, &homes), is_written, "{homes:?} in {book:?}");
        });
    }
}
