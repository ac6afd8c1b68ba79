//! What the comparing programs are called with.

use crate::book::{check, Book};

/// Where random inputs begin if nothing is said.
pub const DEFAULT_SEED: u64 = 9735;

pub struct BooksAndSeed {
    pub books: [String; 2],
    pub seed: u64,
}

impl BooksAndSeed {
    /// The books by their paths; why one of them cannot be taken, if so.
    pub fn good_books(&self) -> Result<Vec<(String, Book)>, String> {
        let named = |path: &String| match read_book(path) {
            Ok(book) => Ok((path.clone(), book)),
            Err(error) => Err(format!("{path}: {error}")),
        };
        self.books.iter().map(named).collect()
    }
}

fn read_book(path: &str) -> Result<Book, String> {
    let bytes = std::fs::read(path).map_err(|error| error.to_string())?;
    check(&bytes).map_err(|fault| format!("malformed: {fault:?}"))
}

/// `[SEED]`, or nothing if the words are others.
pub fn seed() -> Option<u64> {
    read_seed_at_the_end(&mut std::env::args().skip(1))
}

/// `BOOK BOOK [SEED]`, or nothing if the words are others.
pub fn books_and_seed() -> Option<BooksAndSeed> {
    let mut words = std::env::args().skip(1);
    let books = [words.next()?, words.next()?];
    let seed = read_seed_at_the_end(&mut words)?;
    Some(BooksAndSeed { books, seed })
}

fn read_seed_at_the_end(words: &mut impl Iterator<Item = String>) -> Option<u64> {
    let seed = match words.next() {
        Some(word) => word.parse().ok()?,
        None => DEFAULT_SEED,
    };
    words.next().is_none().then_some(seed)
}
