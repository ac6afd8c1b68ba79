//! A book to be put to the archive, and what a message's answers must be.

use independent::book::encode::encode;
use independent::book::{check, decode, Book};
use independent::placing::homes::{Homeless, Homes};
use independent::placing::segments::Segments;
use independent::placing::{Answer, Placer, NO_HOME};

pub struct Subject {
    pub name: String,
    pub bytes: Vec<u8>,
    known: Known,
}

/// How far 01 says what must come out.
enum Known {
    Good {
        book: Box<Book>,
        placer: Placer,
        homes: Homes,
    },
    /// Only rules between records are broken: the home is the first line that
    /// fits, and what follows from it is open.
    Records {
        homes: Homes,
    },
    Nothing,
}

/// What must come out for a message.
pub struct Expected {
    pub verdict: Verdict,
    pub starts: Vec<u32>,
    /// If clear.
    pub homes: Option<Vec<u32>>,
    /// If clear.
    pub parents: Option<Vec<u32>>,
    /// Why the first segment without a home has none.
    pub homeless: Option<Homeless>,
}

#[derive(Clone, Copy, Debug, PartialEq, Eq)]
pub enum Verdict {
    Exactly(Answer),
    /// The book is malformed, and the first segment without a home is this.
    HomelessAt(usize),
    /// The book is malformed, and every segment has a home: 0 or 11.
    EveryHome,
    /// The book is malformed so that homes are not clear: 0, 10 or 11.
    Open,
}

impl Subject {
    pub fn good(name: String, book: Book) -> Subject {
        let bytes = encode(&book);
        assert_eq!(check(&bytes).err(), None, "{name} should be a good book");
        Subject {
            name,
            bytes,
            known: Known::Good {
                placer: Placer::new(&book),
                homes: Homes::of(&book),
                book: Box::new(book),
            },
        }
    }

    /// Any bytes, good or not.
    pub fn from_bytes(name: String, bytes: Vec<u8>) -> Subject {
        if let Ok(book) = check(&bytes) {
            return Subject::good(name, book);
        }
        let known = match decode(&bytes) {
            Ok(book) => Known::Records {
                homes: Homes::of(&book),
            },
            Err(_) => Known::Nothing,
        };
        Subject { name, bytes, known }
    }

    /// The book, which must be good.
    pub fn book(&self) -> &Book {
        match &self.known {
            Known::Good { book, .. } => book,
            _ => panic!("{} is not a good book", self.name),
        }
    }

    pub fn last_line(&self) -> u32 {
        self.book().lines.len() as u32
    }

    pub fn expected(&self, message: &[u8]) -> Expected {
        let starts = Segments::of(message).map(|segment| segment.start as u32);
        let mut expected = Expected {
            verdict: Verdict::Open,
            starts: starts.collect(),
            homes: None,
            parents: None,
            homeless: None,
        };
        match &self.known {
            Known::Good { placer, homes, .. } => {
                expected.add_homes(homes, message);
                expected.add_placing(placer, message);
            }
            Known::Records { homes } => expected.add_homes(homes, message),
            Known::Nothing => {}
        }
        expected
    }
}

impl Expected {
    fn add_homes(&mut self, homes: &Homes, message: &[u8]) {
        let mut numbers = Vec::with_capacity(self.starts.len());
        self.verdict = Verdict::EveryHome;
        for segment in Segments::of(message) {
            let home = homes.home(segment);
            numbers.push(home.map_or(NO_HOME, |line| line as u32));
            if home.is_none() && self.homeless.is_none() {
                self.homeless = Some(homes.why_homeless(segment));
                self.verdict = Verdict::HomelessAt(numbers.len());
            }
        }
        self.homes = Some(numbers);
    }

    fn add_placing(&mut self, placer: &Placer, message: &[u8]) {
        let answer = placer.place(message);
        self.verdict = Verdict::Exactly(answer);
        if let Answer::Begins { segments } = answer {
            assert_eq!(segments, self.starts.len());
            self.add_tree(placer, message);
        }
    }

    fn add_tree(&mut self, placer: &Placer, message: &[u8]) {
        let [mut starts, mut homes, mut parents] = [(); 3].map(|()| vec![0; self.starts.len()]);
        placer.write_tree(message, &mut starts, &mut homes, &mut parents);
        assert_eq!(starts, self.starts);
        assert_eq!(Some(homes), self.homes);
        self.parents = Some(parents);
    }
}

impl Verdict {
    /// Whether the archive may answer this number and place for so many
    /// segments. Number 0 names as many as it was asked for.
    pub fn allows(self, answered: (u32, usize), segments: usize, asked: usize) -> bool {
        let (number, place) = answered;
        let is_plausible = match number {
            0 => place == asked,
            10 | 11 => (1..=segments).contains(&place),
            _ => false,
        };
        is_plausible
            && match self {
                Verdict::Exactly(Answer::Begins { .. }) => number == 0,
                Verdict::Exactly(answer) => (answer.number(), answer.place()) == answered,
                Verdict::HomelessAt(first) => (10, first) == answered,
                Verdict::EveryHome => number != 10,
                Verdict::Open => true,
            }
    }

    pub fn in_words(self) -> String {
        match self {
            Verdict::Exactly(Answer::Begins { .. }) => "0, place as many as asked for".to_string(),
            Verdict::Exactly(Answer::Homeless { place }) => format!("10, place {place}"),
            Verdict::Exactly(Answer::Refused { place, refusal }) => {
                format!("11, place {place}: {}", refusal.description())
            }
            Verdict::HomelessAt(place) => format!("10, place {place} (malformed book)"),
            Verdict::EveryHome => "0 or 11 (malformed book, every segment has a home)".to_string(),
            Verdict::Open => "0, 10 or 11 with a place that exists (malformed book)".to_string(),
        }
    }
}
