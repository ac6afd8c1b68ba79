//! The kinds of cases a run must meet, so that it cannot pass without having
//! looked, and how many of each it met.

use independent::bytes::Service;
use independent::described;
use independent::judging::{Record, LONGEST_MESSAGE, MOST_SEGMENTS};
use independent::machine::{state_after, State};
use independent::pieces::{Answer, Asked, Call, Pieces, GOES_ON, NO_STATE};

described! {
    /// Behind the colon stands the answer.
    Kind {
        Empty: "piece: goes on, no bytes",
        NoEnd: "piece: goes on, no segment's end",
        Written: "piece: goes on, starts are written",
        NoEntry: "piece: goes on, a start finds no entry",
        BehindFault: "piece: goes on, behind a fault",
        BehindMostSegments: "piece: goes on, behind 999,999 segments",
        BehindMostBytes: "piece: goes on, behind 16,777,216 bytes",
        PieceWithoutState: "piece: no state",
        PieceWithoutStateAfterEnd: "piece: no state, after the end",
        PieceAfter0: "piece after the end: 0",
        PieceAfter3: "piece after the end: 3",
        PieceAfter4: "piece after the end: 4",
        PieceAfter5: "piece after the end: 5",
        PieceAfter6: "piece after the end: 6",
        Accepted: "end: 0, every table had n entries",
        AcceptedGrown: "end: 0, the last table had n entries, another fewer",
        AcceptedShrunk: "end: 0, the last table had fewer than n entries",
        NoBytes: "end: 3, no bytes",
        TooLong: "end: 3, too long alone",
        TooLongAndCut: "end: 3, too long, and cut",
        TooLongAndFault: "end: 3, too long, and a fault",
        TooLongAndTooMany: "end: 3, too long, and too many segments",
        Fault: "end: 4, a fault",
        Cut: "end: 4, cut",
        FaultAndNoEntry: "end: 4, and a start found no entry",
        FaultAndTooMany: "end: 4, and too many segments",
        TooMany: "end: 5",
        TooManyAndNoEntry: "end: 5, and a start found no entry",
        TooShort: "end: 6, no table had n entries",
        TooShortGrown: "end: 6, the last table had n entries",
        TooShortShrunk: "end: 6, another table had n entries",
        EndWithoutState: "end: no state",
        EndWithoutStateAfterEnd: "end: no state, after the end",
        EndAfter0: "end after the end: 0",
        EndAfter3: "end after the end: 3",
        EndAfter4: "end after the end: 4",
        EndAfter5: "end after the end: 5",
        EndAfter6: "end after the end: 6",
    }
}

impl Kind {
    /// By the message after the call, whether it had ended before, and how long
    /// it was.
    fn of(pieces: &Pieces, was_ended: bool, before: usize, call: Call, answer: Answer) -> Kind {
        let is_piece = call.asked != Asked::End;
        match answer {
            Answer::NoState => Kind::without_state(is_piece, was_ended),
            Answer::Ended(record) if was_ended && is_piece => Kind::of_piece_after(record),
            Answer::Ended(record) if was_ended => Kind::of_end_after(record),
            Answer::Ended(record) => Kind::of_end(pieces, record),
            Answer::GoesOn => Kind::of_piece(pieces, before),
        }
    }

    fn without_state(is_piece: bool, was_ended: bool) -> Kind {
        match (is_piece, was_ended) {
            (true, false) => Kind::PieceWithoutState,
            (true, true) => Kind::PieceWithoutStateAfterEnd,
            (false, false) => Kind::EndWithoutState,
            (false, true) => Kind::EndWithoutStateAfterEnd,
        }
    }

    fn of_piece(pieces: &Pieces, before: usize) -> Kind {
        let whole = pieces.whole();
        let earlier = whole.finished.partition_point(|one| one.end <= before);
        let finished = &whole.finished[earlier..];
        if pieces.text().len() == before {
            Kind::Empty
        } else if before >= LONGEST_MESSAGE {
            Kind::BehindMostBytes
        } else if whole.fault.is_some_and(|place| place < before) {
            Kind::BehindFault
        } else if earlier == MOST_SEGMENTS {
            Kind::BehindMostSegments
        } else if finished.is_empty() {
            Kind::NoEnd
        } else if finished.iter().all(|segment| segment.has_entry) {
            Kind::Written
        } else {
            Kind::NoEntry
        }
    }

    fn of_end(pieces: &Pieces, record: Record) -> Kind {
        let whole = pieces.whole();
        let is_cut = whole.fault == Some(pieces.text().len());
        let has_too_many = whole.segments > MOST_SEGMENTS;
        match record.number {
            3 if pieces.text().is_empty() => Kind::NoBytes,
            3 if has_too_many => Kind::TooLongAndTooMany,
            3 if is_cut => Kind::TooLongAndCut,
            3 if whole.fault.is_some() => Kind::TooLongAndFault,
            3 => Kind::TooLong,
            4 if has_too_many => Kind::FaultAndTooMany,
            4 if !whole.has_every_start() => Kind::FaultAndNoEntry,
            4 if is_cut => Kind::Cut,
            4 => Kind::Fault,
            5 if !whole.has_every_start() => Kind::TooManyAndNoEntry,
            5 => Kind::TooMany,
            6 => Kind::of_too_short(pieces, whole.segments),
            _ => Kind::of_accepted(pieces, whole.segments),
        }
    }

    fn of_accepted(pieces: &Pieces, n: usize) -> Kind {
        if pieces.tables().all(|entries| entries >= n) {
            Kind::Accepted
        } else if pieces.tables().last() >= Some(n) {
            Kind::AcceptedGrown
        } else {
            Kind::AcceptedShrunk
        }
    }

    fn of_too_short(pieces: &Pieces, n: usize) -> Kind {
        if pieces.tables().all(|entries| entries < n) {
            Kind::TooShort
        } else if pieces.tables().last() >= Some(n) {
            Kind::TooShortGrown
        } else {
            Kind::TooShortShrunk
        }
    }

    fn of_piece_after(record: Record) -> Kind {
        match record.number {
            3 => Kind::PieceAfter3,
            4 => Kind::PieceAfter4,
            5 => Kind::PieceAfter5,
            6 => Kind::PieceAfter6,
            _ => Kind::PieceAfter0,
        }
    }

    fn of_end_after(record: Record) -> Kind {
        match record.number {
            3 => Kind::EndAfter3,
            4 => Kind::EndAfter4,
            5 => Kind::EndAfter5,
            6 => Kind::EndAfter6,
            _ => Kind::EndAfter0,
        }
    }
}

described! {
    /// What a piece with bytes leaves open.
    Open {
        Start: "between segments",
        Second: "behind a tag's first byte",
        Third: "behind a tag's second byte",
        Tagged: "behind a tag",
        Opened: "behind `+`",
        Parted: "behind `:`",
        Inside: "behind data",
        Released: "in a release pair",
        Dead: "behind a fault",
    }
}

impl Open {
    /// From the last segment's end on nothing is known yet.
    fn after(pieces: &Pieces) -> Open {
        let finished = &pieces.whole().finished;
        let end = finished.last().map_or(0, |segment| segment.end);
        match state_after(Service::STANDARD, &pieces.text()[end..]) {
            State::Start => Open::Start,
            State::Second => Open::Second,
            State::Third => Open::Third,
            State::Tagged => Open::Tagged,
            State::Opened => Open::Opened,
            State::Parted => Open::Parted,
            State::Inside => Open::Inside,
            State::Released => Open::Released,
            State::Dead => Open::Dead,
        }
    }
}

/// What calls on a state of any numbers are answered.
pub const ANSWERS: [u32; 6] = [GOES_ON, 0, 3, 4, 5, 6];

pub fn answer_in_words(answer: u32) -> String {
    match answer {
        GOES_ON => "GOES_ON".to_string(),
        NO_STATE => "NO_STATE".to_string(),
        number => number.to_string(),
    }
}

pub struct Counts {
    by_kind: Vec<u64>,
    by_open: Vec<u64>,
    brought: u64,
    on_any_state: [u64; ANSWERS.len()],
    histories: u64,
}

impl Counts {
    pub fn new() -> Counts {
        Counts {
            by_kind: vec![0; Kind::EVERY.len()],
            by_open: vec![0; Open::EVERY.len()],
            brought: 0,
            on_any_state: [0; ANSWERS.len()],
            histories: 0,
        }
    }

    pub fn add(
        &mut self,
        pieces: &Pieces,
        was_ended: bool,
        before: usize,
        call: Call,
        answer: Answer,
    ) {
        let kind = Kind::of(pieces, was_ended, before, call, answer);
        self.by_kind[kind as usize] += 1;
        if answer == Answer::GoesOn && kind != Kind::Empty {
            self.by_open[Open::after(pieces) as usize] += 1;
        }
        let is_first_end = call.asked == Asked::End && !was_ended && answer != Answer::NoState;
        self.histories += u64::from(is_first_end);
    }

    /// One of many pieces of which answer and record alone are compared.
    pub fn add_brought(&mut self) {
        self.brought += 1;
    }

    /// A call on a state of any numbers.
    pub fn add_on_any_state(&mut self, answer: u32) {
        let index = ANSWERS.iter().position(|known| *known == answer);
        self.on_any_state[index.expect("one of them")] += 1;
    }

    pub fn calls(&self) -> u64 {
        let on_any_state: u64 = self.on_any_state.iter().sum();
        self.by_kind.iter().sum::<u64>() + self.brought + on_any_state
    }

    pub fn histories(&self) -> u64 {
        self.histories
    }

    pub fn print(&self) {
        for (kind, count) in Kind::EVERY.iter().zip(&self.by_kind) {
            println!("{count:>9}  {}", kind.description());
        }
        println!(
            "{:>9}  pieces of which answer and record alone are compared",
            self.brought
        );
        println!("compare_pieces: cuts");
        for (open, count) in Open::EVERY.iter().zip(&self.by_open) {
            println!("{count:>9}  {}", open.description());
        }
        let answers = ANSWERS.into_iter().zip(self.on_any_state);
        let words: Vec<String> = answers
            .map(|(answer, count)| format!("{count} times {}", answer_in_words(answer)))
            .collect();
        println!("compare_pieces: on any numbers {}", words.join(", "));
    }

    /// A kind that was not met.
    pub fn first_missing(&self) -> Option<&'static str> {
        let kinds = Kind::EVERY.iter().map(|kind| kind.description());
        let cuts = Open::EVERY.iter().map(|open| open.description());
        let mut counted = kinds.zip(&self.by_kind).chain(cuts.zip(&self.by_open));
        let missing = counted.find(|(_, count)| **count == 0);
        missing.map(|(description, _)| description)
    }
}
