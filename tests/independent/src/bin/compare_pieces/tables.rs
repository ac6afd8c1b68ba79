//! What is lent to the archive: parts of memory that must stay as it is around
//! them.

use independent::archives;
use independent::lent::{empty_table, CANARY, MARGIN};
use independent::pieces::{Asked, Call, READING_ENTRIES};
use independent::random::Random;

/// The state begins at one of so many addresses in a row.
const ADDRESSES: usize = 4;
/// Entries that are lent as the record at most; one more than it has.
pub const MOST_RECORD: usize = 7;
const RECORD_ROOM: usize = MARGIN + MOST_RECORD + MARGIN;
pub const UNTOUCHED_RECORD: [u32; RECORD_ROOM] = [CANARY; RECORD_ROOM];

/// How many entries can be lent at most.
#[derive(Clone, Copy)]
pub struct Room {
    pub starts: usize,
    pub reading: usize,
}

impl Room {
    /// As many numbers may be lent as a state that are 8 in 8 bits.
    pub fn for_starts(starts: usize) -> Room {
        Room {
            starts,
            reading: 256 + READING_ENTRIES,
        }
    }
}

/// Each begins before what is lent and ends behind it.
#[derive(Clone)]
pub struct Tables {
    pub reading: Vec<usize>,
    /// The index of the state's first entry.
    pub state_at: usize,
    pub starts: Vec<u32>,
    pub record: [u32; RECORD_ROOM],
}

pub type State = [usize; READING_ENTRIES];

/// "all zeros is a message not yet begun"
pub const NOT_YET_BEGUN: State = [0; READING_ENTRIES];

impl Tables {
    /// The state amid numbers of any kind.
    pub fn new(random: &mut Random, state: State, room: Room) -> Tables {
        let reading_room = MARGIN + ADDRESSES + room.reading + MARGIN;
        let mut tables = Tables {
            reading: (0..reading_room).map(|_| any_number(random)).collect(),
            state_at: MARGIN + random.below(ADDRESSES),
            starts: empty_table(room.starts),
            record: UNTOUCHED_RECORD,
        };
        *tables.state_mut() = state;
        tables
    }

    pub fn most_starts(&self) -> usize {
        self.starts.len() - 2 * MARGIN
    }

    /// Of numbers that can be lent as a state.
    pub fn most_reading(&self) -> usize {
        self.reading.len() - 2 * MARGIN - ADDRESSES
    }

    pub fn state(&self) -> State {
        let state = self.reading[self.state_at..].first_chunk();
        *state.expect("there is room for a state")
    }

    pub fn state_mut(&mut self) -> &mut State {
        let state = self.reading[self.state_at..].first_chunk_mut();
        state.expect("there is room for a state")
    }

    /// The archive's answer, with a record of so many entries, which nobody has
    /// written to before.
    pub fn ask(&mut self, call: Call, record: usize) -> u32 {
        self.record = UNTOUCHED_RECORD;
        let reading = &mut self.reading[self.state_at..][..call.reading];
        let record = &mut self.record[MARGIN..][..record];
        match call.asked {
            Asked::Piece { bytes, entries } => {
                let starts = &mut self.starts[MARGIN..][..entries];
                archives::read_piece(reading, bytes, starts, record)
            }
            Asked::End => archives::read_end(reading, record),
        }
    }

    /// Writes what a record of so many entries gets.
    pub fn expect_record(&mut self, record: usize, entries: &[u32]) {
        self.record = UNTOUCHED_RECORD;
        let fitting = record.min(entries.len());
        self.record[MARGIN..][..fitting].copy_from_slice(&entries[..fitting]);
    }
}

pub fn any_number(random: &mut Random) -> usize {
    random.below(usize::MAX)
}
