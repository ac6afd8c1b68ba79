//! Safe calls into the proved archives. The declarations are the boundary: the
//! linker does not check them, so they stand here once, next to the words of
//! what each call answers.

mod declared {
    extern "C" {
        pub fn tracksaddle_find_component(
            message: *const u8,
            message_len: usize,
            at: usize,
            element: usize,
            component: usize,
            part: *mut usize,
            part_len: usize,
        );
        pub fn tracksaddle_check_book(book: *const u8, book_len: usize) -> u32;
        pub fn tracksaddle_judge(
            message: *const u8,
            message_len: usize,
            book: *const u8,
            book_len: usize,
            conditions: *const u8,
            conditions_len: usize,
            starts: *mut u32,
            starts_len: usize,
            homes: *mut u32,
            homes_len: usize,
            parents: *mut u32,
            parents_len: usize,
            record: *mut u32,
            record_len: usize,
        ) -> u32;
        pub fn tracksaddle_read_piece(
            reading: *mut usize,
            reading_len: usize,
            piece: *const u8,
            piece_len: usize,
            starts: *mut u32,
            starts_len: usize,
            record: *mut u32,
            record_len: usize,
        ) -> u32;
        pub fn tracksaddle_read_end(
            reading: *mut usize,
            reading_len: usize,
            record: *mut u32,
            record_len: usize,
        ) -> u32;
        pub fn tracksaddle_tally_add(tally: *mut u8, tally_len: usize, number: u32) -> u32;
        pub fn tracksaddle_tally_clear(tally: *mut u8, tally_len: usize) -> u32;
        pub fn probe_message(message: *const u8, message_len: usize) -> u64;
        pub fn probe_next(message: *const u8, message_len: usize, at: usize) -> usize;
        pub fn probe_place(
            message: *const u8,
            message_len: usize,
            segments: u32,
            book: *const u8,
            book_len: usize,
        ) -> u64;
        pub fn probe_write_tree(
            message: *const u8,
            message_len: usize,
            segments: u32,
            book: *const u8,
            book_len: usize,
            starts: *mut u32,
            starts_len: usize,
            homes: *mut u32,
            homes_len: usize,
            parents: *mut u32,
            parents_len: usize,
        );
    }
}

/// Writes the component's offset and length into `part`, as many as fit.
pub fn find_component(
    message: &[u8],
    at: usize,
    element: usize,
    component: usize,
    part: &mut [usize],
) {
    // SAFETY: pointers and lengths come from slices, which are valid for the
    // call and, one of them being mutable, do not overlap. Which of the other
    // calls below lend further slices to be written is said there.
    unsafe {
        declared::tracksaddle_find_component(
            message.as_ptr(),
            message.len(),
            at,
            element,
            component,
            part.as_mut_ptr(),
            part.len(),
        )
    }
}

/// The table's number for the book alone: 1 malformed, 0 otherwise.
pub fn check_book(book: &[u8]) -> u32 {
    // SAFETY: as above.
    unsafe { declared::tracksaddle_check_book(book.as_ptr(), book.len()) }
}

/// The verdict's number. Writes tag offsets, line numbers and the tree into the
/// first three tables, unless the number is 1 to 11, and the record's six
/// numbers into the last one, as many as fit.
pub fn judge(
    message: &[u8],
    book: &[u8],
    conditions: &[u8],
    [starts, homes, parents]: [&mut [u32]; 3],
    record: &mut [u32],
) -> u32 {
    // SAFETY: as above; the four tables, each mutable, do not overlap either.
    unsafe {
        declared::tracksaddle_judge(
            message.as_ptr(),
            message.len(),
            book.as_ptr(),
            book.len(),
            conditions.as_ptr(),
            conditions.len(),
            starts.as_mut_ptr(),
            starts.len(),
            homes.as_mut_ptr(),
            homes.len(),
            parents.as_mut_ptr(),
            parents.len(),
            record.as_mut_ptr(),
            record.len(),
        )
    }
}

/// One more piece of a message: GOES_ON, NO_STATE, or after the end its number,
/// which is written into the record with its place, as many entries as fit.
/// Where segments finish in this piece, their starts go into the table.
pub fn read_piece(
    reading: &mut [usize],
    piece: &[u8],
    starts: &mut [u32],
    record: &mut [u32],
) -> u32 {
    // SAFETY: as above; state, table and record, each mutable, do not overlap
    // either.
    unsafe {
        declared::tracksaddle_read_piece(
            reading.as_mut_ptr(),
            reading.len(),
            piece.as_ptr(),
            piece.len(),
            starts.as_mut_ptr(),
            starts.len(),
            record.as_mut_ptr(),
            record.len(),
        )
    }
}

/// The message's end: its number, which is written into the record with its
/// place, as many entries as fit; or NO_STATE.
pub fn read_end(reading: &mut [usize], record: &mut [u32]) -> u32 {
    // SAFETY: as above; state and record, each mutable, do not overlap.
    unsafe {
        declared::tracksaddle_read_end(
            reading.as_mut_ptr(),
            reading.len(),
            record.as_mut_ptr(),
            record.len(),
        )
    }
}

/// 0 if one was added to the number's count, otherwise the refusal 1 to 3, which
/// changes nothing.
pub fn tally_add(tally: &mut [u8], number: u32) -> u32 {
    // SAFETY: as above; nothing but the one slice is lent.
    unsafe { declared::tracksaddle_tally_add(tally.as_mut_ptr(), tally.len(), number) }
}

/// 0 if every count was made 0, otherwise the refusal 1, which changes nothing.
pub fn tally_clear(tally: &mut [u8]) -> u32 {
    // SAFETY: as above; nothing but the one slice is lent.
    unsafe { declared::tracksaddle_tally_clear(tally.as_mut_ptr(), tally.len()) }
}

/// Each of the tables that [`judge_message`] supposes has so many entries.
pub const SUPPOSED_ENTRIES: usize = 1_000_000;

/// Of the message alone, the table's number 3 to 9 and its place, or 0 and the
/// segment count.
pub fn judge_message(message: &[u8]) -> (u32, u32) {
    // SAFETY: as above.
    number_and_place(unsafe { declared::probe_message(message.as_ptr(), message.len()) })
}

/// The offset after the well-formed segment that starts at `at`, 0 if none does.
pub fn next(message: &[u8], at: usize) -> usize {
    // SAFETY: as above.
    unsafe { declared::probe_next(message.as_ptr(), message.len(), at) }
}

/// The table's number 10 or 11 and its place, or 0 and `segments`, for the first
/// so many segments, as far as they are well-formed. No other number is asked.
pub fn place(message: &[u8], segments: u32, book: &[u8]) -> (u32, u32) {
    // SAFETY: as above.
    number_and_place(unsafe {
        declared::probe_place(
            message.as_ptr(),
            message.len(),
            segments,
            book.as_ptr(),
            book.len(),
        )
    })
}

/// The number in the upper half of an answer, the place in the lower.
fn number_and_place(answer: u64) -> (u32, u32) {
    ((answer >> 32) as u32, answer as u32)
}

/// Writes tag offsets, line numbers and the tree, for the first so many
/// segments, as many as there are and as fit into each table.
pub fn write_tree(
    message: &[u8],
    segments: u32,
    book: &[u8],
    starts: &mut [u32],
    homes: &mut [u32],
    parents: &mut [u32],
) {
    // SAFETY: as above; the three tables, each mutable, do not overlap either.
    unsafe {
        declared::probe_write_tree(
            message.as_ptr(),
            message.len(),
            segments,
            book.as_ptr(),
            book.len(),
            starts.as_mut_ptr(),
            starts.len(),
            homes.as_mut_ptr(),
            homes.len(),
            parents.as_mut_ptr(),
            parents.len(),
        )
    }
}
