//! Tables that are lent to the archive, with entries around them that must stay
//! as they are.

/// The three tables of a message.
pub const TABLE_NAMES: [&str; 3] = ["starts", "homes", "parents"];

/// Entries on either side of a lent table.
pub const MARGIN: usize = 2;

/// No entry of any table, and no number of a record.
pub const CANARY: u32 = 0xA5A5_A5A5;

/// A table of so many entries that nobody has written to, with its margins.
pub fn empty_table(length: usize) -> Vec<u32> {
    vec![CANARY; MARGIN + length + MARGIN]
}

/// The table without its margins.
pub fn lent(table: &mut [u32]) -> &mut [u32] {
    let end = table.len() - MARGIN;
    &mut table[MARGIN..end]
}

/// From 1, as segments; 0 and less lie before the table. The index counts from
/// the margin's start.
pub fn entry_number(index: usize) -> isize {
    index as isize - MARGIN as isize + 1
}

pub fn entry_in_words(entry: u32) -> String {
    match entry {
        CANARY => "as it was".to_string(),
        entry => entry.to_string(),
    }
}
