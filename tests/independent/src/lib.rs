//! The judge from the outside: what 01 says of messages, written a second time
//! in ordinary Rust by other hands, so that the proved archives can be compared
//! with it.
//!
//! - [`bytes`]: service characters, data bytes, tag bytes
//! - [`reading`]: the independent reading of a message
//! - [`content`]: tags and values without their text, written again (T-11)
//! - [`book`]: the independent check of a guide book, random good books, and
//!   ways to break each rule
//! - [`placing`]: the independent placing of segments, random messages for a
//!   book, and ways to break their order
//! - [`judging`]: the independent judge, quick and once more by definitions,
//!   random messages that fit a book, and ways to break them
//! - [`tally`]: the independent tally, what must add up in it, and random calls
//!   (T-06)
//! - [`pieces`]: the independent reading of a message in pieces, and random ways
//!   to cut a text and to lend tables (T-09)
//! - [`machine`]: the state machine over bytes, for number 4's place
//! - [`archives`]: safe calls into the proved archives
//! - [`enumeration`], [`envelope`], [`random`], [`writing`], [`breaking`]: where
//!   the compared texts come from
//! - [`needless`]: separators that T-05 forbids, told apart and counted
//! - [`planned`], [`lengthy`]: books and long messages that benchmarks and
//!   comparisons are run over
//! - [`arguments`], [`lent`], [`times`], [`difference`], [`described`]: what the
//!   programs are called with, lend, measure, leave behind and print
//!
//! `cargo test` tests the judge itself and needs no archive. The programs link
//! `libtracksaddle.a` and `libprobe.a` from the folder that
//! `TRACKSADDLE_ARCHIVES` names by its absolute path. In the repository's root:
//!
//! ```text
//! tools/host_archives target/host tracksaddle probe
//! cd tests/independent
//! export TRACKSADDLE_ARCHIVES=$PWD/../../target/host
//! cargo run --release --bin compare_reading [SEED]
//! cargo run --release --bin compare_book ../../books/k.bin ../../books/second.bin [SEED]
//! cargo run --release --bin compare_placing ../../books/k.bin ../../books/second.bin [SEED]
//! cargo run --release --bin compare_judge ../../books/k.bin ../../books/second.bin [SEED]
//! cargo run --release --bin compare_tally [SEED]
//! cargo run --release --bin compare_pieces [SEED]
//! cargo run --release --bin bench_reading
//! cargo run --release --bin bench_pieces
//! cargo run --release --bin bench_placing
//! cargo run --release --bin bench_judge
//! cargo run --release --bin bench_first_book
//! ```

pub mod archives;
pub mod arguments;
pub mod book;
pub mod breaking;
pub mod bytes;
pub mod content;
pub mod described;
pub mod difference;
pub mod enumeration;
pub mod envelope;
pub mod judging;
pub mod lengthy;
pub mod lent;
pub mod machine;
pub mod needless;
pub mod pieces;
pub mod placing;
pub mod planned;
pub mod random;
pub mod reading;
pub mod tally;
pub mod times;
pub mod writing;
