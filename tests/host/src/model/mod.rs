//! The model: document 01 as plain Rust, the judge where the original has no answer.
//!
//! Written from 01 alone, and from 02 where an order has landed. It is meant to be believed on reading:
//! sums in u64 that cannot wrap, lists of core types as vectors, one function for each rule, no
//! cleverness. The refusals, their order and their positions are 01's; what 01 leaves open is read as
//! docs/DECISIONS.md says.

mod bytes;
mod definition;
mod description;
mod functype;
mod layout;
mod leaf;
mod padding;
mod question;
mod reads;
mod row;
mod signature;
mod table;

pub use bytes::{build_bytes, words_of};
pub use definition::{Definition, definition_named, definitions};
pub use description::build;
pub use layout::Core;
pub use leaf::leaf;
pub use question::{ask, member_sizes};
pub use row::{BY_MEMORY, never_smaller, well_formed};
pub use table::{Row, capacity, put_row, row, table_of};

/// A call that was refused: 01's number, and the definition's index or the reference's position.
#[derive(Clone, Copy, PartialEq, Eq, Debug)]
pub struct Refused {
    pub number: u64,
    pub at: u64,
}

pub type Answer<T> = Result<T, Refused>;

/// 01's numbers of refusal.
pub mod number {
    pub const TOO_LONG: u64 = 1;
    pub const TRUNCATED: u64 = 2;
    pub const BAD_KIND: u64 = 3;
    pub const BAD_REF: u64 = 4;
    pub const BAD_COUNT: u64 = 5;
    pub const TOO_LARGE: u64 = 6;
    pub const NO_ROOM: u64 = 7;
    pub const BAD_ROW: u64 = 8;
    pub const TOO_DEEP: u64 = 9;
}

/// "A description has 0 to 16,384 words"; a question takes no more references than that.
pub const MOST_WORDS: usize = 16_384;
/// "A table has at most 1,024 rows of 16 words."
pub const MOST_ROWS: usize = 1_024;
pub const ROW: usize = 16;
