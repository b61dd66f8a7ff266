//! The one u64 that answers each call of the boundary.
use crate::model::{Core, Refused};

/// The refusal's number in the top byte, the definition's index or the reference's position below.
pub fn answer(answer: Result<u64, Refused>) -> u64 {
    answer.unwrap_or_else(|refused| refused.number << 56 | refused.at)
}

/// A leaf answers the number alone.
pub fn leaf(answer: Result<u64, u64>) -> u64 {
    answer.unwrap_or_else(|number| number << 56)
}

/// The refusal's number, 0 for none.
pub fn refusal(answer: u64) -> u64 {
    answer >> 56
}

/// Bits 0 to 31: how many definitions a build accepted, its rows or the index of the refused one; the size that
/// a placement answers.
pub fn low(answer: u64) -> u64 {
    answer & u64::from(u32::MAX)
}

/// The bits of an answer that hold a number beside its first one: from this bit to before that one.
#[derive(Clone, Copy)]
pub struct Bits(u32, u32);

/// How many rows were read back (order 6).
pub const BUILD_READS: Bits = Bits(32, 56);
pub const PLACEMENT_READS: Bits = Bits(40, 56);
/// The bytes that a rounding skipped, and a placement's gap after the last member (order 10).
pub const SKIPPED: Bits = Bits(32, 40);
pub const GAP_AFTER: Bits = Bits(36, 40);

impl Bits {
    /// The number; 0 in a refusal, which has nothing in these bits.
    pub fn of(self, answer: u64) -> u64 {
        (answer & self.bits()) >> self.0
    }

    pub fn without(self, answer: u64) -> u64 {
        answer & !self.bits()
    }

    /// The answer with this number in the place of its own.
    pub fn with(self, answer: u64, number: u64) -> u64 {
        self.without(answer) | number << self.0
    }

    fn bits(self) -> u64 {
        (1 << self.1) - (1 << self.0)
    }
}

/// Rows in the low 32 bits, then the rows read back.
pub fn build(rows: u64, reads: u64) -> u64 {
    BUILD_READS.with(rows, reads)
}

/// Size in the low 32 bits, alignment in bits 32 to 39.
pub fn layout(size: u64, align: u64) -> u64 {
    size | align << 32
}

/// The rounded value in the low 32 bits, then the bytes skipped.
pub fn rounded(value: u64, skipped: u64) -> u64 {
    SKIPPED.with(value, skipped)
}

/// A layout whose alignment has bits 32 to 35 alone, then the gap after the last member, then the rows read
/// back.
pub fn placement(size: u64, align: u64, after: u64, reads: u64) -> u64 {
    PLACEMENT_READS.with(GAP_AFTER.with(layout(size, align), after), reads)
}

/// The packed types in bits 0 to 33, their count in bits 40 to 47.
pub fn list(types: &[Core]) -> u64 {
    let codes = types.iter().map(|core| *core as u64);
    let packed = codes.rev().fold(0, |packed, code| packed << 2 | code);
    flat(types.len() as u64, packed)
}

pub fn flat(count: u64, packed: u64) -> u64 {
    packed | count << 40
}

/// "Memory" is bit 55 alone.
pub const MEMORY: u64 = 1 << 55;

pub fn list_or_memory(types: Option<Vec<Core>>) -> u64 {
    types.map_or(MEMORY, |types| list(&types))
}

/// A signature's parameters for k = 0, its results for every other k.
pub fn half<T>([params, results]: [T; 2], k: u32) -> T {
    if k == 0 { params } else { results }
}
