//! The port's calls that are timed, over words and over bytes, by the declarations of the Rust crate.
use crate::tested::{List, Placed};

#[path = "../../bindings/rust/src/raw.rs"]
#[allow(dead_code)]
mod raw;

/// The calls over one unit, in the 32-bit memory.
macro_rules! calls_over {
    ($unit:ty, $calls:ident) => {
        pub mod $calls {
            use super::raw::$calls as port;
            use crate::tested::Way;

            // SAFETY, for all of these: each pointer comes from a slice of the length beside it, lent for
            // the call alone, and a mutable one is lent to nobody else.

            pub fn build(words: &[$unit], table: &mut [$unit]) -> u64 {
                unsafe { port::build(words.as_ptr(), words.len(), table.as_mut_ptr(), table.len()) }
            }

            pub fn type_of(table: &[$unit], rows: u32, reference: u32, k: u32) -> u64 {
                unsafe { port::type_of(table.as_ptr(), table.len(), rows, reference, k) }
            }

            pub fn size_align(table: &[$unit], rows: u32, reference: u32) -> u64 {
                unsafe { port::size_align(0, table.as_ptr(), table.len(), rows, reference) }
            }

            pub fn placement(
                table: &[$unit],
                rows: u32,
                references: &[$unit],
                offsets: &mut [$unit],
                gaps: &mut [$unit],
            ) -> u64 {
                unsafe {
                    port::placement(
                        0,
                        table.as_ptr(),
                        table.len(),
                        rows,
                        references.as_ptr(),
                        references.len(),
                        offsets.as_mut_ptr(),
                        offsets.len(),
                        gaps.as_mut_ptr(),
                        gaps.len(),
                    )
                }
            }

            pub fn flatten(table: &[$unit], rows: u32, max: u32, references: &[$unit]) -> u64 {
                let (table, table_len) = (table.as_ptr(), table.len());
                let (list, list_len) = (references.as_ptr(), references.len());
                unsafe { port::flatten(0, max, table, table_len, rows, list, list_len) }
            }

            /// Of k = 0 the parameters, of 1 the results.
            pub fn functype(
                way: Way,
                table: &[$unit],
                rows: u32,
                params: &[$unit],
                results: &[$unit],
                k: u32,
            ) -> u64 {
                unsafe {
                    port::functype(
                        0,
                        way.asynchronous.into(),
                        way.lower.into(),
                        way.callback.into(),
                        table.as_ptr(),
                        table.len(),
                        rows,
                        params.as_ptr(),
                        params.len(),
                        results.as_ptr(),
                        results.len(),
                        k,
                    )
                }
            }

            /// The size in the 32-bit memory.
            pub fn record(infos: &[$unit]) -> u64 {
                unsafe { port::record(infos.as_ptr(), infos.len(), 0) }
            }

            /// The size in the 32-bit memory.
            pub fn variant(cases: &[$unit]) -> u64 {
                unsafe { port::variant(cases.as_ptr(), cases.len(), 0) }
            }
        }
    };
}

calls_over!(u32, words);
calls_over!(u8, bytes);

/// Words as the calls over bytes take them.
pub fn bytes_of(words: &[u32]) -> Vec<u8> {
    words.iter().flat_map(|word| word.to_le_bytes()).collect()
}

/// The rows of an accepted build: bits 0 to 31 of its answer. Above them it reports the rows that it read back.
pub fn rows(answer: u64) -> Option<u32> {
    let is_accepted = answer >> 56 == 0;
    is_accepted.then_some(answer as u32)
}

/// The answer of a size and alignment: the size in bits 0 to 31, the alignment in bits 32 to 39.
pub fn layout((size, align): (u32, u32)) -> u64 {
    u64::from(size) | u64::from(align) << 32
}

/// The answer of a placement: the size in bits 0 to 31, the alignment in bits 32 to 35, the gap after the last
/// member in bits 36 to 39, and from bit 40 the rows that it read back.
pub fn placed(Placed { size, align, after }: Placed, references: &[u32]) -> u64 {
    let definitions = references.iter().filter(|reference| **reference >= 64);
    layout((size, align)) | u64::from(after) << 36 | (definitions.count() as u64) << 40
}

/// The answer of a flatten, or of a signature's list: the types in bits 0 to 33, their count in bits 40 to 47.
pub fn list(List { packed, count }: List) -> u64 {
    packed | u64::from(count) << 40
}
