//! The one u64 that answers each call: the refusal's number in the top byte and its place in the low 32
//! bits, else a value below bit 56.
use crate::core_types::{CoreTypes, Flattened};
use crate::{Layout, Place, Placement, Refusal, Refused, Result};

/// The value, or the refusal at the place that the low 32 bits give.
pub fn value(answer: u64, place: fn(u32) -> Place) -> Result<u64> {
    match (answer >> 56) as u8 {
        0 => Ok(answer),
        number => Err(Refused {
            refusal: Refusal::from_number(number).unwrap_or_else(|| foreign(answer)),
            place: place(answer as u32),
        }),
    }
}

/// The value of a question, whose refusals are at a reference.
pub fn asked(answer: u64) -> Result<u64> {
    value(answer, Place::Reference)
}

/// The size in the low 32 bits, the alignment in bits 32 to 39.
pub fn layout(value: u64) -> Layout {
    Layout {
        size: value as u32,
        align: (value >> 32) as u8 as u32,
    }
}

/// What a build answers.
pub struct Built {
    pub rows: u32,
    pub reads: u32,
}

/// The count of rows in bits 0 to 31, the rows read back in bits 32 to 55.
pub fn built(value: u64) -> Built {
    Built {
        rows: value as u32,
        reads: (value >> 32) as u32,
    }
}

/// The size in bits 0 to 31, the alignment in bits 32 to 35, the gap after the last member in bits 36 to 39, the
/// rows read back in bits 40 to 55; with the buffers that the call wrote.
pub fn placement(value: u64, offsets: Vec<u32>, gaps: Vec<u32>) -> Placement {
    Placement {
        offsets,
        gaps,
        size: value as u32,
        align: (value >> 32) as u32 & 0xf,
        gap_after: (value >> 36) as u32 & 0xf,
        reads: (value >> 40) as u32,
    }
}

/// A flat count: none is 255.
pub fn flat_count(value: u64) -> Option<u8> {
    match value {
        0..=16 => Some(value as u8),
        255 => None,
        _ => foreign(value),
    }
}

/// The types in bits 0 to 33, two bits each, and their count in bits 40 to 47.
pub fn list(value: u64) -> CoreTypes {
    let count = (value >> 40) as u8;
    CoreTypes::from_packed(value & 0x3_ffff_ffff, count).unwrap_or_else(|| foreign(value))
}

/// A list, or bit 55 for "memory".
pub fn flattened(value: u64) -> Flattened {
    match value >> 55 {
        0 => Flattened::List(list(value)),
        _ => Flattened::Memory,
    }
}

/// An answer that the port is proved never to give.
pub fn foreign(answer: u64) -> ! {
    panic!(
        "liblampughjata.a answered {answer:#x}, so it is not the library that this crate is \
         written for"
    )
}
