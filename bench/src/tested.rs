//! The questions in Rust with the tests that 01 asks for: references and rows are judged, sizes kept
//! below 4 GiB, nothing is written unless all is accepted. What the port's questions are held to.

use crate::table::{capacity, cell};

/// What the questions read of one row or scalar.
struct Read {
    size: u32,
    align: u32,
    flat: u32,
    types: u32,
}

const SIZES: [u8; 18] = [1, 1, 1, 2, 2, 4, 4, 8, 8, 4, 8, 4, 8, 4, 4, 4, 4, 4];
const CODES: [u8; 18] = [0, 0, 0, 0, 0, 0, 0, 1, 1, 2, 3, 0, 0, 0, 0, 0, 0, 0];

/// One reference in the 32-bit memory; None if it or its row is bad.
///
/// # Safety
/// The table has room for n rows.
unsafe fn read(reference: u32, table: &[u32], n: u32) -> Option<Read> {
    if reference < 18 {
        let k = reference as usize;
        let string = reference == 12;
        return Some(Read {
            size: SIZES[k].into(),
            align: if string { 4 } else { SIZES[k].into() },
            flat: if string { 2 } else { 1 },
            types: CODES[k].into(),
        });
    }
    let index = reference.checked_sub(64).filter(|index| *index < n)? as usize;
    // SAFETY: by this function's own.
    let word = |k: usize| unsafe { cell(table, index, k) };
    let aligned = |size: u32, align: u32| matches!(align, 1 | 2 | 4 | 8) && size & (align - 1) == 0;
    let flat = word(5);
    let unused = match flat {
        0..=15 => !((1 << (2 * flat)) - 1),
        16 => 0,
        255 => u32::MAX,
        _ => return None,
    };
    let good = matches!(word(0), 1..=10)
        && aligned(word(1), word(2))
        && aligned(word(3), word(4))
        && (word(6) | word(7)) & unused == 0
        && matches!(word(8), 0 | 1 | 2 | 4)
        && matches!(word(15), 2..=201);
    good.then(|| Read {
        size: word(1),
        align: word(2),
        flat,
        types: word(6),
    })
}

/// Size and alignment in the 32-bit memory.
pub fn size_align(table: &[u32], n: u32, reference: u32) -> Option<(u32, u32)> {
    if n as usize > capacity(table.len()) {
        return None;
    }
    // SAFETY: there is room for n rows.
    let read = unsafe { read(reference, table, n) }?;
    Some((read.size, read.align))
}

/// What a placement answers: size, alignment, and the gap after the last member.
#[derive(Clone, Copy, Debug, PartialEq, Eq)]
pub struct Placed {
    pub size: u32,
    pub align: u32,
    pub after: u32,
}

/// Offsets and gaps in the 32-bit memory, staged and copied once all is accepted.
pub fn placement(
    table: &[u32],
    n: u32,
    references: &[u32],
    offsets: &mut [u32],
    gaps: &mut [u32],
) -> Option<Placed> {
    // A short list does not pay for a long stage.
    match references.len() {
        0..=24 => Stage::<24>::placement(table, n, references, offsets, gaps),
        25..=64 => Stage::<64>::placement(table, n, references, offsets, gaps),
        _ => Stage::<16_384>::placement(table, n, references, offsets, gaps),
    }
}

/// What is written once all is accepted. A gap is less than an alignment, so a byte holds it.
struct Stage<const MOST: usize> {
    offsets: [u32; MOST],
    gaps: [u8; MOST],
}

impl<const MOST: usize> Stage<MOST> {
    // Not inlined, so that each stage has a frame of its own: in one frame a short list pays for touching the long one's.
    #[inline(never)]
    fn placement(
        table: &[u32],
        n: u32,
        references: &[u32],
        offsets: &mut [u32],
        gaps: &mut [u32],
    ) -> Option<Placed> {
        let many = references.len();
        if many > MOST || n as usize > capacity(table.len()) {
            return None;
        }
        let (offsets, gaps) = (offsets.get_mut(..many)?, gaps.get_mut(..many)?);
        let mut stage = Stage {
            offsets: [0; MOST],
            gaps: [0; MOST],
        };
        // SAFETY: there is room for n rows.
        let placed = unsafe { stage.fill(table, n, references) }?;
        offsets.copy_from_slice(&stage.offsets[..many]);
        for (gap, staged) in gaps.iter_mut().zip(&stage.gaps) {
            *gap = (*staged).into();
        }
        Some(placed)
    }

    /// # Safety
    /// The table has room for n rows.
    #[inline]
    unsafe fn fill(&mut self, table: &[u32], n: u32, references: &[u32]) -> Option<Placed> {
        let (mut end, mut greatest) = (0_u64, 1);
        for (place, reference) in references.iter().enumerate() {
            // SAFETY: by this function's own.
            let member = unsafe { read(*reference, table, n) }?;
            let start = round_up(end, member.align);
            self.offsets[place] = start as u32;
            self.gaps[place] = (start - end) as u8;
            end = start + u64::from(member.size);
            if end > u64::from(u32::MAX) {
                return None;
            }
            greatest = greatest.max(member.align);
        }
        let size = u32::try_from(round_up(end, greatest)).ok()?;
        Some(Placed {
            size,
            align: greatest,
            after: size - end as u32,
        })
    }
}

fn round_up(place: u64, align: u32) -> u64 {
    let low = u64::from(align - 1);
    (place + low) & !low
}

/// Packed types in the 32-bit memory, and their count.
#[derive(Clone, Copy, Debug, PartialEq, Eq)]
pub struct List {
    pub packed: u64,
    pub count: u32,
}

impl List {
    const EMPTY: List = List {
        packed: 0,
        count: 0,
    };
    /// A pointer, or the status of an async call.
    const I32: List = List {
        packed: 0,
        count: 1,
    };

    /// With one more I32, whose bits are zero.
    pub fn with_pointer(self) -> List {
        List {
            count: self.count + 1,
            ..self
        }
    }
}

/// The list of references that were not tested yet; None where one is refused, `Some(None)` for memory.
///
/// # Safety
/// The table has room for n rows.
#[inline]
unsafe fn list(table: &[u32], n: u32, max: u32, references: &[u32]) -> Option<Option<List>> {
    let (mut list, mut fits) = (List::EMPTY, true);
    for reference in references {
        // SAFETY: by this function's own.
        let part = unsafe { read(*reference, table, n) }?;
        if fits && part.flat <= max - list.count {
            list.packed |= u64::from(part.types) << (2 * list.count);
            list.count += part.flat;
        } else {
            fits = false;
        }
    }
    Some(fits.then_some(list))
}

/// The list in the 32-bit memory; None where refused, `Some(None)` for memory.
pub fn flatten(table: &[u32], n: u32, max: u32, references: &[u32]) -> Option<Option<List>> {
    if references.len() > 16_384 || n as usize > capacity(table.len()) || max > 16 {
        return None;
    }
    // SAFETY: there is room for n rows.
    unsafe { list(table, n, max, references) }
}

/// How a function is lifted or lowered.
#[derive(Clone, Copy, Debug)]
pub struct Way {
    pub asynchronous: bool,
    pub lower: bool,
    pub callback: bool,
}

impl Way {
    pub const SYNC_LOWER: Way = Way {
        asynchronous: false,
        lower: true,
        callback: false,
    };

    pub fn all() -> impl Iterator<Item = Way> {
        (0..8).map(|number| Way {
            asynchronous: number & 1 != 0,
            lower: number & 2 != 0,
            callback: number & 4 != 0,
        })
    }
}

/// A core signature.
#[derive(Clone, Copy, Debug, PartialEq, Eq)]
pub struct Signature {
    pub params: List,
    pub results: List,
}

/// The core signature in the 32-bit memory; None where refused.
pub fn functype(
    way: Way,
    table: &[u32],
    n: u32,
    params: &[u32],
    results: &[u32],
) -> Option<Signature> {
    if params.len() > 16_384 || results.len() > 16_384 || n as usize > capacity(table.len()) {
        return None;
    }
    let [most_params, most_results] = match (way.asynchronous, way.lower) {
        (true, true) => [4, 0],
        _ => [16, 1],
    };
    // SAFETY: there is room for n rows.
    let params = unsafe { list(table, n, most_params, params) }?.unwrap_or(List::I32);
    let results = unsafe { list(table, n, most_results, results) }?;
    Some(if way.lower {
        lowered(way.asynchronous, params, results)
    } else {
        Signature {
            params,
            results: match (way.asynchronous, way.callback) {
                (false, _) => results.unwrap_or(List::I32),
                (true, true) => List::I32,
                (true, false) => List::EMPTY,
            },
        }
    })
}

/// Results that go through memory have a pointer among the parameters.
#[inline]
fn lowered(asynchronous: bool, params: List, results: Option<List>) -> Signature {
    Signature {
        params: match results {
            Some(_) => params,
            None => params.with_pointer(),
        },
        results: match asynchronous {
            true => List::I32,
            false => results.unwrap_or(List::EMPTY),
        },
    }
}
