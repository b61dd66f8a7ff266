//! 01's row of sixteen words: how a type is written into one, and how a lent one is read.
use super::layout::{Core, FLAT_MAX, Flat, Layout, Type};
use super::table::Row;
use super::{ROW, number};

/// The flat count of a type that has none, in a row and at the boundary.
pub const NO_FLAT_COUNT: u64 = 255;

/// What a row has beside the type's own numbers; all 0 where the kind has none of it.
#[derive(Default)]
pub struct Extra {
    /// Word 8.
    pub discriminant: u64,
    /// Words 9 and 10: payload offset, or a map's value offset.
    pub offset: [u64; 2],
    /// Words 11 to 14: a map's entry.
    pub entry: [u64; 4],
}

pub fn write(kind: u32, ty: &Type, extra: &Extra) -> Row {
    let [layout32, layout64] = ty.layout;
    let mut row = [0; ROW];
    row[0] = u64::from(kind);
    row[1] = layout32.size;
    row[2] = layout32.align;
    row[3] = layout64.size;
    row[4] = layout64.align;
    row[5] = flat_count(&ty.flat).unwrap_or(NO_FLAT_COUNT);
    [row[6], row[7]] = flat_words(&ty.flat);
    row[8] = extra.discriminant;
    row[9..11].copy_from_slice(&extra.offset);
    row[11..15].copy_from_slice(&extra.entry);
    // Order 5: "borrow plus twice the depth".
    row[15] = u64::from(ty.borrow) + 2 * ty.depth;
    row.map(|word| u32::try_from(word).expect("a row's numbers fit in words"))
}

pub fn flat_count(flat: &Flat) -> Option<u64> {
    flat.as_ref().map(|lists| lists[0].len() as u64)
}

/// Words 6 and 7: "both words zero if none".
pub fn flat_words(flat: &Flat) -> [u64; 2] {
    match flat {
        Some(lists) => [pack(&lists[0]), pack(&lists[1])],
        None => [0, 0],
    }
}

/// "Two bits each, first lowest, I32 0, I64 1, F32 2, F64 3, unused bits zero."
pub fn pack(types: &[Core]) -> u64 {
    let mut packed = 0;
    for (place, core) in types.iter().enumerate() {
        packed += (*core as u64) * 4_u64.pow(place as u32);
    }
    packed
}

fn unpack(word: u32, count: u64) -> Vec<Core> {
    let code = |place: u64| (u64::from(word) / 4_u64.pow(place as u32)) % 4;
    let core = |code| [Core::I32, Core::I64, Core::F32, Core::F64][code as usize];
    (0..count).map(|place| core(code(place))).collect()
}

/// A row's type, or BadRow: "A row is well formed when: kind is 1 to 10; alignments are 1, 2, 4 or
/// 8; each size is a multiple of its alignment; flat count is 0 to 16 or 255; unused flat bits are
/// zero; word 8 is 0, 1, 2 or 4", and by order 5 "2 to 201" in word 15. "Nothing else in a row is tested."
pub fn read(row: &Row) -> Result<Type, u64> {
    let (layouts, flat_count) = five_numbers([row[1], row[2], row[3], row[4], row[5]])?;
    let flat = flat_count.map(|count| [unpack(row[6], count), unpack(row[7], count)]);
    let well_formed = (1..=10).contains(&row[0])
        && flat_words(&flat) == [u64::from(row[6]), u64::from(row[7])]
        && [0, 1, 2, 4].contains(&row[8])
        && (2..=201).contains(&row[15]);
    if !well_formed {
        return Err(number::BAD_ROW);
    }
    Ok(Type {
        layout: layouts,
        flat,
        borrow: row[15] % 2 == 1,
        depth: u64::from(row[15] / 2),
    })
}

pub fn well_formed(row: &Row) -> bool {
    read(row).is_ok()
}

/// The words that a row has once for each memory, the place for 32 and the place for 64: size, alignment, the
/// payload's or value's offset, a map entry's size and alignment.
pub const BY_MEMORY: [(usize, usize); 5] = [(1, 3), (2, 4), (9, 10), (11, 13), (12, 14)];

/// Order 14: "each size and alignment for 64 is at least that for 32, .. so is each .. payload's offset". It
/// holds of rows that a build wrote, not of every well-formed one.
pub fn never_smaller(row: &Row) -> bool {
    BY_MEMORY
        .iter()
        .all(|&(narrow, wide)| row[narrow] <= row[wide])
}

/// The rules for words 1 to 5, which an info given to a leaf must keep as well: the layouts, and the flat
/// count or None.
pub fn five_numbers(words: [u32; 5]) -> Result<([Layout; 2], Option<u64>), u64> {
    let layout = |size: u32, align: u32| {
        let good = [1, 2, 4, 8].contains(&align) && size % align == 0;
        let (size, align) = (u64::from(size), u64::from(align));
        good.then_some(Layout { size, align })
            .ok_or(number::BAD_ROW)
    };
    let [size32, align32, size64, align64, flat_count] = words;
    let layouts = [layout(size32, align32)?, layout(size64, align64)?];
    match u64::from(flat_count) {
        NO_FLAT_COUNT => Ok((layouts, None)),
        count if count <= FLAT_MAX => Ok((layouts, Some(count))),
        _ => Err(number::BAD_ROW),
    }
}
