//! Plain arithmetic on words, as the least that such a build can cost: no refusals, and no test, not even
//! of an index, but whether a flat list passes 16 types; sums wrap. It writes the same sixteen words as the
//! port for a good description.

use crate::table::{cell, put_row};

/// What a member contributes, or what all members so far do.
#[derive(Clone, Copy)]
struct Info {
    size: [u32; 2],
    align: [u32; 2],
    /// 255 for none.
    flat: u32,
    types: [u32; 2],
    borrow: u32,
    /// How deep it goes, or the deepest of them does.
    depth: u32,
}

const fn scalar(size: u32, code: u32) -> Info {
    Info {
        size: [size; 2],
        align: [size; 2],
        flat: 1,
        types: [code; 2],
        borrow: 0,
        depth: 0,
    }
}

const fn pair(borrow: u32, depth: u32) -> Info {
    Info {
        size: [8, 16],
        align: [4, 8],
        flat: 2,
        types: [0, 0b01_01],
        borrow,
        depth,
    }
}

const SCALARS: [Info; 18] = [
    scalar(1, 0),
    scalar(1, 0),
    scalar(1, 0),
    scalar(2, 0),
    scalar(2, 0),
    scalar(4, 0),
    scalar(4, 0),
    scalar(8, 1),
    scalar(8, 1),
    scalar(4, 2),
    scalar(8, 3),
    scalar(4, 0),
    pair(0, 0),
    scalar(4, 0),
    Info {
        borrow: 1,
        ..scalar(4, 0)
    },
    scalar(4, 0),
    scalar(4, 0),
    scalar(4, 0),
];

const EMPTY: Info = Info {
    size: [0; 2],
    align: [1; 2],
    flat: 0,
    types: [0; 2],
    borrow: 0,
    depth: 0,
};

const NONE: u32 = 255;
const MARK: u32 = u32::MAX;

#[inline]
fn up(place: u32, align: u32) -> u32 {
    place.wrapping_add(align - 1) & !(align - 1)
}

/// A mask of the bits that so many flat types use.
#[inline]
fn used(count: u32) -> u32 {
    ((1_u64 << (2 * count)) - 1) as u32
}

/// Builds the table of a good description; answers the number of rows.
///
/// # Safety
/// The description is good, and the table has a row for each of its definitions.
pub unsafe fn build(words: &[u32], table: &mut [u32]) -> u32 {
    let mut at = 0;
    let mut index = 0;
    while at < words.len() {
        // SAFETY: the caller's word that the description is good.
        let length = unsafe { definition(words, at, table, index) };
        at += length;
        index += 1;
    }
    index as u32
}

#[inline]
unsafe fn definition(words: &[u32], at: usize, table: &mut [u32], index: usize) -> usize {
    let word = |place: usize| unsafe { *words.get_unchecked(at + place) };
    let kind = word(0);
    let second = word(1);
    match kind {
        1 | 4 => {
            let n = second as usize;
            let info = unsafe { record(words, at + 2, n, table) };
            unsafe { write(table, index, kind, &info, [0; 7]) };
            2 + n
        }
        2 => {
            let n = second as usize;
            unsafe { variant(words, at + 2, n, second, table, index, kind) };
            2 + n
        }
        3 => {
            let element = unsafe { get(second, table) };
            let info = pair(element.borrow, element.depth);
            unsafe { write(table, index, kind, &info, [0; 7]) };
            2
        }
        5 => {
            unsafe { map(second, word(2), table, index) };
            3
        }
        6 => {
            let info = match second {
                0 => EMPTY,
                1..=8 => scalar(1, 0),
                9..=16 => scalar(2, 0),
                _ => scalar(4, 0),
            };
            unsafe { write(table, index, kind, &info, [0; 7]) };
            2
        }
        7 => {
            unsafe { variant(words, at, 0, second, table, index, kind) };
            2
        }
        8 => {
            unsafe { variant(words, at + 1, 1, 2, table, index, kind) };
            2
        }
        9 => {
            unsafe { variant(words, at + 1, 2, 2, table, index, kind) };
            3
        }
        _ => {
            let element = unsafe { get(second, table) };
            let info = fixed(element, word(2));
            unsafe { write(table, index, kind, &info, [0; 7]) };
            3
        }
    }
}

#[inline]
unsafe fn get(reference: u32, table: &[u32]) -> Info {
    if reference < 64 {
        return unsafe { *SCALARS.get_unchecked(reference as usize) };
    }
    let row = reference as usize - 64;
    let word = |k: usize| unsafe { cell(table, row, k) };
    Info {
        size: [word(1), word(3)],
        align: [word(2), word(4)],
        flat: word(5),
        types: [word(6), word(7)],
        borrow: word(15) & 1,
        depth: word(15) >> 1,
    }
}

#[inline]
unsafe fn record(words: &[u32], from: usize, n: usize, table: &[u32]) -> Info {
    let mut all = EMPTY;
    for place in from..from + n {
        let member = unsafe { get(*words.get_unchecked(place), table) };
        for memory in 0..2 {
            let start = up(all.size[memory], member.align[memory]);
            all.size[memory] = start.wrapping_add(member.size[memory]);
            all.align[memory] = all.align[memory].max(member.align[memory]);
            // Rubbish once there are too many, and then not looked at.
            all.types[memory] |= member.types[memory].wrapping_shl(2 * all.flat);
        }
        all.flat = add_flat(all.flat, member.flat);
        all.borrow |= member.borrow;
        all.depth = all.depth.max(member.depth);
    }
    for memory in 0..2 {
        all.size[memory] = up(all.size[memory], all.align[memory]);
    }
    if all.flat == NONE {
        all.types = [0; 2];
    }
    all
}

#[inline]
fn add_flat(a: u32, b: u32) -> u32 {
    if a + b > 16 { NONE } else { a + b }
}

#[inline]
unsafe fn variant(
    words: &[u32],
    from: usize,
    n: usize,
    cases: u32,
    table: &mut [u32],
    index: usize,
    kind: u32,
) {
    let discriminant = match cases {
        0..=256 => 1,
        257..=65_536 => 2,
        _ => 4,
    };
    let mut all = Info {
        align: [discriminant; 2],
        ..EMPTY
    };
    for place in from..from + n {
        let reference = unsafe { *words.get_unchecked(place) };
        if reference == MARK {
            continue;
        }
        let payload = unsafe { get(reference, table) };
        let shared = used(all.flat.min(payload.flat).min(16));
        for memory in 0..2 {
            all.size[memory] = all.size[memory].max(payload.size[memory]);
            all.align[memory] = all.align[memory].max(payload.align[memory]);
            all.types[memory] = join(all.types[memory], payload.types[memory], shared);
        }
        all.flat = all.flat.max(payload.flat);
        all.borrow |= payload.borrow;
        all.depth = all.depth.max(payload.depth);
    }
    let mut extra = [0; 7];
    extra[0] = discriminant;
    for memory in 0..2 {
        let offset = up(discriminant, all.align[memory]);
        extra[1 + memory] = offset;
        all.size[memory] = up(offset.wrapping_add(all.size[memory]), all.align[memory]);
        all.types[memory] <<= 2;
    }
    all.flat = add_flat(all.flat, 1);
    if all.flat == NONE {
        all.types = [0; 2];
    }
    unsafe { write(table, index, kind, &all, extra) };
}

/// Two packed lists joined in the places that both have; the longer one's rest stays.
#[inline]
fn join(a: u32, b: u32, shared: u32) -> u32 {
    const LOW: u32 = 0x5555_5555;
    let apart = a ^ b;
    let differ = (apart | apart >> 1) & LOW & shared;
    let wide = (a | b) & differ;
    (a | b) & !(differ * 3) | wide
}

#[inline]
unsafe fn map(key: u32, value: u32, table: &mut [u32], index: usize) {
    let (key, value) = unsafe { (get(key, table), get(value, table)) };
    let mut extra = [0; 7];
    for memory in 0..2 {
        let offset = up(key.size[memory], value.align[memory]);
        let align = key.align[memory].max(value.align[memory]);
        extra[1 + memory] = offset;
        extra[3 + 2 * memory] = up(offset.wrapping_add(value.size[memory]), align);
        extra[4 + 2 * memory] = align;
    }
    let info = pair(key.borrow | value.borrow, key.depth.max(value.depth));
    unsafe { write(table, index, 5, &info, extra) };
}

#[inline]
fn fixed(element: Info, count: u32) -> Info {
    let flat = element.flat.wrapping_mul(count);
    let none = element.flat == NONE || u64::from(element.flat) * u64::from(count) > 16;
    let mut types = [0; 2];
    if !none && flat > 0 {
        for place in 0..count {
            for memory in 0..2 {
                types[memory] |= element.types[memory] << (2 * element.flat * place);
            }
        }
    }
    Info {
        size: element.size.map(|size| size.wrapping_mul(count)),
        align: element.align,
        flat: if none { NONE } else { flat },
        types,
        borrow: element.borrow,
        depth: element.depth,
    }
}

/// `extra` is words 8 to 14. The definition is one deeper than the deepest that it refers to.
#[inline]
unsafe fn write(table: &mut [u32], index: usize, kind: u32, info: &Info, extra: [u32; 7]) {
    let row = [
        kind,
        info.size[0],
        info.align[0],
        info.size[1],
        info.align[1],
        info.flat,
        info.types[0],
        info.types[1],
        extra[0],
        extra[1],
        extra[2],
        extra[3],
        extra[4],
        extra[5],
        extra[6],
        info.borrow + 2 * (info.depth + 1),
    ];
    unsafe { put_row(table, index, row) };
}
