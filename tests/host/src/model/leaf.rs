//! 01's modules 1 to 3: the leaves, which answer the number alone when they refuse.
use super::layout::{self, FLAT_MAX, LIMIT, Memory, TooLarge, Type};
use super::row::NO_FLAT_COUNT;
use super::{number, row};
use crate::calls::{Info, Leaf};
use crate::encode;

pub fn leaf(leaf: &Leaf) -> Result<u64, u64> {
    match leaf {
        Leaf::AlignTo(place, align) => align_to(*place, *align),
        Leaf::Max(a, b) => Ok(u64::from(*a.max(b))),
        Leaf::AddFlat(a, b) => Ok(flat_word(add_flat(flat_of(*a), flat_of(*b)))),
        Leaf::MaxFlat(a, b) => Ok(flat_word(max_flat(flat_of(*a), flat_of(*b)))),
        Leaf::NextField {
            memory,
            info,
            end,
            k,
        } => next_field(Memory::of(*memory), info, *end, *k),
        Leaf::Flags(count, k) => {
            let flags = layout::flags(u64::from(*count)).ok_or(number::BAD_COUNT)?;
            Ok(info_number(&flags, *k))
        }
        Leaf::Enum(count, k) => Ok(info_number(&variant(u64::from(*count), &[])?.whole, *k)),
        Leaf::FixedLengthList { info, count, k } => {
            let element = type_of(info)?;
            let list = layout::fixed_list(&element, u64::from(*count)).map_err(too_large)?;
            // The flat types of an info are not known, only their number: `type_of` made some up.
            Ok(info_number(&list, *k))
        }
        Leaf::Discriminant(count) => Ok(variant(u64::from(*count), &[])?.discriminant),
        Leaf::Record { infos, k } => {
            let members: Vec<Type> = infos
                .chunks_exact(5)
                .map(|words| type_of(&words.try_into().expect("five words")))
                .collect::<Result<_, _>>()?;
            let members: Vec<&Type> = members.iter().collect();
            Ok(info_number(
                &layout::record(&members).map_err(too_large)?,
                *k,
            ))
        }
        Leaf::Variant { cases, k } => variant_number(cases, *k),
    }
}

/// "An alignment other than 1, 2, 4 or 8 gives 8; else a rounded value above 4294967295 gives 6." By order 10 it
/// answers "the rounded value with the bytes it skipped".
fn align_to(place: u32, align: u32) -> Result<u64, u64> {
    if ![1, 2, 4, 8].contains(&align) {
        return Err(number::BAD_ROW);
    }
    let rounded = layout::round_up(u64::from(place), u64::from(align));
    Ok(encode::rounded(
        within_limit(rounded.place)?,
        rounded.skipped,
    ))
}

/// "Answer the offset and hand the moved end back; 8 for a bad info, before 6." By order 10 each caller of the
/// rounding passes on what it skipped.
fn next_field(memory: Memory, info: &Info, end: u32, k: u32) -> Result<u64, u64> {
    let field = type_of(info)?.layout_in(memory);
    let rounded = layout::round_up(u64::from(end), field.align);
    let start = within_limit(rounded.place)?;
    let moved = within_limit(start + field.size)?;
    Ok(match k {
        0 => start,
        1 => moved,
        _ => rounded.skipped,
    })
}

fn within_limit(place: u64) -> Result<u64, u64> {
    if place > LIMIT {
        Err(number::TOO_LARGE)
    } else {
        Ok(place)
    }
}

fn too_large(_: TooLarge) -> u64 {
    number::TOO_LARGE
}

/// "Flat count: a sum above 16 is none, and none in a part makes the whole none."
fn add_flat(a: Option<u64>, b: Option<u64>) -> Option<u64> {
    let sum = a? + b?;
    if sum > FLAT_MAX { None } else { Some(sum) }
}

/// The greatest, without a cap: only sums and products are none above 16.
fn max_flat(a: Option<u64>, b: Option<u64>) -> Option<u64> {
    Some(a?.max(b?))
}

/// A flat count given to `add_flat` or `max_flat`: 0 to 254 the number, anything above none.
fn flat_of(word: u32) -> Option<u64> {
    Some(u64::from(word)).filter(|count| *count < NO_FLAT_COUNT)
}

fn flat_word(count: Option<u64>) -> u64 {
    count.unwrap_or(NO_FLAT_COUNT)
}

/// An info as a type, or BadRow. Of its flat types only the number is known and asked for, and no leaf is
/// asked for a depth.
fn type_of(info: &Info) -> Result<Type, u64> {
    let (layout, flat_count) = row::five_numbers(*info)?;
    let flat = flat_count.map(|count| {
        let types = vec![layout::Core::I32; count as usize];
        [types.clone(), types]
    });
    Ok(Type {
        layout,
        flat,
        borrow: false,
        depth: 0,
    })
}

/// The five numbers of an info: k = 4 and above the flat count.
pub fn info_number(ty: &Type, k: u32) -> u64 {
    let [layout32, layout64] = ty.layout;
    match k {
        0 => layout32.size,
        1 => layout32.align,
        2 => layout64.size,
        3 => layout64.align,
        _ => flat_word(row::flat_count(&ty.flat)),
    }
}

/// BadCount for no case, then TooLarge; bad infos come before both.
fn variant(cases: u64, payloads: &[&Type]) -> Result<layout::Variant, u64> {
    if cases == 0 {
        return Err(number::BAD_COUNT);
    }
    layout::variant(cases, payloads).map_err(too_large)
}

/// Six words a case: whether it has a payload, then its info.
fn variant_number(words: &[u32], k: u32) -> Result<u64, u64> {
    let cases = words.chunks_exact(6);
    let count = cases.len() as u64;
    let payloads: Vec<Type> = cases
        .filter(|case| case[0] != 0)
        .map(|case| type_of(&case[1..].try_into().expect("five words")))
        .collect::<Result<_, _>>()?;
    let variant = variant(count, &payloads.iter().collect::<Vec<_>>())?;
    Ok(match k {
        0..=4 => info_number(&variant.whole, k),
        5 => variant.discriminant,
        6 => variant.payload_offset[0],
        _ => variant.payload_offset[1],
    })
}
