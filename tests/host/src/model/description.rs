//! 01's build: a description's words into a table's rows.
use super::definition::{Definition, NO_PAYLOAD, definition_named};
use super::layout::{self, Memory, TooLarge, Type};
use super::row::{self, Extra};
use super::table::{Row, capacity, put_row};
use super::{Answer, MOST_WORDS, Refused, number, reads};
use crate::encode;

/// The boundary's u64. Since order 6 "It answers the count and how many rows it read back, exactly the number of
/// references of the form 64+j in the description, or the number with the definition's index (0 for TooLong)";
/// since order 11 "earlier entries of each run are written, every other word keeps its value".
pub fn build(words: &[u32], table: &mut [u32]) -> Answer<u64> {
    if words.len() > MOST_WORDS {
        return Err(Refused {
            number: number::TOO_LONG,
            at: 0,
        });
    }
    let capacity = capacity(table.len());
    let mut types: Vec<Type> = Vec::new();
    let mut rest = words;
    while !rest.is_empty() {
        let index = types.len();
        let (row, ty, length) = definition(rest, &types, capacity).map_err(|number| Refused {
            number,
            at: index as u64,
        })?;
        put_row(table, index, &row);
        types.push(ty);
        rest = &rest[length..];
    }
    let rows = types.len() as u64;
    Ok(encode::build(rows, reads::of_description(words)))
}

/// One definition's row, type and length in words. "NoRoom, BadKind, Truncated, BadCount, BadRef,
/// TooLarge", in this order; order 5's TooDeep is "after BadRef and before TooLarge".
fn definition(words: &[u32], earlier: &[Type], capacity: usize) -> Result<(Row, Type, usize), u64> {
    if earlier.len() == capacity {
        return Err(number::NO_ROOM);
    }
    let definition = Definition::read(words)?;
    test_count(&definition)?;
    let payloads_may_lack = definition.kind == 2 || definition.kind == 9;
    let mut members: Vec<&Type> = Vec::new();
    for reference in definition.references_and_marks() {
        if !(payloads_may_lack && *reference == NO_PAYLOAD) {
            members.push(resolve(*reference, earlier)?);
        }
    }
    if layout::depth_over(&members) > layout::DEEPEST {
        return Err(number::TOO_DEEP);
    }
    let (ty, extra) = lay_out(&definition, &members).map_err(|TooLarge| number::TOO_LARGE)?;
    let row = row::write(definition.kind, &ty, &extra);
    Ok((row, ty, definition.words.len()))
}

/// "Definition i may refer only to j < i."
fn resolve(reference: u32, earlier: &[Type]) -> Result<&Type, u64> {
    let found = match definition_named(reference) {
        Some(index) => earlier.get(index),
        None => layout::scalar_of(reference),
    };
    found.ok_or(number::BAD_REF)
}

/// "Variant or enum with n = 0, flags above 512", as order 4 amends it.
fn test_count(definition: &Definition) -> Result<(), u64> {
    let bad = match definition.kind {
        2 | 7 => definition.count == 0,
        6 => definition.count > layout::MOST_LABELS,
        _ => false,
    };
    if bad { Err(number::BAD_COUNT) } else { Ok(()) }
}

/// `members` are the types of the references that are no no-payload marks.
fn lay_out(definition: &Definition, members: &[&Type]) -> Result<(Type, Extra), TooLarge> {
    let count = definition.count;
    Ok(match definition.kind {
        1 | 4 => (layout::record(members)?, Extra::default()),
        3 => (layout::list_or_map(members), Extra::default()),
        5 => map(members)?,
        6 => {
            let flags = layout::flags(count).expect("the count was tested");
            (flags, Extra::default())
        }
        10 => (layout::fixed_list(members[0], count)?, Extra::default()),
        // "Enum: a variant without payloads. Option: cases none, some. Result: ok, err."
        8 => variant(2, members)?,
        _ => variant(count, members)?,
    })
}

fn variant(cases: u64, payloads: &[&Type]) -> Result<(Type, Extra), TooLarge> {
    let variant = layout::variant(cases, payloads)?;
    let extra = Extra {
        discriminant: variant.discriminant,
        offset: variant.payload_offset,
        ..Extra::default()
    };
    Ok((variant.whole, extra))
}

/// "Map entry: a tuple of key and value."
fn map(key_and_value: &[&Type]) -> Result<(Type, Extra), TooLarge> {
    let entry32 = layout::place_in(Memory::Bits32, key_and_value)?;
    let entry64 = layout::place_in(Memory::Bits64, key_and_value)?;
    let extra = Extra {
        offset: [entry32.starts[1], entry64.starts[1]],
        entry: [
            entry32.layout.size,
            entry32.layout.align,
            entry64.layout.size,
            entry64.layout.align,
        ],
        ..Extra::default()
    };
    Ok((layout::list_or_map(key_and_value), extra))
}
