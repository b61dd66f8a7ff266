//! By hand: a description's words as the parsed types that the original takes.
use wasmparser::PrimitiveValType as Primitive;
use wasmparser::component_types::*;
use wasmparser::names::KebabString;

/// Own, Borrow, Future and Stream are definitions to the original: these stand before the
/// description's own.
pub const HANDLES: usize = 4;

/// Above this many cases an enum's names are not made.
const NAMED_CASES: usize = 70_000;

pub enum Definition {
    Parsed(ComponentDefinedType),
    WideEnum(usize),
}

pub fn handles() -> Vec<ComponentDefinedType> {
    vec![
        ComponentDefinedType::Own(AliasableResourceId),
        ComponentDefinedType::Borrow(AliasableResourceId),
        ComponentDefinedType::Future { ty: None },
        ComponentDefinedType::Stream { ty: None },
    ]
}

pub fn empty_tuple() -> ComponentDefinedType {
    ComponentDefinedType::Tuple(TupleType {
        types: Box::new([]),
    })
}

/// A reference in definition `index`; None for a bad one.
pub fn value(word: u32, index: usize) -> Option<ComponentValType> {
    let definition = |place: usize| Some(ComponentValType::Type(ComponentDefinedTypeId(place)));
    let primitive = match word {
        0 => Primitive::Bool,
        1 => Primitive::S8,
        2 => Primitive::U8,
        3 => Primitive::S16,
        4 => Primitive::U16,
        5 => Primitive::S32,
        6 => Primitive::U32,
        7 => Primitive::S64,
        8 => Primitive::U64,
        9 => Primitive::F32,
        10 => Primitive::F64,
        11 => Primitive::Char,
        12 => Primitive::String,
        13..=16 => return definition(word as usize - 13),
        17 => Primitive::ErrorContext,
        _ if word >= 64 && (word as usize - 64) < index => {
            return definition(HANDLES + word as usize - 64);
        }
        _ => return None,
    };
    Some(ComponentValType::Primitive(primitive))
}

/// The definition that the words begin with, and how many of them it takes; None if there is none.
pub fn definition(words: &[u32], index: usize) -> Option<(Definition, usize)> {
    let word = |place: usize| words.get(place).copied();
    let value = |word: u32| value(word, index);
    let payload = |word: u32| match word {
        u32::MAX => Some(None),
        _ => value(word).map(Some),
    };
    let (definition, length) = match words[0] {
        kind @ (1 | 2 | 4) => {
            let count = word(1)? as usize;
            let members = words[2..].get(..count)?;
            (members_of(kind, members, value, payload)?, 2 + count)
        }
        3 => (
            ComponentDefinedType::List {
                element: value(word(1)?)?,
            },
            2,
        ),
        5 => {
            let (key, value) = (value(word(1)?)?, value(word(2)?)?);
            (ComponentDefinedType::Map { key, value }, 3)
        }
        6 => (ComponentDefinedType::Flags(names(word(1)? as usize)?), 2),
        7 => match word(1)? as usize {
            cases if cases > NAMED_CASES => return Some((Definition::WideEnum(cases), 2)),
            cases => (ComponentDefinedType::Enum(names(cases)?), 2),
        },
        8 => (
            ComponentDefinedType::Option {
                ty: value(word(1)?)?,
            },
            2,
        ),
        9 => {
            let (ok, err) = (payload(word(1)?)?, payload(word(2)?)?);
            (ComponentDefinedType::Result { ok, err }, 3)
        }
        10 => {
            let (element, length) = (value(word(1)?)?, word(2)?);
            (ComponentDefinedType::FixedLengthList { element, length }, 3)
        }
        _ => return None,
    };
    Some((Definition::Parsed(definition), length))
}

fn members_of(
    kind: u32,
    members: &[u32],
    value: impl Fn(u32) -> Option<ComponentValType>,
    payload: impl Fn(u32) -> Option<Option<ComponentValType>>,
) -> Option<ComponentDefinedType> {
    let named = members.iter().enumerate();
    Some(match kind {
        1 => {
            let fields = named.map(|(k, word)| Some((name(k), value(*word)?)));
            ComponentDefinedType::Record(RecordType {
                fields: fields.collect::<Option<_>>()?,
            })
        }
        2 => {
            let cases = named.map(|(k, word)| {
                Some((
                    name(k),
                    VariantCase {
                        ty: payload(*word)?,
                    },
                ))
            });
            ComponentDefinedType::Variant(VariantType {
                cases: cases.collect::<Option<_>>()?,
            })
        }
        _ => {
            let types = members.iter().map(|word| value(*word));
            ComponentDefinedType::Tuple(TupleType {
                types: types.collect::<Option<_>>()?,
            })
        }
    })
}

/// Distinct names; the original keeps them but lays nothing out by them.
fn name(place: usize) -> KebabString {
    KebabString(format!("n{place}"))
}

fn names(count: usize) -> Option<wasmparser::collections::IndexSet<KebabString>> {
    (count <= NAMED_CASES).then(|| (0..count).map(name).collect())
}
