//! By hand: document 01's words in, the original's own calls, numbers out.
//!
//! Nothing is computed here but the depth. A description's definitions become the parsed types that
//! `ComponentTypesBuilder::defined_type` takes; rows and answers are read off the original's data.
use super::*;
use crate::component::*;
use std::cell::Cell;
use std::collections::HashMap;
use std::panic::{AssertUnwindSafe, catch_unwind};
use wasmparser::component_types::{ComponentDefinedType, ComponentDefinedTypeId};
use wasmparser::types::TypesRef;
use words::{Definition, HANDLES};

mod depth;
mod questions;
mod words;

pub use questions::{Flat, Placed, Side};

/// False for the 32-bit memory, true for the 64-bit one.
pub type Memory64 = bool;

/// The original with the types of one description.
pub struct Original {
    builder: ComponentTypesBuilder,
    parsed: Vec<ComponentDefinedType>,
    /// The types of the definitions so far, and their kind words.
    types: Vec<InterfaceType>,
    kinds: Vec<u32>,
    /// How deep these types go.
    depths: HashMap<InterfaceType, u32>,
    /// How many of the description's words these took.
    read: usize,
    remembers: bool,
}

/// A description as the parsed types that the original takes, the handles before them.
pub struct Parsed(Vec<ComponentDefinedType>);

/// Why a description was not converted whole; the number is the definition's index.
#[derive(Clone, Copy, PartialEq, Eq, Debug)]
pub enum Stopped {
    /// The original panicked: a failed assertion, or an overflow where those are checked.
    Panicked(usize),
    /// The words are no definition that the original could be given.
    Unreadable(usize),
}

thread_local! {
    static GUARDS: Cell<u32> = const { Cell::new(0) };
}

/// Runs a piece of the original; None when it panics.
pub fn guarded<T>(run: impl FnOnce() -> T) -> Option<T> {
    GUARDS.set(GUARDS.get() + 1);
    let ran = catch_unwind(AssertUnwindSafe(run)).ok();
    GUARDS.set(GUARDS.get() - 1);
    ran
}

/// Whether a panic here and now would be the original's and caught, for a panic hook to ask.
pub fn is_guarded() -> bool {
    GUARDS.get() > 0
}

impl Original {
    /// Looks a definition that was converted before up (the one changed line).
    pub fn new() -> Original {
        Original {
            builder: ComponentTypesBuilder::new(&wasmparser::Validator),
            parsed: words::handles(),
            types: Vec::new(),
            kinds: Vec::new(),
            depths: HashMap::new(),
            read: 0,
            remembers: true,
        }
    }

    /// Converts a definition again for each reference to it, as the published line does.
    pub fn unchanged() -> Original {
        Original {
            remembers: false,
            ..Original::new()
        }
    }

    /// Converts definitions of a description until there are `limit`; answers their number. A second
    /// call goes on where the first one stopped.
    pub fn build(&mut self, description: &[u32], limit: usize) -> Result<usize, Stopped> {
        while self.read < description.len() && self.types.len() < limit {
            let index = self.types.len();
            let rest = &description[self.read..];
            let kind = rest[0];
            let (definition, length) =
                words::definition(rest, index).ok_or(Stopped::Unreadable(index))?;
            let ty = match definition {
                Definition::Parsed(parsed) => self.convert(parsed),
                Definition::WideEnum(cases) => self.wide_enum(cases),
            };
            let ty = ty.ok_or(Stopped::Panicked(index))?;
            self.types.push(ty);
            self.kinds.push(kind);
            self.depths.insert(ty, self.depth_over_parts(ty));
            self.read += length;
        }
        Ok(self.types.len())
    }

    fn convert(&mut self, parsed: ComponentDefinedType) -> Option<InterfaceType> {
        self.parsed.push(parsed);
        let id = ComponentDefinedTypeId(self.parsed.len() - 1);
        let types = TypesRef {
            definitions: &self.parsed,
        };
        let builder = &mut self.builder;
        let ty = guarded(|| builder.defined_type(types, id).unwrap())?;
        if self.remembers {
            self.builder.resources_mut().remember(id, ty);
        }
        Some(ty)
    }

    /// `enum_type` without its names, of which there are too many to hold.
    fn wide_enum(&mut self, cases: usize) -> Option<InterfaceType> {
        // Keeps the parsed definitions in step with the words'.
        self.parsed.push(words::empty_tuple());
        let id = ComponentDefinedTypeId(self.parsed.len() - 1);
        let builder = &mut self.builder;
        let ty = guarded(|| {
            let (info, abi) = VariantInfo::new((0..cases).map(|_| None));
            let names = [cases.to_string()].into_iter().collect();
            InterfaceType::Enum(builder.add_enum_type(TypeEnum { names, abi, info }))
        })?;
        self.builder.resources_mut().remember(id, ty);
        Some(ty)
    }

    /// For timing: the parsed types of a good description, which the original is given.
    pub fn parse(description: &[u32]) -> Parsed {
        let mut parsed = words::handles();
        let mut read = 0;
        while read < description.len() {
            let index = parsed.len() - HANDLES;
            let (definition, length) =
                words::definition(&description[read..], index).expect("a good description");
            match definition {
                Definition::Parsed(definition) => parsed.push(definition),
                Definition::WideEnum(_) => panic!("an enum of too many cases to time"),
            }
            read += length;
        }
        Parsed(parsed)
    }

    /// For timing: the original's whole build of parsed types, in a builder of its own.
    pub fn build_parsed(parsed: &Parsed) -> Original {
        let mut original = Original::new();
        let types = TypesRef {
            definitions: &parsed.0,
        };
        for place in HANDLES..parsed.0.len() {
            let id = ComponentDefinedTypeId(place);
            let ty = original.builder.defined_type(types, id).unwrap();
            original.builder.resources_mut().remember(id, ty);
            original.types.push(ty);
        }
        original
    }

    /// Puts a well-formed row that no build wrote into the original's tables. Words 8 to 14 of it play no
    /// part in a question. Word 15 is the borrow plus twice the depth.
    pub fn forge(&mut self, row: &[u32; 16]) {
        let abi = CanonicalAbiInfo {
            size32: row[1],
            align32: row[2],
            size64: row[3],
            align64: row[4],
            flat_count: (row[5] != 255).then_some(row[5] as u8),
        };
        let unpack = |word: u32| -> Vec<FlatType> {
            let codes = (0..row[5]).map(|k| word >> (2 * k) & 3);
            codes.map(|code| FLAT_TYPES[code as usize]).collect()
        };
        let flat = (row[5] != 255).then(|| [row[6], row[7]].map(unpack));
        let ty = builder_opened::forge(&mut self.builder, abi, flat, row[15] % 2 == 1);
        self.types.push(ty);
        self.kinds.push(row[0]);
        self.depths.insert(ty, row[15] / 2);
    }

    /// Document 01's sixteen words of a definition.
    pub fn row(&self, index: usize) -> [u32; 16] {
        let ty = self.types[index];
        let [
            size32,
            align32,
            size64,
            align64,
            flat,
            flat32,
            flat64,
            borrow,
        ] = self.numbers(&ty);
        let mut row = [0; 16];
        row[0] = self.kinds[index];
        row[1..8].copy_from_slice(&[size32, align32, size64, align64, flat, flat32, flat64]);
        row[15] = borrow + 2 * self.depth(&ty);
        let builder = &self.builder;
        let variant = match ty {
            InterfaceType::Variant(i) => Some(&builder[i].info),
            InterfaceType::Enum(i) => Some(&builder[i].info),
            InterfaceType::Option(i) => Some(&builder[i].info),
            InterfaceType::Result(i) => Some(&builder[i].info),
            _ => None,
        };
        if let Some(info) = variant {
            row[8] = u32::from(info.size);
            row[9] = info.payload_offset32;
            row[10] = info.payload_offset64;
        }
        if let InterfaceType::Map(i) = ty {
            let map = &builder[i];
            let entry = &map.entry_abi;
            row[9] = map.value_offset32;
            row[10] = map.value_offset64;
            row[11..15].copy_from_slice(&[
                entry.size32,
                entry.align32,
                entry.size64,
                entry.align64,
            ]);
        }
        row
    }

    /// The five numbers of `CanonicalAbiInfo` (255 for no flat count), the flat words, the borrow.
    pub fn numbers(&self, ty: &InterfaceType) -> [u32; 8] {
        let abi = self.builder.canonical_abi(ty);
        let [flat32, flat64] = match self.builder.flat_types(ty) {
            Some(flat) => [flat.memory32, flat.memory64].map(|types| pack(types) as u32),
            None => [0, 0],
        };
        let flat = abi.flat_count.map_or(255, u32::from);
        let borrow = u32::from(self.builder.ty_contains_borrow_resource(ty));
        let (size32, align32) = (abi.size32, abi.align32);
        let (size64, align64) = (abi.size64, abi.align64);
        [
            size32, align32, size64, align64, flat, flat32, flat64, borrow,
        ]
    }

    /// Whether the original says of a definition the same in two places: the flat list is as long as
    /// the flat count, and the `const` twins (`record_static`, ..) answer as the functions do.
    pub fn agrees_with_itself(&self, index: usize) -> bool {
        let ty = self.types[index];
        let builder = &self.builder;
        let abi = builder.canonical_abi(&ty);
        let flat = builder.flat_types(&ty).map(|flat| flat.len() as u8);
        let of = |ty: &InterfaceType| builder.canonical_abi(ty).clone();
        let variant = |cases: Vec<Option<CanonicalAbiInfo>>, info: &VariantInfo| {
            CanonicalAbiInfo::variant_static(&cases) == *abi
                && VariantInfo::new_static(&cases) == *info
        };
        let twin = match ty {
            InterfaceType::Record(i) => {
                let fields: Vec<_> = builder[i].fields.iter().map(|f| of(&f.ty)).collect();
                CanonicalAbiInfo::record_static(&fields) == *abi
            }
            InterfaceType::Tuple(i) => {
                let types: Vec<_> = builder[i].types.iter().map(of).collect();
                CanonicalAbiInfo::record_static(&types) == *abi
            }
            InterfaceType::Map(i) => {
                let map = &builder[i];
                CanonicalAbiInfo::record_static(&[of(&map.key), of(&map.value)]) == map.entry_abi
            }
            InterfaceType::Variant(i) => {
                let cases = builder[i].cases.iter().map(|(_, c)| c.as_ref().map(of));
                variant(cases.collect(), &builder[i].info)
            }
            InterfaceType::Option(i) => {
                variant(vec![None, Some(of(&builder[i].ty))], &builder[i].info)
            }
            InterfaceType::Result(i) => {
                let result = &builder[i];
                let cases = vec![result.ok.as_ref().map(of), result.err.as_ref().map(of)];
                variant(cases, &result.info)
            }
            _ => true,
        };
        twin && flat == abi.flat_count
    }

    /// The original's type of a reference; None for a bad one.
    pub fn reference(&mut self, word: u32) -> Option<InterfaceType> {
        if word >= 64 {
            return self.types.get(word as usize - 64).copied();
        }
        let value = words::value(word, 0)?;
        let types = TypesRef {
            definitions: &self.parsed[..HANDLES],
        };
        self.builder.valtype(types, &value).ok()
    }
}

impl Default for Original {
    fn default() -> Self {
        Original::new()
    }
}

const FLAT_TYPES: [FlatType; 4] = [FlatType::I32, FlatType::I64, FlatType::F32, FlatType::F64];

/// Two bits each, the first lowest: I32 0, I64 1, F32 2, F64 3.
fn pack(types: &[FlatType]) -> u64 {
    let code = |ty: &FlatType| FLAT_TYPES.iter().position(|t| t == ty).unwrap() as u64;
    types.iter().rev().fold(0, |word, ty| word << 2 | code(ty))
}
