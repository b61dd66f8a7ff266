//! Core types, lists of them, and the signatures of core functions.
use std::fmt;

/// A type of core WebAssembly.
#[derive(Clone, Copy, Debug, PartialEq, Eq, Hash)]
pub enum CoreType {
    I32,
    I64,
    F32,
    F64,
}

impl fmt::Display for CoreType {
    fn fmt(&self, f: &mut fmt::Formatter) -> fmt::Result {
        fmt::Debug::fmt(self, f)
    }
}

/// A list of at most 17 core types: 16, and a pointer behind them, of an async return or of a function that
/// is lowered.
///
/// It is kept as the library packs it, two bits a type with the first lowest, so that it is a number to
/// copy and needs no allocation.
#[derive(Clone, Copy, PartialEq, Eq, Hash, Default)]
pub struct CoreTypes {
    packed: u64,
    count: u8,
}

impl CoreTypes {
    const MOST: u8 = 17;

    /// The list of the lowest `count` types; none if that is too many or a bit above them is set.
    pub(crate) fn from_packed(packed: u64, count: u8) -> Option<CoreTypes> {
        let fits = count <= Self::MOST && packed >> (2 * count) == 0;
        fits.then_some(CoreTypes { packed, count })
    }

    pub fn len(&self) -> usize {
        self.count.into()
    }

    pub fn is_empty(&self) -> bool {
        self.count == 0
    }

    /// The types in order.
    pub fn iter(&self) -> impl ExactSizeIterator<Item = CoreType> + use<> {
        let packed = self.packed;
        (0..self.count).map(move |k| match packed >> (2 * k) & 3 {
            0 => CoreType::I32,
            1 => CoreType::I64,
            2 => CoreType::F32,
            _ => CoreType::F64,
        })
    }
}

impl fmt::Debug for CoreTypes {
    fn fmt(&self, f: &mut fmt::Formatter) -> fmt::Result {
        f.debug_list().entries(self.iter()).finish()
    }
}

/// As in a signature: `(I32, I64)`.
impl fmt::Display for CoreTypes {
    fn fmt(&self, f: &mut fmt::Formatter) -> fmt::Result {
        f.write_str("(")?;
        for (k, core_type) in self.iter().enumerate() {
            let separator = if k == 0 { "" } else { ", " };
            write!(f, "{separator}{core_type}")?;
        }
        f.write_str(")")
    }
}

/// How values travel through a core call.
#[derive(Clone, Copy, Debug, PartialEq, Eq, Hash)]
pub enum Flattened {
    /// As these core types.
    List(CoreTypes),
    /// Through memory: there would be more types than the maximum.
    Memory,
}

impl fmt::Display for Flattened {
    fn fmt(&self, f: &mut fmt::Formatter) -> fmt::Result {
        match self {
            Flattened::List(types) => types.fmt(f),
            Flattened::Memory => f.write_str("through memory"),
        }
    }
}

/// The signature of a core function.
#[derive(Clone, Copy, Debug, PartialEq, Eq, Hash)]
pub struct Signature {
    pub params: CoreTypes,
    pub results: CoreTypes,
}

impl fmt::Display for Signature {
    fn fmt(&self, f: &mut fmt::Formatter) -> fmt::Result {
        write!(f, "{} -> {}", self.params, self.results)
    }
}
