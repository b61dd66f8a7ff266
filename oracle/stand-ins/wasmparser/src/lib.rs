//! Stand-in for wasmparser: the parsed types that types_builder.rs reads, as plain data.
//!
//! What concerns components, instances and modules is there so that types_builder.rs compiles whole;
//! the oracle never runs it.

pub mod collections;
pub mod component_types;
pub mod types;

#[derive(Copy, Clone, Debug, PartialEq, Eq)]
pub enum PrimitiveValType {
    Bool,
    S8,
    U8,
    S16,
    U16,
    S32,
    U32,
    S64,
    U64,
    F32,
    F64,
    Char,
    String,
    ErrorContext,
}

/// Nothing is validated here.
pub struct Validator;

pub struct UnpackedIndex;
pub struct TableType;
pub struct GlobalType;
#[derive(Copy, Clone)]
pub struct MemoryType;

pub mod names {
    #[derive(Clone, Debug, PartialEq, Eq)]
    pub struct KebabString(pub std::string::String);

    impl core::fmt::Display for KebabString {
        fn fmt(&self, f: &mut core::fmt::Formatter<'_>) -> core::fmt::Result {
            f.write_str(&self.0)
        }
    }
}
