//! Stand-in for src/fact.rs: its option structs, the published signature.rs, and the driver, which
//! stands here so that the functions that signature.rs opens to its parent are in sight.
use crate::component::{
    CanonicalAbiInfo, ComponentTypesBuilder, FlatType, InterfaceType,
    RuntimeComponentInstanceIndex, StringEncoding, TypeFuncIndex,
};
use crate::{FuncIndex, GlobalIndex, IndexType, Memory, MemoryIndex, ModuleInternedTypeIndex};
use wasm_encoder::ValType;

#[rustfmt::skip]
#[path = "../extracted/signature.rs"]
mod signature;

pub mod driver;

include!("../extracted/fact_items.rs");
