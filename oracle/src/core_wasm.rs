//! Stand-ins for the core wasm side of wasmtime-environ. types_builder.rs and signature.rs mention
//! these; the oracle runs none of it but the choice of a memory's index type and the four value types.
use crate::component::FlatType;
use crate::error::Result;
use cranelift_entity::EntityRef;
use wasm_encoder::ValType;
use wasmparser::types::{CoreTypeId, TypesRef};

const NEVER_RUN: &str = "the oracle does not convert core wasm types";

macro_rules! indices {
    ($($name:ident)*) => { $(
        #[derive(Copy, Clone, PartialEq, Eq, Hash, PartialOrd, Ord, Debug)]
        pub struct $name(u32);
        cranelift_entity::entity_impl!($name);
    )* };
}
indices! {
    StaticModuleIndex FuncIndex GlobalIndex MemoryIndex TableIndex
    ModuleInternedTypeIndex EngineOrModuleTypeIndex
}

impl From<ModuleInternedTypeIndex> for EngineOrModuleTypeIndex {
    fn from(index: ModuleInternedTypeIndex) -> Self {
        EngineOrModuleTypeIndex(index.0)
    }
}

pub trait TypeTrace {
    fn trace<F, E>(&self, _: &mut F) -> Result<(), E>
    where
        F: FnMut(EngineOrModuleTypeIndex) -> Result<(), E>,
    {
        unimplemented!("{NEVER_RUN}")
    }
    fn trace_mut<F, E>(&mut self, _: &mut F) -> Result<(), E>
    where
        F: FnMut(&mut EngineOrModuleTypeIndex) -> Result<(), E>,
    {
        unimplemented!("{NEVER_RUN}")
    }
}
impl TypeTrace for EntityType {}
impl TypeTrace for ModuleTypes {}

#[derive(Clone, Debug)]
pub enum EntityType {
    Function(EngineOrModuleTypeIndex),
    Table(Table),
    Memory(Memory),
    Global(Global),
    Tag(types::Tag),
}

/// The module of this name in wasmtime-environ, of which one struct is mentioned.
pub mod types {
    #[derive(Clone, Debug)]
    pub struct Tag {
        pub signature: super::EngineOrModuleTypeIndex,
        pub exception: super::EngineOrModuleTypeIndex,
    }
}

#[derive(Clone, Debug)]
pub struct Table;
#[derive(Clone, Debug)]
pub struct Global;

/// A linear memory, of which only the index type is looked at.
#[derive(Copy, Clone, PartialEq, Eq, Hash, Debug)]
pub struct Memory {
    pub idx_type: IndexType,
}
#[derive(Copy, Clone, PartialEq, Eq, Hash, Debug)]
pub enum IndexType {
    I32,
    I64,
}
impl From<wasmparser::MemoryType> for Memory {
    fn from(_: wasmparser::MemoryType) -> Memory {
        unimplemented!("{NEVER_RUN}")
    }
}

pub trait TypeConvert {
    fn convert_table_type(&self, _: &wasmparser::TableType) -> Result<Table> {
        unimplemented!("{NEVER_RUN}")
    }
    fn convert_global_type(&self, _: &wasmparser::GlobalType) -> Result<Global> {
        unimplemented!("{NEVER_RUN}")
    }
    fn lookup_heap_type(&self, index: wasmparser::UnpackedIndex) -> WasmHeapType;
    fn lookup_type_index(&self, index: wasmparser::UnpackedIndex) -> EngineOrModuleTypeIndex;
}

#[derive(Default)]
pub struct ModuleTypes(Vec<WasmSubType>);

impl core::ops::Index<ModuleInternedTypeIndex> for ModuleTypes {
    type Output = WasmSubType;
    fn index(&self, index: ModuleInternedTypeIndex) -> &WasmSubType {
        &self.0[index.index()]
    }
}

pub struct ModuleTypesBuilder(ModuleTypes);

impl ModuleTypesBuilder {
    pub fn new(_: &wasmparser::Validator) -> Self {
        ModuleTypesBuilder(ModuleTypes::default())
    }
    pub fn validator_id(&self) -> u32 {
        0
    }
    pub fn finish(self) -> ModuleTypes {
        self.0
    }
    pub fn intern_type(
        &mut self,
        _: TypesRef<'_>,
        _: CoreTypeId,
    ) -> Result<ModuleInternedTypeIndex> {
        unimplemented!("{NEVER_RUN}")
    }
    pub fn define_exception_type_for_tag(
        &mut self,
        _: ModuleInternedTypeIndex,
    ) -> ModuleInternedTypeIndex {
        unimplemented!("{NEVER_RUN}")
    }
}

impl<T> core::ops::Index<T> for ModuleTypesBuilder
where
    ModuleTypes: core::ops::Index<T>,
{
    type Output = <ModuleTypes as core::ops::Index<T>>::Output;
    fn index(&self, index: T) -> &Self::Output {
        &self.0[index]
    }
}

pub struct WasmSubType {
    pub composite_type: WasmCompositeType,
}
pub struct WasmCompositeType {
    pub inner: WasmCompositeInnerType,
}
pub struct WasmCompositeInnerType(WasmFuncType);

impl WasmCompositeInnerType {
    pub fn unwrap_func(&self) -> &WasmFuncType {
        &self.0
    }
}

pub struct WasmFuncType {
    params: Vec<WasmValType>,
    results: Vec<WasmValType>,
}

impl WasmFuncType {
    pub fn params(&self) -> &[WasmValType] {
        &self.params
    }
    pub fn results(&self) -> &[WasmValType] {
        &self.results
    }
}

pub enum WasmValType {
    I32,
    I64,
    F32,
    F64,
    V128,
    Ref(WasmHeapType),
}
pub struct WasmHeapType;

/// The impl of fact/trampoline.rs, which is not among the published files.
impl From<FlatType> for ValType {
    fn from(flat: FlatType) -> ValType {
        match flat {
            FlatType::I32 => ValType::I32,
            FlatType::I64 => ValType::I64,
            FlatType::F32 => ValType::F32,
            FlatType::F64 => ValType::F64,
        }
    }
}
