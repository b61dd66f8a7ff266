//! Parsed component types.
use crate::PrimitiveValType;
use crate::collections::{IndexMap, IndexSet};
use crate::names::KebabString;
use crate::types::EntityType;

#[derive(Copy, Clone, Debug, PartialEq, Eq)]
pub struct ComponentDefinedTypeId(pub usize);
#[derive(Copy, Clone, Debug, PartialEq, Eq)]
pub struct ComponentFuncTypeId(pub usize);
#[derive(Copy, Clone, Debug, PartialEq, Eq)]
pub struct ComponentCoreModuleTypeId;
#[derive(Copy, Clone, Debug, PartialEq, Eq)]
pub struct ComponentInstanceTypeId;
#[derive(Copy, Clone, Debug, PartialEq, Eq)]
pub struct ComponentTypeId;

#[derive(Copy, Clone, Debug, PartialEq, Eq)]
pub struct ResourceId;
#[derive(Copy, Clone, Debug, PartialEq, Eq)]
pub struct AliasableResourceId;

impl AliasableResourceId {
    pub fn resource(&self) -> ResourceId {
        ResourceId
    }
}

#[derive(Copy, Clone, Debug, PartialEq, Eq)]
pub enum ComponentValType {
    Primitive(PrimitiveValType),
    Type(ComponentDefinedTypeId),
}

#[derive(Clone, Debug)]
pub enum ComponentDefinedType {
    Primitive(PrimitiveValType),
    Record(RecordType),
    Variant(VariantType),
    List {
        element: ComponentValType,
    },
    Map {
        key: ComponentValType,
        value: ComponentValType,
    },
    Tuple(TupleType),
    Flags(IndexSet<KebabString>),
    Enum(IndexSet<KebabString>),
    Option {
        ty: ComponentValType,
    },
    Result {
        ok: Option<ComponentValType>,
        err: Option<ComponentValType>,
    },
    Own(AliasableResourceId),
    Borrow(AliasableResourceId),
    Future {
        ty: Option<ComponentValType>,
    },
    Stream {
        ty: Option<ComponentValType>,
    },
    FixedLengthList {
        element: ComponentValType,
        length: u32,
    },
}

#[derive(Clone, Debug)]
pub struct RecordType {
    pub fields: IndexMap<KebabString, ComponentValType>,
}

#[derive(Clone, Debug)]
pub struct VariantCase {
    pub ty: Option<ComponentValType>,
}

#[derive(Clone, Debug)]
pub struct VariantType {
    pub cases: IndexMap<KebabString, VariantCase>,
}

#[derive(Clone, Debug)]
pub struct TupleType {
    pub types: Box<[ComponentValType]>,
}

#[derive(Clone, Debug)]
pub struct ComponentFuncType {
    pub async_: bool,
    pub params: Box<[(KebabString, ComponentValType)]>,
    pub result: Option<ComponentValType>,
}

#[derive(Copy, Clone, Debug, PartialEq, Eq)]
pub enum ComponentAnyTypeId {
    Resource(AliasableResourceId),
    Defined(ComponentDefinedTypeId),
    Func(ComponentFuncTypeId),
    Instance(ComponentInstanceTypeId),
    Component(ComponentTypeId),
}

#[derive(Copy, Clone, Debug, PartialEq, Eq)]
pub enum ComponentEntityType {
    Module(ComponentCoreModuleTypeId),
    Func(ComponentFuncTypeId),
    Value(ComponentValType),
    Type { created: ComponentAnyTypeId },
    Instance(ComponentInstanceTypeId),
    Component(ComponentTypeId),
}

pub struct ComponentItem {
    pub ty: ComponentEntityType,
    pub implements: Option<String>,
    pub external_id: Option<String>,
}

pub struct ComponentType {
    pub imports: IndexMap<String, ComponentItem>,
    pub exports: IndexMap<String, ComponentItem>,
}

pub struct ComponentInstanceType {
    pub exports: IndexMap<String, ComponentItem>,
}

pub struct ModuleType {
    pub imports: IndexMap<(String, String), EntityType>,
    pub exports: IndexMap<String, EntityType>,
}
