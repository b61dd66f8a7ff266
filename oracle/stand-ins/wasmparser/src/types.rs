//! The parsed types of one component, looked up by their ids.
use crate::component_types::*;
use crate::{GlobalType, MemoryType, TableType};
use core::ops::Index;

#[derive(Copy, Clone)]
pub struct CoreTypeId;

pub enum EntityType {
    Func(CoreTypeId),
    Table(TableType),
    Memory(MemoryType),
    Global(GlobalType),
    Tag(CoreTypeId),
    FuncExact(CoreTypeId),
}

/// A borrowed list of parsed types.
#[derive(Copy, Clone)]
pub struct TypesRef<'a> {
    pub definitions: &'a [ComponentDefinedType],
}

impl TypesRef<'_> {
    pub fn id(&self) -> u32 {
        0
    }
}

impl Index<ComponentDefinedTypeId> for TypesRef<'_> {
    type Output = ComponentDefinedType;
    fn index(&self, id: ComponentDefinedTypeId) -> &ComponentDefinedType {
        &self.definitions[id.0]
    }
}

macro_rules! never_looked_up {
    ($($id:ty => $found:ty)*) => {$(
        impl Index<$id> for TypesRef<'_> {
            type Output = $found;
            fn index(&self, _: $id) -> &$found {
                unimplemented!("the oracle converts defined types only")
            }
        }
    )*};
}

never_looked_up! {
    ComponentFuncTypeId => ComponentFuncType
    ComponentTypeId => ComponentType
    ComponentInstanceTypeId => ComponentInstanceType
    ComponentCoreModuleTypeId => ModuleType
}
