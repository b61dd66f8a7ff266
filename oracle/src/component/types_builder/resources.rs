// Stand-in for types_builder/resources.rs, which is not among the published files: one resource
// table and one instance. It also holds the definitions converted so far, for the one changed line.
use super::*;

#[derive(Default)]
pub struct ResourcesBuilder {
    converted: Vec<Option<InterfaceType>>,
}

impl ResourcesBuilder {
    pub fn get_current_instance(&self) -> Option<RuntimeComponentInstanceIndex> {
        Some(RuntimeComponentInstanceIndex::from_u32(0))
    }

    pub fn convert(&mut self, _: ResourceId, types: &mut ComponentTypes) -> TypeResourceTableIndex {
        if types.resource_tables.is_empty() {
            let resource = AbstractResourceIndex::from_u32(0);
            types.push_resource_table(TypeResourceTable::Abstract(resource));
        }
        TypeResourceTableIndex::from_u32(0)
    }

    pub fn register_abstract_component_entity_type<'a>(
        &mut self,
        _: &TypesRef<'_>,
        _: ComponentEntityType,
        _: &mut Vec<&'a str>,
        _: &mut dyn FnMut(&[&'a str]) -> AbstractResourceIndex,
    ) {
        unimplemented!("the oracle converts defined types only")
    }

    /// What `remember` was told of this definition. Nothing, if it was never called: the original
    /// then goes its own way.
    pub fn converted(&self, id: ComponentDefinedTypeId) -> Option<InterfaceType> {
        self.converted.get(id.0).copied().flatten()
    }

    pub fn remember(&mut self, id: ComponentDefinedTypeId, ty: InterfaceType) {
        if self.converted.len() <= id.0 {
            self.converted.resize(id.0 + 1, None);
        }
        self.converted[id.0] = Some(ty);
    }
}
