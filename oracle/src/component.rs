//! Stand-in for src/component.rs: its constants, and the two published modules.
use crate::PrimaryMap;
use crate::prelude::*;

include!("../extracted/component_items.rs");

mod info {
    use serde_derive::{Deserialize, Serialize};
    include!("../extracted/info_items.rs");
}
pub use info::*;

mod types {
    include!("../extracted/types.rs");

    /// By hand: a window on the private items of types.rs.
    pub mod opened;
}
pub use types::opened as types_opened;
pub use types::*;

mod types_builder {
    include!("../extracted/types_builder.rs");

    /// By hand: windows on the private items of types_builder.rs.
    pub mod arithmetic;
    pub mod opened;
}
pub use types_builder::arithmetic::Arithmetic;
pub use types_builder::opened as builder_opened;
pub use types_builder::*;

/// Stand-ins for what `ComponentTypesBuilder::finish` reads; the oracle never calls it.
pub struct Component {
    pub import_types: PrimaryMap<ImportIndex, (String, ComponentExtern)>,
    pub exports: Exports,
    pub export_items: PrimaryMap<ExportIndex, Export>,
}

pub struct Exports(Vec<(String, (ExportIndex, ComponentExternData))>);

impl Exports {
    pub fn raw_iter(&self) -> impl Iterator<Item = (&String, &(ExportIndex, ComponentExternData))> {
        self.0.iter().map(|(name, export)| (name, export))
    }
}

pub enum Export {
    LiftedFunction { ty: TypeFuncIndex },
    ModuleStatic { ty: TypeModuleIndex },
    ModuleImport { ty: TypeModuleIndex },
    Instance { ty: TypeComponentInstanceIndex },
    Type(TypeDef),
}
