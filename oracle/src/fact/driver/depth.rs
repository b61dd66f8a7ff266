//! By hand: order 5's depth. The original does not know it; it is reckoned over the types that the original
//! holds, each definition's when it is converted.
use super::*;

impl Original {
    /// How deep a type goes; 0 for one that is no definition of the description.
    pub fn depth(&self, ty: &InterfaceType) -> u32 {
        self.depths.get(ty).copied().unwrap_or(0)
    }

    /// One more than the deepest of its parts, whose depths are known.
    pub(super) fn depth_over_parts(&self, ty: InterfaceType) -> u32 {
        let parts = self.parts(ty);
        1 + parts.iter().map(|part| self.depth(part)).max().unwrap_or(0)
    }

    /// What the original's type refers to.
    fn parts(&self, ty: InterfaceType) -> Vec<InterfaceType> {
        let builder = &self.builder;
        match ty {
            InterfaceType::Record(i) => builder[i].fields.iter().map(|field| field.ty).collect(),
            InterfaceType::Variant(i) => {
                let payloads = builder[i].cases.iter().filter_map(|(_, payload)| *payload);
                payloads.collect()
            }
            InterfaceType::List(i) => vec![builder[i].element],
            InterfaceType::Tuple(i) => builder[i].types.to_vec(),
            InterfaceType::Map(i) => vec![builder[i].key, builder[i].value],
            InterfaceType::Option(i) => vec![builder[i].ty],
            InterfaceType::Result(i) => {
                let result = &builder[i];
                result.ok.into_iter().chain(result.err).collect()
            }
            InterfaceType::FixedLengthList(i) => vec![builder[i].element],
            // Flags and enums hold names alone.
            _ => vec![],
        }
    }
}
