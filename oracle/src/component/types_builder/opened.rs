//! By hand: what needs the private items of types_builder.rs.
use super::*;

pub fn join(mut a: FlatType, b: FlatType) -> FlatType {
    a.join(b);
    a
}

/// Puts a type with any numbers whatever into the original's tables (as a record that was never
/// built): what 01 calls a row that no build wrote. `flat` is None for no flat representation.
pub fn forge(
    builder: &mut ComponentTypesBuilder,
    abi: CanonicalAbiInfo,
    flat: Option<[Vec<FlatType>; 2]>,
    borrow: bool,
) -> InterfaceType {
    let fields = Box::new([]);
    let index = builder
        .component_types
        .records
        .push(TypeRecord { fields, abi });
    let mut info = TypeInformation::new();
    match flat {
        Some([flat32, flat64]) => {
            for (t32, t64) in flat32.iter().zip(&flat64) {
                assert!(info.flat.push(*t32, *t64));
            }
        }
        None => info.flat.len = u8::try_from(MAX_FLAT_TYPES + 1).unwrap(),
    }
    if borrow {
        info.handles = Handles::Borrow;
    }
    assert_eq!(builder.type_info.records.push(info), index);
    InterfaceType::Record(index)
}
