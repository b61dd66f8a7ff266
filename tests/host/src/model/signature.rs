//! 01's module 6: flattening and the core signatures.
use super::layout::{Core, Memory, Type};
use crate::calls;

#[derive(Clone, Copy)]
pub struct Side {
    pub memory: Memory,
    pub asynchronous: bool,
}

impl Side {
    /// The boundary's words: async is 0 for sync, any other for async.
    pub fn of(side: calls::Side) -> Side {
        Side {
            memory: Memory::of(side.memory),
            asynchronous: side.asynchronous != 0,
        }
    }
}

/// The list, or None for "memory": "when some flat count is none or the sum exceeds the maximum".
pub fn flatten(memory: Memory, max: usize, types: &[Type]) -> Option<Vec<Core>> {
    let mut list = Vec::new();
    for ty in types {
        list.extend_from_slice(ty.flat_in(memory)?);
    }
    if list.len() > max { None } else { Some(list) }
}

/// "Lowering: maximum 1, async 0."
pub fn lowering(side: Side, types: &[Type]) -> Option<Vec<Core>> {
    let max = if side.asynchronous { 0 } else { 1 };
    flatten(side.memory, max, types)
}

/// "Lifting: maximum 1, async 16."
pub fn lifting(side: Side, types: &[Type]) -> Option<Vec<Core>> {
    let max = if side.asynchronous { 16 } else { 1 };
    flatten(side.memory, max, types)
}

/// "Parameters are the lower side's, maximum 16, or 4 if lower is async; results are the lift side's
/// parameter types, maximum 16. `Memory` gives one pointer of that side's memory."
pub fn async_start(
    lower: Side,
    lower_types: &[Type],
    lift_memory: Memory,
    lift_types: &[Type],
) -> [Vec<Core>; 2] {
    let max = if lower.asynchronous { 4 } else { 16 };
    let params = flatten(lower.memory, max, lower_types);
    let results = flatten(lift_memory, 16, lift_types);
    [
        params.unwrap_or(vec![lower.memory.pointer()]),
        results.unwrap_or(vec![lift_memory.pointer()]),
    ]
}

/// "Parameters are the lifting of the lift results, or one lift pointer. If lower is async and its
/// result list is not empty, or is sync and flattens at maximum 1 to `memory`, one more lift pointer
/// follows and there are no results. Otherwise results are lower's flat list."
pub fn async_return(
    lift: Side,
    lift_types: &[Type],
    lower: Side,
    lower_types: &[Type],
) -> [Vec<Core>; 2] {
    let pointer = lift.memory.pointer();
    let mut params = lifting(lift, lift_types).unwrap_or(vec![pointer]);
    let flat = flatten(lower.memory, 1, lower_types);
    let behind_pointer = match lower.asynchronous {
        true => !lower_types.is_empty(),
        false => flat.is_none(),
    };
    if behind_pointer {
        params.push(pointer);
        return [params, vec![]];
    }
    // Async with no result types flattens to the empty list.
    [params, flat.expect("a list that is not behind a pointer")]
}
