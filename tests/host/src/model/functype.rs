//! Order 1: "the standard's function flattening" (CanonicalABI.md, `flatten_functype`), for "a function lifted or lowered
//! without an adapter".
use super::layout::{Core, Type};
use super::signature::{Side, flatten};
use crate::calls;

pub struct PlainCall {
    side: Side,
    lower: bool,
    callback: bool,
}

impl PlainCall {
    /// The boundary's words: 0 is a lift, and no callback; any other a lower, and a callback.
    pub fn of(plain: calls::PlainCall) -> PlainCall {
        PlainCall {
            side: Side::of(plain.side),
            lower: plain.lower != 0,
            callback: plain.callback != 0,
        }
    }
}

/// Parameters and results. "A flat count of none is above every maximum", as in `flatten`.
pub fn functype(plain: PlainCall, params: &[Type], results: &[Type]) -> [Vec<Core>; 2] {
    let Side {
        memory,
        asynchronous,
    } = plain.side;
    let pointer = memory.pointer();
    // "Async lower takes four flat parameters at most"; by the standard all others take sixteen.
    let max = if asynchronous && plain.lower { 4 } else { 16 };
    let mut passed = flatten(memory, max, params).unwrap_or(vec![pointer]);
    let returned = match (asynchronous, plain.lower) {
        // "Sync lift puts a large result behind a returned pointer."
        (false, false) => flatten(memory, 1, results).unwrap_or(vec![pointer]),
        // "Sync lower appends a pointer parameter."
        (false, true) => flatten(memory, 1, results).unwrap_or_else(|| {
            passed.push(pointer);
            vec![]
        }),
        // "Async lift returns I32 with a callback and nothing without."
        (true, false) if plain.callback => vec![Core::I32],
        (true, false) => vec![],
        // "An async lower whose result flattens to nothing gets no pointer"; it "returns one I32".
        (true, true) => {
            if flatten(memory, 0, results).is_none() {
                passed.push(pointer);
            }
            vec![Core::I32]
        }
    };
    [passed, returned]
}
