//! Order 1's faults: in the core signature of a plain call, in its refusals, in what the original's parts give.
use super::Fault;
use crate::calls::Question;
use crate::encode;
use crate::model::{self, Row, definition_named, number, words_of};
use crate::original::Outcome;
use crate::port::{Call, Function};

/// Which of a call's slices holds what.
const TABLE: usize = 0;
const PARAMS: usize = 1;
const RESULTS: usize = 2;

impl Fault {
    /// A number of the call is taken for another.
    pub(super) fn before_functype(self, call: &mut Call) {
        let [memory, asynchronous, lower, callback, ..] = &mut call.numbers;
        match self {
            Fault::LiftAppends if *asynchronous == 0 => *lower = 1,
            Fault::StatusAlways => *callback = 1,
            Fault::OnlyOne => {
                for number in [memory, asynchronous, lower, callback] {
                    *number = u32::from(*number == 1);
                }
            }
            _ => {}
        }
    }

    pub(super) fn in_functype(self, call: &Call, answer: &mut u64) {
        if call.function != Function::Functype {
            return;
        }
        let [_, asynchronous, lower, _, _, k, ..] = call.numbers.map(|number| number != 0);
        *answer = match (encode::refusal(*answer), k) {
            (0, true) => self.in_results(call, *answer),
            (0, false) if lower && asynchronous => self.in_async_lower(call, *answer),
            (0, false) if lower => self.in_sync_lower(call, *answer),
            (0, false) if asynchronous => self.in_async_lift(call, *answer),
            (number::BAD_REF, _) => self.in_bad_reference(call, *answer),
            _ => return,
        };
    }

    fn in_results(self, call: &Call, answer: u64) -> u64 {
        let [memory, asynchronous, lower, callback, ..] = call.numbers.map(|number| number != 0);
        match self {
            Fault::WideStatus if asynchronous && memory && answer != NOTHING => pointer(call),
            Fault::SyncStatus if !asynchronous && !lower && callback => STATUS,
            _ => answer,
        }
    }

    fn in_async_lift(self, call: &Call, params: u64) -> u64 {
        match self {
            Fault::LiftTakesFour if count(params) > 4 => pointer(call),
            _ => params,
        }
    }

    fn in_sync_lower(self, call: &Call, params: u64) -> u64 {
        match self {
            Fault::PointerCounted if count(params) > 16 => pointer(call),
            Fault::OnePointer if flattened(call, PARAMS, 16) == encode::MEMORY => pointer(call),
            _ => params,
        }
    }

    fn in_async_lower(self, call: &Call, params: u64) -> u64 {
        let has_pointer = || flattened(call, RESULTS, 0) == encode::MEMORY;
        match self {
            Fault::LowerTakesSixteen => match flattened(call, PARAMS, 16) {
                encode::MEMORY => params,
                passed if has_pointer() => with(passed, pointer(call)),
                passed => passed,
            },
            Fault::PointerCounted if count(params) > 4 => pointer(call),
            Fault::PointerToNothing if !has_pointer() && references(call, RESULTS) > 0 => {
                with(params, pointer(call))
            }
            Fault::NoneIsNothing if has_pointer() && all_results(call, is_none_or_nothing) => {
                without_last(params)
            }
            Fault::StandardsNothing if has_pointer() && all_results(call, is_without_types) => {
                without_last(params)
            }
            _ => params,
        }
    }

    fn in_bad_reference(self, call: &Call, answer: u64) -> u64 {
        let params = references(call, PARAMS);
        match self {
            Fault::ResultsFirst => {
                let of_results = flattened(call, RESULTS, 16);
                match encode::refusal(of_results) {
                    number::BAD_REF => of_results + params,
                    _ => answer,
                }
            }
            Fault::PositionsAnew if encode::low(answer) >= params => answer - params,
            _ => answer,
        }
    }

    /// The last parameter that the original's parts give is lost, where this is the fault.
    pub fn original_params(fault: Option<Fault>, question: &Question, outcome: &mut Outcome) {
        if let (Some(Fault::OriginalParams), Question::Functype { k: 0, .. }) = (fault, question)
            && let Outcome::Is(params, _) = outcome
            && *params != NOTHING
        {
            *params = without_last(*params);
        }
    }
}

/// Lists of core types as a call answers them: none at all, and one I32.
const NOTHING: u64 = 0;
const STATUS: u64 = 1 << 40;

/// The list of one pointer of the call's memory.
fn pointer(call: &Call) -> u64 {
    encode::flat(1, u64::from(call.numbers[0] != 0))
}

fn count(list: u64) -> u64 {
    list >> 40
}

/// The packed types of the first ones of a list.
fn first_of(list: u64, many: u64) -> u64 {
    list & ((1 << (2 * many)) - 1)
}

/// A list, and behind it the one type of another.
fn with(list: u64, other: u64) -> u64 {
    let before = count(list);
    let packed = first_of(list, before) | first_of(other, 1) << (2 * before);
    encode::flat(before + 1, packed)
}

fn without_last(list: u64) -> u64 {
    let left = count(list) - 1;
    encode::flat(left, first_of(list, left))
}

/// What one of the call's lists flattens to at a maximum, by the model.
fn flattened(call: &Call, list: usize, max: u32) -> u64 {
    let question = Question::Flatten {
        memory: call.numbers[0],
        max,
        references: words_of(call.slices[list]),
    };
    let table = words_of(call.slices[TABLE]);
    let written = [&mut [][..], &mut []];
    encode::answer(model::ask(&question, &table, call.numbers[4], written))
}

/// How many references one of the call's lists has.
fn references(call: &Call, list: usize) -> u64 {
    call.slices[list].len() as u64 / 4
}

/// Whether each result names a row of this kind.
fn all_results(call: &Call, is_such: fn(&Row) -> bool) -> bool {
    let [table, _, results] = call.slices.map(words_of);
    let mut named = results.into_iter().map(definition_named);
    named.all(|row| row.is_some_and(|index| is_such(&model::row(&table, index))))
}

fn is_none_or_nothing(row: &Row) -> bool {
    [0, 255].contains(&row[5])
}

/// Without flat types by the standard, which has no flat count of none: a built type of no bytes.
fn is_without_types(row: &Row) -> bool {
    is_none_or_nothing(row) && row[1] == 0
}
