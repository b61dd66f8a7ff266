//! Core signatures of functions that are lifted or lowered without an adapter, by order 1's rule.
use lampughjata::{
    Calling, Context, CoreType, Description, Function, Memory, Place, Reference, Refusal, Refused,
    Result, Side, Signature, Table,
};

/// Lift and lower, each sync and async.
fn ways() -> impl Iterator<Item = (Context, Calling)> {
    let callings = |context| [Calling::Sync, Calling::Async].map(|calling| (context, calling));
    [Context::Lift, Context::Lower]
        .into_iter()
        .flat_map(callings)
}

/// Without a callback, in a 64-bit memory, where a pointer is no I32.
fn function<'a>(
    calling: Calling,
    params: &'a [Reference],
    results: &'a [Reference],
) -> Function<'a> {
    Function {
        memory: Memory::Memory64,
        calling,
        callback: false,
        params,
        results,
    }
}

/// What the signature is where no type is a definition.
fn without_definitions(context: Context, function: Function) -> String {
    told(Table::build(&[]).unwrap().functype(context, function))
}

fn told(answer: Result<Signature>) -> String {
    answer.unwrap().to_string()
}

/// A table with one definition, and the reference to it.
fn with_definition(define: impl FnOnce(&mut Description) -> Reference) -> (Table, Reference) {
    let mut description = Description::new();
    let reference = define(&mut description);
    (Table::build(description.words()).unwrap(), reference)
}

/// Parameters of three core types, and a result of two.
const EVERY_WAY: [&str; 16] = [
    "Memory32, Lift, Sync: (F64, I32, I32) -> (I32)",
    "Memory32, Lift, Sync, callback: (F64, I32, I32) -> (I32)",
    "Memory32, Lift, Async: (F64, I32, I32) -> ()",
    "Memory32, Lift, Async, callback: (F64, I32, I32) -> (I32)",
    "Memory32, Lower, Sync: (F64, I32, I32, I32) -> ()",
    "Memory32, Lower, Sync, callback: (F64, I32, I32, I32) -> ()",
    "Memory32, Lower, Async: (F64, I32, I32, I32) -> (I32)",
    "Memory32, Lower, Async, callback: (F64, I32, I32, I32) -> (I32)",
    "Memory64, Lift, Sync: (F64, I64, I64) -> (I64)",
    "Memory64, Lift, Sync, callback: (F64, I64, I64) -> (I64)",
    "Memory64, Lift, Async: (F64, I64, I64) -> ()",
    "Memory64, Lift, Async, callback: (F64, I64, I64) -> (I32)",
    "Memory64, Lower, Sync: (F64, I64, I64, I64) -> ()",
    "Memory64, Lower, Sync, callback: (F64, I64, I64, I64) -> ()",
    "Memory64, Lower, Async: (F64, I64, I64, I64) -> (I32)",
    "Memory64, Lower, Async, callback: (F64, I64, I64, I64) -> (I32)",
];

#[test]
fn every_way_with_a_result_that_lies_in_memory() {
    let mut said = Vec::new();
    for memory in [Memory::Memory32, Memory::Memory64] {
        for (context, calling) in ways() {
            for (callback, also) in [(false, ""), (true, ", callback")] {
                let function = Function {
                    memory,
                    calling,
                    callback,
                    params: &[Reference::FLOAT64, Reference::STRING],
                    results: &[Reference::STRING],
                };
                let signature = without_definitions(context, function);
                said.push(format!(
                    "{memory:?}, {context:?}, {calling:?}{also}: {signature}"
                ));
            }
        }
    }
    assert_eq!(said, EVERY_WAY);
}

#[test]
fn a_sync_function_returns_one_core_type() {
    for (calling, context, expected) in [
        (Calling::Sync, Context::Lift, "() -> (F32)"),
        (Calling::Sync, Context::Lower, "() -> (F32)"),
        (Calling::Async, Context::Lift, "() -> ()"),
        (Calling::Async, Context::Lower, "(I64) -> (I32)"),
    ] {
        let function = function(calling, &[], &[Reference::FLOAT32]);
        assert_eq!(without_definitions(context, function), expected);
    }
}

/// How many core types so many parameters of U32 are.
fn passed(context: Context, calling: Calling, many: usize) -> usize {
    let params = vec![Reference::U32; many];
    let table = Table::build(&[]).unwrap();
    let signature = table.functype(context, function(calling, &params, &[]));
    signature.unwrap().params.len()
}

#[test]
fn an_async_lower_has_four_parameters_and_the_others_sixteen() {
    for (context, calling) in ways() {
        let most = match (context, calling) {
            (Context::Lower, Calling::Async) => 4,
            _ => 16,
        };
        assert_eq!(passed(context, calling, most), most);
        assert_eq!(passed(context, calling, most + 1), 1, "one pointer");
    }
}

#[test]
fn seventeen_parameters_are_the_most() {
    let table = Table::build(&[]).unwrap();
    let lowered = function(
        Calling::Sync,
        &[Reference::FLOAT64; 16],
        &[Reference::STRING],
    );
    let params = table.functype(Context::Lower, lowered).unwrap().params;
    let expected = [vec![CoreType::F64; 16], vec![CoreType::I64]].concat();
    assert_eq!(params.len(), 17);
    assert_eq!(params.iter().collect::<Vec<_>>(), expected);
}

/// A list of 17 has no flat count, and that is above every maximum.
#[test]
fn what_has_no_flat_count_lies_in_memory() {
    let (table, long) = with_definition(|d| d.fixed_list(Reference::U32, 17));
    for (calling, context, expected) in [
        (Calling::Sync, Context::Lift, "(I64) -> (I64)"),
        (Calling::Sync, Context::Lower, "(I64, I64) -> ()"),
        (Calling::Async, Context::Lift, "(I64) -> ()"),
        (Calling::Async, Context::Lower, "(I64, I64) -> (I32)"),
    ] {
        let types = &[long];
        let signature = table.functype(context, function(calling, types, types));
        assert_eq!(told(signature), expected);
    }
}

/// An async return looks at whether there is a result, an async lower at what it is flattened to.
#[test]
fn an_empty_record_has_a_pointer_in_an_async_return_alone() {
    let (table, empty) = with_definition(|d| d.record(&[]));
    let types = &[empty];
    let lowered = function(Calling::Async, types, types);
    assert_eq!(told(table.functype(Context::Lower, lowered)), "() -> (I32)");

    let side = Side {
        memory: Memory::Memory64,
        calling: Calling::Async,
        types,
    };
    assert_eq!(told(table.async_return(side, side)), "(I64) -> ()");
}

/// Every way refuses for the same reason and at the same place: an async lift too, where results play no part.
fn assert_refused(table: &Table, params: &[Reference], results: &[Reference], refused: Refused) {
    for (context, calling) in ways() {
        let answer = table.functype(context, function(calling, params, results));
        assert_eq!(answer, Err(refused), "{context:?}, {calling:?}");
    }
}

#[test]
fn parameters_are_tested_before_results_and_positions_count_on() {
    let (table, _) = with_definition(|d| d.flags(1));
    let (good, bad) = (Reference::definition(0), Reference::definition(1));
    let at = |position| Refused {
        refusal: Refusal::BadRef,
        place: Place::Reference(position),
    };
    assert_refused(&table, &[good, good], &[good, bad], at(3));
    assert_refused(&table, &[], &[bad], at(0));
    assert_refused(&table, &[good, bad], &[bad], at(1));
}

/// Before the table, which has no room for its row, and before the references, which are bad.
#[test]
fn either_list_can_be_too_long() {
    let table = Table::from_words(vec![0; 15], 1);
    let (most, more) = (vec![Reference(63); 16_384], vec![Reference(63); 16_385]);
    let nowhere = |refusal| Refused {
        refusal,
        place: Place::Reference(0),
    };
    assert_refused(&table, &more, &most, nowhere(Refusal::TooLong));
    assert_refused(&table, &most, &more, nowhere(Refusal::TooLong));
    assert_refused(&table, &most, &most, nowhere(Refusal::BadRow));
}
