//! The examples of the scope document and of order 4, and depths by order 5's rule, through the crate.
use lampughjata::{
    Calling, CoreType, Description, Info, Layout, Memory, Place, Reference, Refusal, Refused, Side,
    Table,
};

const MEMORIES: [Memory; 2] = [Memory::Memory32, Memory::Memory64];

/// The last definition of a description.
fn last(define: impl FnOnce(&mut Description) -> Reference) -> Result<Info, Refused> {
    let mut description = Description::new();
    let reference = define(&mut description);
    Table::build(description.words())?.type_of(reference)
}

/// Size and alignment for 32, then for 64.
fn sizes(info: &Info) -> [(u32, u32); 2] {
    MEMORIES.map(|memory| {
        let Layout { size, align } = info.layout(memory);
        (size, align)
    })
}

fn flat_types(info: &Info, memory: Memory) -> String {
    match info.flat_types(memory) {
        Some(types) => types.to_string(),
        None => "none".to_string(),
    }
}

/// Where the payload of the one definition stands, for 32 and 64: words 9 and 10 of its row.
fn payload_offsets(define: impl FnOnce(&mut Description) -> Reference) -> [u32; 2] {
    let mut description = Description::new();
    define(&mut description);
    let row = Table::build(description.words()).unwrap().row(0).unwrap();
    [row[9], row[10]]
}

/// Where a record's members stand, and its size and alignment.
fn placed(memory: Memory, members: &[Reference]) -> (Vec<u32>, u32, u32) {
    let table = Table::build(&[]).unwrap();
    let placed = table.placement(memory, members).unwrap();
    (placed.offsets, placed.size, placed.align)
}

fn side(memory: Memory, calling: Calling, types: &[Reference]) -> Side<'_> {
    Side {
        memory,
        calling,
        types,
    }
}

fn refused_at(index: u32, refusal: Refusal) -> Refused {
    Refused {
        refusal,
        place: Place::Definition(index),
    }
}

#[test]
fn empty_record() {
    let info = last(|d| d.record(&[])).unwrap();
    assert_eq!(sizes(&info), [(0, 1), (0, 1)]);
    assert_eq!(info.flat_count, Some(0));
    assert_eq!(flat_types(&info, Memory::Memory32), "()");
}

#[test]
fn record_of_two_scalars() {
    let members = [Reference::U8, Reference::U32];
    for memory in MEMORIES {
        assert_eq!(placed(memory, &members), (vec![0, 4], 8, 4));
    }
    assert_eq!(last(|d| d.record(&members)).unwrap().flat_count, Some(2));
}

#[test]
fn record_around_a_string() {
    let members = [Reference::U8, Reference::STRING, Reference::U8];
    assert_eq!(placed(Memory::Memory32, &members), (vec![0, 4, 12], 16, 4));
    assert_eq!(placed(Memory::Memory64, &members), (vec![0, 8, 24], 32, 8));

    let info = last(|d| d.record(&members)).unwrap();
    assert_eq!(sizes(&info), [(16, 4), (32, 8)]);
    assert_eq!(info.flat_count, Some(4));
    assert_eq!(flat_types(&info, Memory::Memory32), "(I32, I32, I32, I32)");
    assert_eq!(flat_types(&info, Memory::Memory64), "(I32, I64, I64, I32)");
}

#[test]
fn option_of_a_byte() {
    let info = last(|d| d.option(Reference::U8)).unwrap();
    assert_eq!(sizes(&info), [(2, 1), (2, 1)]);
    assert_eq!(payload_offsets(|d| d.option(Reference::U8)), [1, 1]);
}

#[test]
fn result_of_a_number_or_a_string() {
    let result = |d: &mut Description| d.result(Some(Reference::U64), Some(Reference::STRING));
    let info = last(result).unwrap();
    assert_eq!(sizes(&info), [(16, 8), (24, 8)]);
    assert_eq!(payload_offsets(result), [8, 8]);
    assert_eq!(flat_types(&info, Memory::Memory32), "(I32, I64, I32)");
    assert_eq!(flat_types(&info, Memory::Memory64), "(I32, I64, I64)");
}

#[test]
fn variants_join_their_cases() {
    let joined = |other| {
        let info = last(|d| d.variant(&[Some(Reference::FLOAT32), Some(other)])).unwrap();
        flat_types(&info, Memory::Memory32)
    };
    assert_eq!(joined(Reference::U32), "(I32, I32)");
    assert_eq!(joined(Reference::FLOAT64), "(I32, I64)");
}

#[test]
fn enums_by_their_number_of_cases() {
    for (count, size) in [(256, 1), (257, 2), (65_536, 2), (65_537, 4)] {
        let info = last(|d| d.enumeration(count)).unwrap();
        assert_eq!(sizes(&info), [(size, size); 2], "{count} cases");
    }
}

#[test]
fn flags_by_their_number() {
    for (count, size, align) in [(0, 0, 1), (8, 1, 1), (9, 2, 2), (17, 4, 4)] {
        let info = last(|d| d.flags(count)).unwrap();
        assert_eq!(sizes(&info), [(size, align); 2], "{count} flags");
    }
}

#[test]
fn flags_by_groups() {
    for (count, groups) in [(32, 1), (33, 2), (64, 2), (65, 3), (512, 16)] {
        let info = last(|d| d.flags(count)).unwrap();
        assert_eq!(sizes(&info), [(4 * groups, 4); 2], "{count} flags");
        assert_eq!(
            info.flat_count.map(u32::from),
            Some(groups),
            "{count} flags"
        );
    }
    assert_eq!(
        last(|d| d.flags(513)),
        Err(refused_at(0, Refusal::BadCount))
    );
}

#[test]
fn seventeen_core_types_are_too_many() {
    let flat_count = |count| {
        last(|d| d.fixed_list(Reference::U32, count))
            .unwrap()
            .flat_count
    };
    assert_eq!(flat_count(16), Some(16));
    assert_eq!(flat_count(17), None);
}

#[test]
fn lists_around_four_gigabytes() {
    let list = |count| last(|d| d.fixed_list(Reference::U16, count));
    let info = list(2_147_483_647).unwrap();
    assert_eq!(sizes(&info), [(4_294_967_294, 2); 2]);
    assert_eq!(list(2_147_483_648), Err(refused_at(0, Refusal::TooLarge)));

    let with_one_byte_more = last(|d| {
        let list = d.fixed_list(Reference::U16, 2_147_483_647);
        d.record(&[list, Reference::U8])
    });
    assert_eq!(with_one_byte_more, Err(refused_at(1, Refusal::TooLarge)));
}

#[test]
fn options_around_four_gigabytes() {
    let option = |count| {
        last(|d| {
            let list = d.fixed_list(Reference::U8, count);
            d.option(list)
        })
    };
    let info = option(4_294_967_294).unwrap();
    assert_eq!(sizes(&info), [(4_294_967_295, 1); 2]);
    assert_eq!(option(4_294_967_295), Err(refused_at(1, Refusal::TooLarge)));
}

#[test]
fn async_start_goes_through_memory_above_four() {
    let table = Table::build(&[]).unwrap();
    let start = |types| {
        let side = side(Memory::Memory32, Calling::Async, types);
        table.async_start(side, side).unwrap().params.to_string()
    };
    assert_eq!(start(&[Reference::U32; 5]), "(I32)");
    assert_eq!(start(&[Reference::U32; 4]), "(I32, I32, I32, I32)");
}

#[test]
fn async_start_goes_from_the_lower_memory_to_the_lift_memory() {
    let table = Table::build(&[]).unwrap();
    let signature = table.async_start(
        side(Memory::Memory32, Calling::Sync, &[Reference::STRING; 3]),
        side(Memory::Memory64, Calling::Async, &[Reference::STRING]),
    );
    let expected = "(I32, I32, I32, I32, I32, I32) -> (I64, I64)";
    assert_eq!(signature.unwrap().to_string(), expected);
}

#[test]
fn async_return_adds_a_pointer_of_the_lift_side() {
    let table = Table::build(&[]).unwrap();
    let signature = table.async_return(
        side(Memory::Memory64, Calling::Sync, &[Reference::U32]),
        side(Memory::Memory32, Calling::Async, &[Reference::U32]),
    );
    assert_eq!(signature.unwrap().to_string(), "(I32, I64) -> ()");
}

#[test]
fn async_return_by_how_the_lift_side_is_called() {
    let table = Table::build(&[]).unwrap();
    let lower = side(Memory::Memory32, Calling::Sync, &[Reference::U32]);
    for (calling, expected) in [
        (Calling::Sync, "(I64) -> (I32)"),
        (Calling::Async, "(I64, I64) -> (I32)"),
    ] {
        let lift = side(Memory::Memory64, calling, &[Reference::STRING]);
        let signature = table.async_return(lift, lower).unwrap();
        assert_eq!(signature.to_string(), expected);
    }
}

#[test]
fn seventeen_core_types_are_the_longest_list() {
    let table = Table::build(&[]).unwrap();
    let side = side(Memory::Memory64, Calling::Async, &[Reference::FLOAT64; 16]);
    let params = table.async_return(side, side).unwrap().params;
    let expected = [vec![CoreType::F64; 16], vec![CoreType::I64]].concat();
    assert_eq!(params.len(), 17);
    assert_eq!(params.iter().collect::<Vec<_>>(), expected);
}

#[test]
fn words_of_the_program() {
    let mut description = Description::new();
    let bytes = description.list(Reference::U8);
    let record = description.record(&[Reference::U16, Reference::U16, Reference::U32, bytes]);
    let option = description.option(record);
    assert_eq!(description.words(), [3, 2, 1, 4, 4, 4, 6, 64, 8, 65]);

    let table = Table::build(description.words()).unwrap();
    let row = |reference| {
        let info = table.type_of(reference).unwrap();
        (sizes(&info), info.flat_count, info.depth)
    };
    assert_eq!(table.rows(), 3);
    assert_eq!(row(bytes), ([(8, 4), (16, 8)], Some(2), 1));
    assert_eq!(row(record), ([(16, 4), (24, 8)], Some(5), 2));
    assert_eq!(row(option), ([(20, 4), (32, 8)], Some(6), 3));
}

#[test]
fn size_and_alignment_are_the_types() {
    let mut description = Description::new();
    let record = description.record(&[Reference::U8, Reference::STRING]);
    let table = Table::build(description.words()).unwrap();
    let info = table.type_of(record).unwrap();
    for memory in MEMORIES {
        assert_eq!(table.size_align(memory, record), Ok(info.layout(memory)));
    }
}

#[test]
fn flatten_up_to_the_maximum() {
    let table = Table::build(&[]).unwrap();
    let types = [Reference::FLOAT64, Reference::FLOAT32, Reference::STRING];
    let flatten = |memory, max| table.flatten(memory, max, &types).unwrap().to_string();
    assert_eq!(flatten(Memory::Memory32, 4), "(F64, F32, I32, I32)");
    assert_eq!(flatten(Memory::Memory64, 4), "(F64, F32, I64, I64)");
    assert_eq!(flatten(Memory::Memory64, 3), "through memory");
}

#[test]
fn lowering_and_lifting_by_their_maximum() {
    let table = Table::build(&[]).unwrap();
    for (calling, lowered, lifted) in [
        (Calling::Sync, "through memory", "through memory"),
        (Calling::Async, "through memory", "(I32, I32)"),
    ] {
        let side = side(Memory::Memory32, calling, &[Reference::STRING]);
        assert_eq!(table.lowering(side).unwrap().to_string(), lowered);
        assert_eq!(table.lifting(side).unwrap().to_string(), lifted);
    }
    let byte = side(Memory::Memory32, Calling::Sync, &[Reference::U8]);
    assert_eq!(table.lowering(byte).unwrap().to_string(), "(I32)");
}

#[test]
fn borrows_are_reached_through_lists() {
    let mut description = Description::new();
    let handles = description.list(Reference::BORROW);
    let table = Table::build(description.words()).unwrap();
    assert!(table.type_of(handles).unwrap().borrow);
    assert_eq!(table.contains_borrow(&[Reference::U8, handles]), Ok(true));
    assert_eq!(table.contains_borrow(&[Reference::OWN]), Ok(false));
}

#[test]
fn what_is_no_definition_has_no_depth() {
    let table = Table::build(&[]).unwrap();
    for word in 0..18 {
        let info = table.type_of(Reference(word)).unwrap();
        let is_borrow = Reference(word) == Reference::BORROW;
        assert_eq!((info.borrow, info.depth), (is_borrow, 0), "{word}");
    }
}

/// The depth of each definition, and word 15 of its row.
fn depths(description: &Description) -> Vec<(u32, u32)> {
    let table = Table::build(description.words()).unwrap();
    let depth = |index| table.type_of(Reference::definition(index)).unwrap().depth;
    let words = table.column(15).unwrap().iter();
    let indexed = (0..).zip(words);
    indexed.map(|(index, word)| (depth(index), *word)).collect()
}

#[test]
fn borrow_and_depth_share_a_word() {
    let mut description = Description::new();
    let handles = description.list(Reference::BORROW);
    let bytes = description.list(Reference::U8);
    description.record(&[Reference::U8, handles]);
    description.option(bytes);
    assert_eq!(depths(&description), [(1, 3), (1, 2), (2, 5), (2, 4)]);
}

#[test]
fn a_map_is_deeper_than_its_key_and_its_value() {
    let mut description = Description::new();
    let byte = description.option(Reference::U8);
    let bytes = description.list(byte);
    description.map(Reference::U8, Reference::BORROW);
    description.map(byte, bytes);
    description.map(bytes, byte);
    assert_eq!(
        depths(&description),
        [(1, 2), (2, 4), (1, 3), (3, 6), (3, 6)]
    );
}

/// The flags are reached in three ways, and parts that stand side by side or are named twice add nothing.
#[test]
fn the_depth_is_the_longest_way_down() {
    let mut description = Description::new();
    let flags = description.flags(3);
    let list = description.list(flags);
    let option = description.option(list);
    description.variant(&[Some(flags), None, Some(option), Some(option), Some(list)]);
    assert_eq!(depths(&description), [(1, 2), (2, 4), (3, 6), (4, 8)]);
}
