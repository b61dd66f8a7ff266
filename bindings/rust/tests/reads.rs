//! How many rows builds and placements read back, by order 6's rule: one for each reference to a definition.
use lampughjata::{Description, Memory, Place, Reference, Refusal, Refused, Table};

/// As a count, this looks like the reference to definition 0.
const LIKE_A_REFERENCE: u32 = 64;

const BYTE: Reference = Reference::U8;

/// The rows read back by the build of one definition beside flags, to which it may refer.
fn reads(define: fn(&mut Description, Reference) -> Reference) -> Option<u32> {
    let mut description = Description::new();
    let part = description.flags(3);
    define(&mut description, part);
    Table::build(description.words()).unwrap().reads()
}

#[test]
fn no_words_read_nothing() {
    let table = Table::build(&[]).unwrap();
    assert_eq!((table.rows(), table.reads()), (0, Some(0)));
}

#[test]
fn every_kind_reads_its_parts() {
    assert_eq!(reads(|d, part| d.record(&[part, BYTE, part])), Some(2));
    assert_eq!(reads(|d, part| d.tuple(&[BYTE, part, part, part])), Some(3));
    assert_eq!(reads(|d, part| d.list(part)), Some(1));
    assert_eq!(reads(|d, part| d.map(part, BYTE)), Some(1));
    assert_eq!(reads(|d, part| d.map(BYTE, part)), Some(1));
    assert_eq!(reads(|d, part| d.map(part, part)), Some(2));
    assert_eq!(reads(|d, part| d.option(part)), Some(1));
    assert_eq!(reads(|d, part| d.fixed_list(part, 0)), Some(1));
    assert_eq!(
        reads(|d, part| d.fixed_list(part, LIKE_A_REFERENCE)),
        Some(1)
    );
}

#[test]
fn what_has_no_payload_is_not_read() {
    assert_eq!(reads(|d, _| d.variant(&[None, None])), Some(0));
    assert_eq!(
        reads(|d, part| d.variant(&[None, Some(part), Some(BYTE), Some(part), Some(part)])),
        Some(3)
    );
    assert_eq!(reads(|d, _| d.result(None, None)), Some(0));
    assert_eq!(reads(|d, part| d.result(Some(part), None)), Some(1));
    assert_eq!(reads(|d, part| d.result(None, Some(part))), Some(1));
    assert_eq!(reads(|d, part| d.result(Some(part), Some(part))), Some(2));
}

#[test]
fn types_without_definitions_are_not_read() {
    let mut description = Description::new();
    let all: Vec<Reference> = (0..18).map(Reference).collect();
    let payloads: Vec<Option<Reference>> = all.iter().copied().map(Some).collect();
    description.record(&all);
    description.tuple(&all);
    description.variant(&payloads);
    for reference in all {
        description.list(reference);
        description.map(reference, reference);
        description.option(reference);
        description.result(Some(reference), Some(reference));
        description.fixed_list(reference, 2);
    }
    assert_eq!(Table::build(description.words()).unwrap().reads(), Some(0));
}

#[test]
fn counts_are_not_read() {
    const COUNT: usize = LIKE_A_REFERENCE as usize;
    assert_eq!(reads(|d, _| d.record(&[BYTE; COUNT])), Some(0));
    assert_eq!(reads(|d, _| d.tuple(&[BYTE; COUNT])), Some(0));
    assert_eq!(reads(|d, _| d.variant(&[None; COUNT])), Some(0));
    assert_eq!(reads(|d, _| d.flags(LIKE_A_REFERENCE)), Some(0));
    assert_eq!(reads(|d, _| d.enumeration(LIKE_A_REFERENCE)), Some(0));
    assert_eq!(reads(|d, _| d.enumeration(u32::MAX)), Some(0));
    assert_eq!(reads(|d, _| d.fixed_list(BYTE, LIKE_A_REFERENCE)), Some(0));
}

/// A build of the first definitions reads what these refer to, whatever comes after them.
#[test]
fn each_definition_adds_its_references() {
    let mut description = Description::new();
    let mut so_far = Vec::new();
    let mut add = |define: &dyn Fn(&mut Description) -> Reference| {
        let reference = define(&mut description);
        let table = Table::build(description.words()).unwrap();
        so_far.push(table.reads().unwrap());
        reference
    };
    let list = add(&|d| d.list(BYTE));
    let option = add(&|d| d.option(list));
    let record = add(&|d| d.record(&[list, BYTE, option, list]));
    add(&|d| d.flags(LIKE_A_REFERENCE));
    add(&|d| d.map(record, option));
    add(&|d| d.fixed_list(record, LIKE_A_REFERENCE));
    assert_eq!(so_far, [0, 1, 4, 4, 6, 7]);
}

/// Flags, and a record of nothing else: of its 16,384 words all but the two kinds and two counts refer.
#[test]
fn the_longest_description_reads_fewer_rows_than_its_words() {
    let mut description = Description::new();
    let flags = description.flags(1);
    description.record(&[flags; 16_380]);
    assert_eq!(description.words().len(), 16_384);
    let table = Table::build(description.words()).unwrap();
    assert_eq!((table.rows(), table.reads()), (2, Some(16_380)));
}

/// Flags, and as many options of them as a table has room for.
#[test]
fn the_count_of_rows_is_told_apart() {
    let mut description = Description::new();
    let flags = description.flags(1);
    for _ in 1..1_024 {
        description.option(flags);
    }
    let table = Table::build(description.words()).unwrap();
    assert_eq!((table.rows(), table.reads()), (1_024, Some(1_023)));
}

#[test]
fn a_lent_buffer_makes_no_difference() {
    let words = [3, 2, 1, 3, 64, 2, 64];
    let mut buffer = [0; 100];
    let lent = Table::build_in(&words, &mut buffer).unwrap();
    let owned = Table::build(&words).unwrap();
    assert_eq!((lent.reads(), owned.reads()), (Some(2), Some(2)));
}

#[test]
fn only_the_table_that_was_built_tells() {
    let built = Table::build(&[3, 2, 8, 64]).unwrap();
    assert_eq!(built.clone().reads(), Some(1));
    let lent = Table::from_words(built.words(), built.rows());
    assert_eq!(lent.reads(), None);
}

#[test]
fn tables_differ_in_rows_and_words_alone() {
    let built = Table::build(&[3, 2, 8, 64]).unwrap();
    let words = built.words().to_vec();
    assert_eq!(built, Table::from_words(words.clone(), 2));
    assert_ne!(built, Table::from_words(words.clone(), 1));
    assert_ne!(built, Table::from_words([words, vec![0]].concat(), 2));

    // An empty record, and a record of one or two of it: the rows are the same.
    let once = Table::build(&[1, 0, 1, 1, 64]).unwrap();
    let twice = Table::build(&[1, 0, 1, 2, 64, 64]).unwrap();
    assert_eq!((once.reads(), twice.reads()), (Some(1), Some(2)));
    assert_eq!(once, twice);
}

/// A table of flags and an option of U64, and a reference to each.
fn table_of_two() -> (Table, [Reference; 2]) {
    let mut description = Description::new();
    let flags = description.flags(3);
    let wide = description.option(Reference::U64);
    (Table::build(description.words()).unwrap(), [flags, wide])
}

#[test]
fn placements_read_each_definition_each_time() {
    let (table, [flags, wide]) = table_of_two();
    for memory in [Memory::Memory32, Memory::Memory64] {
        let placed = |members: &[Reference]| {
            let placed = table.placement(memory, members).unwrap();
            (placed.size, placed.align, placed.reads)
        };
        assert_eq!(placed(&[]), (0, 1, 0));
        assert_eq!(placed(&[BYTE, Reference::U64]), (16, 8, 0));
        assert_eq!(placed(&[flags]), (1, 1, 1));
        assert_eq!(placed(&[flags, Reference::U16]), (4, 2, 1));
        assert_eq!(placed(&[flags, Reference::U32, flags]), (12, 4, 2));
        assert_eq!(placed(&[wide, BYTE, flags, wide]), (40, 8, 3));
    }
}

/// Around 24, 64, 256, 1,024 and 2,048 members, where the port changes its way, and up to the most.
#[test]
fn long_placements_read_as_many() {
    let (table, [flags, wide]) = table_of_two();
    for count in [
        24, 25, 64, 65, 256, 257, 1_024, 1_025, 2_048, 2_049, 16_383, 16_384,
    ] {
        for pattern in [&[wide][..], &[wide, BYTE, flags], &[BYTE, wide]] {
            let members: Vec<_> = pattern.iter().copied().cycle().take(count).collect();
            let scalars = members.iter().filter(|member| **member == BYTE).count();
            let placed = table.placement(Memory::Memory64, &members).unwrap();
            let told = (placed.align, placed.reads as usize);
            assert_eq!(told, (8, count - scalars), "{count} of {pattern:?}");
        }
    }
}

#[test]
fn a_placement_shows_its_layout() {
    let (table, [flags, _]) = table_of_two();
    let placed = table.placement(Memory::Memory32, &[flags]);
    assert_eq!(placed.unwrap().to_string(), "1 bytes, aligned to 1");
}

/// Each reads rows before it comes to what it refuses.
#[test]
fn refusals_are_as_they_were() {
    let refused = |refusal, place| Refused { refusal, place };
    let build = |words: &[u32]| Table::build(words).unwrap_err();
    let at = Place::Definition;
    assert_eq!(
        build(&[6, 1, 8, 64, 8, 66]),
        refused(Refusal::BadRef, at(2))
    );
    assert_eq!(build(&[6, 1, 8, 64, 8]), refused(Refusal::Truncated, at(2)));
    assert_eq!(
        build(&[6, 1, 10, 64, u32::MAX, 1, 2, 64, 65]),
        refused(Refusal::TooLarge, at(2))
    );

    let (table, [flags, wide]) = table_of_two();
    let members = [flags, wide, Reference::definition(2)];
    assert_eq!(
        table.placement(Memory::Memory64, &members),
        Err(refused(Refusal::BadRef, Place::Reference(2)))
    );
}
