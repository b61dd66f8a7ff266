//! Each refusal with its number, its place and what it says.
use lampughjata::{Description, Memory, Place, Reference, Refusal, Refused, Result, Table};

/// Number, place and words of a refused call.
fn refused<T: std::fmt::Debug>(answer: Result<T>) -> (u8, Place, String) {
    let refused = answer.expect_err("a refusal");
    (refused.refusal.number(), refused.place, refused.to_string())
}

fn build(words: &[u32]) -> (u8, Place, String) {
    refused(Table::build(words))
}

/// Number and place of a refused build.
fn stopped(words: &[u32]) -> (u8, Place) {
    let (number, place, _) = build(words);
    (number, place)
}

fn at_definition(number: u8, index: u32, says: &str) -> (u8, Place, String) {
    (number, Place::Definition(index), says.to_string())
}

fn at_reference(number: u8, position: u32, says: &str) -> (u8, Place, String) {
    (number, Place::Reference(position), says.to_string())
}

#[test]
fn numbers_and_refusals_match() {
    for number in 0..=255 {
        let found = Refusal::from_number(number).map(Refusal::number);
        assert_eq!(found, (1..=9).contains(&number).then_some(number));
    }
}

#[test]
fn builds() {
    assert_eq!(
        build(&[6; 16_385]),
        at_definition(1, 0, "more than 16384 words or references (refusal 1)")
    );
    assert_eq!(
        build(&[6, 1, 1]),
        at_definition(
            2,
            1,
            "the description ends in the middle of a definition (refusal 2 at definition 1)"
        )
    );
    assert_eq!(
        build(&[11]),
        at_definition(
            3,
            0,
            "the kind of a definition is not 1 to 10 (refusal 3 at definition 0)"
        )
    );
    assert_eq!(
        build(&[8, 64]),
        at_definition(
            4,
            0,
            "a bad reference, or one to a definition that is not there yet (refusal 4 at \
             definition 0)"
        )
    );
    assert_eq!(
        build(&[7, 0]),
        at_definition(
            5,
            0,
            "a bad count: no case, more than 512 flags, or a maximum above 16 (refusal 5 at \
             definition 0)"
        )
    );
    assert_eq!(
        build(&[10, 4, 2_147_483_648]),
        at_definition(
            6,
            0,
            "an offset or a size is above 4294967295 (refusal 6 at definition 0)"
        )
    );
    assert_eq!(
        build(&[6, 1].repeat(1_025)),
        at_definition(
            7,
            1_024,
            "a buffer has no room for the next row, all offsets or all gaps (refusal 7 at \
             definition 1024)"
        )
    );
}

/// As many lists as `depth`, the first of `element` and each other of the one before it; and the last.
fn chain(element: Reference, depth: u32) -> (Description, Reference) {
    let mut description = Description::new();
    let last = (0..depth).fold(element, |inner, _| description.list(inner));
    (description, last)
}

#[test]
fn a_depth_of_100_is_the_last() {
    for (element, word) in [(Reference::U8, 200), (Reference::BORROW, 201)] {
        let (description, last) = chain(element, 100);
        let table = Table::build(description.words()).unwrap();
        assert_eq!(table.type_of(last).unwrap().depth, 100);
        assert_eq!(table.row(99).unwrap()[15], word);

        let (description, _) = chain(element, 101);
        assert_eq!(
            build(description.words()),
            at_definition(
                9,
                100,
                "a definition is more than 100 definitions deep (refusal 9 at definition 100)"
            )
        );
    }
}

#[test]
fn every_kind_with_a_part_can_be_too_deep() {
    let kinds: [fn(&mut Description, Reference) -> Reference; 11] = [
        |d, part| d.record(&[Reference::U8, part]),
        |d, part| d.variant(&[None, Some(part)]),
        |d, part| d.list(part),
        |d, part| d.tuple(&[part, Reference::U8]),
        |d, part| d.map(part, Reference::U8),
        |d, part| d.map(Reference::U8, part),
        |d, part| d.option(part),
        |d, part| d.result(Some(part), None),
        |d, part| d.result(None, Some(part)),
        |d, part| d.fixed_list(part, 0),
        |d, part| d.fixed_list(part, 1),
    ];
    for define in kinds {
        let (mut description, last) = chain(Reference::U8, 99);
        let last = define(&mut description, last);
        let table = Table::build(description.words()).unwrap();
        assert_eq!(table.type_of(last).unwrap().depth, 100);

        // The flags are there so that the refused definition's index is not its depth less one.
        description.flags(1);
        define(&mut description, last);
        assert_eq!(stopped(description.words()), (9, Place::Definition(101)));
    }
}

/// BadKind and BadCount are of definitions without parts, which are never too deep.
#[test]
fn too_deep_comes_after_no_room_truncated_and_bad_ref() {
    let (deepest, last) = chain(Reference::U8, 100);
    // Definition 100 names itself, before or after a part that makes it too deep.
    let itself = Reference::definition(100);
    for members in [[last, itself], [itself, last]] {
        let mut description = deepest.clone();
        description.record(&members);
        assert_eq!(stopped(description.words()), (4, Place::Definition(100)));
    }
    let truncated = [deepest.words(), &[1, 2, last.0]].concat();
    assert_eq!(stopped(&truncated), (2, Place::Definition(100)));

    let (too_deep, _) = chain(Reference::U8, 101);
    let mut buffer = [0; 100 * 16];
    let (number, place, _) = refused(Table::build_in(too_deep.words(), &mut buffer));
    assert_eq!((number, place), (7, Place::Definition(100)));
}

#[test]
fn too_deep_comes_before_too_large() {
    for (depth, number) in [(99, 6), (100, 9)] {
        let (lists, last) = chain(Reference::U8, depth);
        let mut large = lists.clone();
        large.fixed_list(last, 4_294_967_295);
        let refused = (number, Place::Definition(depth));
        assert_eq!(stopped(large.words()), refused);

        let mut large = lists;
        let huge = large.fixed_list(Reference::U8, 4_294_967_295);
        large.map(huge, last);
        let refused = (number, Place::Definition(depth + 1));
        assert_eq!(stopped(large.words()), refused, "a map's entry");
    }
}

#[test]
fn a_build_that_is_too_deep_has_written_the_rows_before() {
    const ROOM: usize = 102;
    let (too_deep, _) = chain(Reference::U8, 101);
    let mut buffer = [9; ROOM * 16];
    let (number, ..) = refused(Table::build_in(too_deep.words(), &mut buffer));
    assert_eq!(number, 9);
    // Word 15 of each row: the depths 1 to 100 doubled, and then two words as they were.
    let expected: Vec<u32> = (1..=100).map(|depth| 2 * depth).chain([9, 9]).collect();
    assert_eq!(buffer[15 * ROOM..], expected);
    let kinds = [vec![3; 100], vec![9; 2]].concat();
    assert_eq!(buffer[..ROOM], kinds);
}

#[test]
fn questions() {
    let table = Table::build(&[6, 1]).unwrap();
    let flags = Reference::definition(0);
    assert_eq!(
        refused(table.contains_borrow(&[Reference::U8; 16_385])),
        at_reference(1, 0, "more than 16384 words or references (refusal 1)")
    );
    assert_eq!(
        refused(table.contains_borrow(&[flags, Reference::definition(1)])),
        at_reference(
            4,
            1,
            "a bad reference, or one to a definition that is not there yet (refusal 4 at \
             reference 1)"
        )
    );
    assert_eq!(
        refused(table.flatten(Memory::Memory32, 17, &[])),
        at_reference(
            5,
            0,
            "a bad count: no case, more than 512 flags, or a maximum above 16 (refusal 5)"
        )
    );
}

/// Only a call in `raw` answers it: a placement of the crate has buffers of its own, as long as its members.
#[test]
fn no_room_for_offsets_or_gaps_is_at_no_reference() {
    let no_room = Refused {
        refusal: Refusal::NoRoom,
        place: Place::Reference(0),
    };
    assert_eq!(
        no_room.to_string(),
        "a buffer has no room for the next row, all offsets or all gaps (refusal 7)"
    );
}

#[test]
fn a_placement_too_large_names_the_member() {
    let mut description = Description::new();
    let gigabytes = description.fixed_list(Reference::U8, 4_294_967_295);
    let table = Table::build(description.words()).unwrap();
    let members = [gigabytes, Reference::U8];
    assert_eq!(
        refused(table.placement(Memory::Memory64, &members)),
        at_reference(
            6,
            1,
            "an offset or a size is above 4294967295 (refusal 6 at reference 1)"
        )
    );
}

#[test]
fn tables_from_elsewhere_are_tested() {
    let flags = Reference::definition(0);
    let says = "more rows than the table has room for, or a row not well formed (refusal 8 at \
                reference 0 or the whole)";
    let short = Table::from_words([0; 15], 1);
    assert_eq!(refused(short.type_of(flags)), at_reference(8, 0, says));
    assert_eq!((short.row(0), short.column(0)), (None, None));
    let bad = Table::from_words(vec![0; 16], 1);
    assert_eq!(refused(bad.type_of(flags)), at_reference(8, 0, says));

    let built = Table::build(&[6, 1]).unwrap();
    let lent = Table::from_words(built.words(), built.rows());
    assert_eq!(lent.type_of(flags), built.type_of(flags));
}

/// The row of flags with 1 to 8 labels.
const FLAGS: [u32; 16] = [6, 1, 1, 1, 1, 1, 0, 0, 0, 0, 0, 0, 0, 0, 0, 2];

#[test]
fn rows_are_tested_for_their_depth() {
    let flags = Reference::definition(0);
    let table = |word| Table::from_words([&FLAGS[..15], &[word]].concat(), 1);
    for (word, borrow, depth) in [
        (2, false, 1),
        (3, true, 1),
        (200, false, 100),
        (201, true, 100),
    ] {
        let info = table(word).type_of(flags).unwrap();
        assert_eq!((info.borrow, info.depth), (borrow, depth), "{word}");
        assert_eq!(table(word).contains_borrow(&[flags]), Ok(borrow), "{word}");
    }
    // The first two are those that tables had before rows had a depth.
    for word in [0, 1, 202, 203, 4_294_967_295] {
        let (number, place, _) = refused(table(word).contains_borrow(&[Reference::U8, flags]));
        assert_eq!((number, place), (8, Place::Reference(1)), "{word}");
    }
}

/// Forty words that held 9, with room for two rows, after so many rows of flags were built in them.
fn forty_with(rows: usize) -> [u32; 40] {
    std::array::from_fn(|place| match place {
        0..32 if place % 2 < rows => FLAGS[place / 2],
        _ => 9,
    })
}

#[test]
fn a_lent_buffer_keeps_its_other_words() {
    let mut buffer = [9; 40];
    let table = Table::build_in(&[6, 1, 6, 8], &mut buffer).unwrap();
    assert_eq!(table.rows(), 2);
    assert_eq!(buffer, forty_with(2));

    let mut buffer = [9; 40];
    let refused = Table::build_in(&[6, 1, 6, 513], &mut buffer).unwrap_err();
    assert_eq!(
        refused,
        Refused {
            refusal: Refusal::BadCount,
            place: Place::Definition(1),
        }
    );
    assert_eq!(buffer, forty_with(1), "the row before is written");
}

#[test]
fn a_part_of_a_table_is_another_table() {
    let mut buffer = [0; 48];
    let built = Table::build_in(&[6, 1, 8, 64], &mut buffer).unwrap();
    let flags = Reference::definition(0);
    assert_eq!(built.row(0), Some(FLAGS));
    let part = Table::from_words(&built.words()[..32], 2);
    let (number, ..) = refused(part.type_of(flags));
    assert_eq!(number, 8);
}

#[test]
fn references_that_no_word_can_hold_are_refused() {
    let table = Table::build(&[]).unwrap();
    let reference = Reference::definition(u32::MAX);
    let (number, ..) = refused(table.type_of(reference));
    assert_eq!(number, 4);

    let mut description = Description::new();
    description.variant(&[Some(reference)]);
    assert_eq!(build(description.words()).0, 4);
}
