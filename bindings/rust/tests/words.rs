//! The words that references and definitions are written as, by the scope document's table of kinds.
use lampughjata::{Description, Reference, Table};

#[test]
fn references_in_their_order() {
    let references = [
        Reference::BOOL,
        Reference::S8,
        Reference::U8,
        Reference::S16,
        Reference::U16,
        Reference::S32,
        Reference::U32,
        Reference::S64,
        Reference::U64,
        Reference::FLOAT32,
        Reference::FLOAT64,
        Reference::CHAR,
        Reference::STRING,
        Reference::OWN,
        Reference::BORROW,
        Reference::FUTURE,
        Reference::STREAM,
        Reference::ERROR_CONTEXT,
    ];
    assert!(references.into_iter().eq((0..18).map(Reference)));
    assert_eq!(Reference::definition(0), Reference(64));
}

#[test]
fn every_kind_of_definition() {
    const NO_PAYLOAD: u32 = 4_294_967_295;
    let (a, b) = (Reference::U8, Reference::U16);
    let mut description = Description::new();
    let mut written = Vec::new();
    let mut expect = |reference: Reference, index: u32, words: &[u32]| {
        assert_eq!(reference, Reference::definition(index));
        written.extend_from_slice(words);
    };
    expect(description.record(&[a, b]), 0, &[1, 2, 2, 4]);
    expect(
        description.variant(&[Some(a), None]),
        1,
        &[2, 2, 2, NO_PAYLOAD],
    );
    expect(description.list(a), 2, &[3, 2]);
    expect(description.tuple(&[a, b]), 3, &[4, 2, 2, 4]);
    expect(description.map(a, b), 4, &[5, 2, 4]);
    expect(description.flags(3), 5, &[6, 3]);
    expect(description.enumeration(3), 6, &[7, 3]);
    expect(description.option(a), 7, &[8, 2]);
    expect(description.result(None, Some(b)), 8, &[9, NO_PAYLOAD, 4]);
    expect(description.fixed_list(a, 3), 9, &[10, 2, 3]);
    assert_eq!(description.words(), written);

    let table = Table::build(description.words()).unwrap();
    let kinds = (0..table.rows()).map(|index| table.row(index).unwrap()[0]);
    assert!(kinds.eq(1..=10));
    assert_eq!(table.column(0), Some(&[1, 2, 3, 4, 5, 6, 7, 8, 9, 10][..]));
    // None refers to a definition, so each is of depth 1.
    assert_eq!(table.column(15), Some(&[2; 10][..]));
    // There is room for 15 rows and there are 10, so a run is longer than what is read of it.
    for word in 0..16 {
        let column = (0..table.rows()).map(|index| table.row(index).unwrap()[word]);
        assert!(column.eq(table.column(word).unwrap().iter().copied()));
    }
    assert_eq!(table.row(10), None);
}
