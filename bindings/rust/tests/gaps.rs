//! The bytes that placements report as lost, by order 10's rule: the gaps and the members' sizes make the
//! record's size.
use lampughjata::{Description, Memory, Place, Placement, Reference, Refusal, Refused, Table, raw};

const MEMORIES: [Memory; 2] = [Memory::Memory32, Memory::Memory64];

const BYTE: Reference = Reference::U8;

/// A table whose definitions have every alignment, two of them no bytes; and references to these and to scalars.
fn types() -> (Table, Vec<Reference>) {
    let mut description = Description::new();
    let mut types = vec![BYTE, Reference::U16, Reference::U32, Reference::U64];
    types.extend([Reference::STRING, Reference::BORROW]);
    types.extend([
        description.record(&[]),
        description.fixed_list(Reference::U64, 0),
        description.fixed_list(BYTE, 3),
        description.option(Reference::U16),
        description.flags(33),
        description.record(&[BYTE, Reference::STRING]),
    ]);
    (Table::build(description.words()).unwrap(), types)
}

/// A member begins where the one before it ends and its gap is over: at the first multiple of its alignment.
fn assert_adds_up(table: &Table, memory: Memory, members: &[Reference]) {
    let placed = table.placement(memory, members).unwrap();
    let lengths = (placed.offsets.len(), placed.gaps.len());
    assert_eq!(lengths, (members.len(), members.len()));
    let (mut end, mut greatest) = (0, 1);
    for ((member, offset), gap) in members.iter().zip(placed.offsets).zip(placed.gaps) {
        let layout = table.size_align(memory, *member).unwrap();
        assert_eq!(offset, end + gap, "{members:?}");
        assert!(gap < layout.align && offset % layout.align == 0);
        end = offset + layout.size;
        greatest = greatest.max(layout.align);
    }
    assert_eq!(placed.size, end + placed.gap_after, "{members:?}");
    assert!(placed.gap_after < greatest && placed.size % greatest == 0);
}

#[test]
fn every_three_members_add_up() {
    let (table, types) = types();
    let many = types.len();
    for number in 0..many.pow(3) {
        let members = [number, number / many, number / many.pow(2)].map(|k| types[k % many]);
        for memory in MEMORIES {
            assert_adds_up(&table, memory, &members);
        }
    }
}

/// Around 24, 64, 256, 1,024 and 2,048 members, where the port changes its way, and up to the most.
#[test]
fn long_placements_add_up() {
    let (table, types) = types();
    for count in [
        24, 25, 63, 64, 65, 255, 256, 257, 1_023, 1_024, 1_025, 2_047, 2_048, 2_049, 16_383, 16_384,
    ] {
        let members: Vec<_> = types.iter().copied().cycle().take(count).collect();
        for memory in MEMORIES {
            assert_adds_up(&table, memory, &members);
        }
    }
}

/// The gaps before the members, and the one after the last.
fn gaps(memory: Memory, members: &[Reference]) -> (Vec<u32>, u32) {
    let placed = types().0.placement(memory, members).unwrap();
    (placed.gaps, placed.gap_after)
}

#[test]
fn gaps_are_those_of_the_memory() {
    let members = [BYTE, Reference::STRING, BYTE];
    assert_eq!(gaps(Memory::Memory32, &members), (vec![0, 3, 0], 3));
    assert_eq!(gaps(Memory::Memory64, &members), (vec![0, 7, 0], 7));
}

#[test]
fn no_members_lose_nothing() {
    let nothing = Placement {
        offsets: vec![],
        gaps: vec![],
        size: 0,
        align: 1,
        gap_after: 0,
        reads: 0,
    };
    for memory in MEMORIES {
        let placed = Table::build(&[]).unwrap().placement(memory, &[]);
        assert_eq!(placed.as_ref(), Ok(&nothing));
        assert_eq!(placed.unwrap().padding(), 0);
    }
}

/// Its alignment still moves it, and rounds the size.
#[test]
fn a_member_of_no_bytes_has_a_gap() {
    let mut description = Description::new();
    let none = description.fixed_list(Reference::U64, 0);
    let table = Table::build(description.words()).unwrap();
    let placed = |members: &[Reference]| {
        let placed = table.placement(Memory::Memory32, members).unwrap();
        (placed.offsets, placed.gaps, placed.size, placed.gap_after)
    };
    assert_eq!(placed(&[none]), (vec![0], vec![0], 0, 0));
    assert_eq!(placed(&[BYTE, none]), (vec![0, 8], vec![0, 7], 8, 0));
    assert_eq!(placed(&[none, BYTE]), (vec![0, 0], vec![0, 0], 8, 7));
}

#[test]
fn what_a_member_loses_itself_is_in_its_size() {
    let mut description = Description::new();
    let members = [BYTE, Reference::U32];
    let inner = description.record(&members);
    let table = Table::build(description.words()).unwrap();
    let padding = |members: &[Reference]| {
        let placed = table.placement(Memory::Memory32, members).unwrap();
        placed.padding()
    };
    assert_eq!(padding(&members), 3);
    assert_eq!(padding(&[inner, inner]), 0);
    assert_eq!(padding(&[BYTE, inner, BYTE]), 3 + 3);
}

#[test]
fn gaps_below_four_gigabytes() {
    let mut description = Description::new();
    let long = description.fixed_list(BYTE, 4_294_967_273);
    let table = Table::build(description.words()).unwrap();
    let placed = |members: &[Reference]| {
        let placed = table.placement(Memory::Memory64, members).unwrap();
        (placed.gaps, placed.size, placed.gap_after)
    };
    let size = 4_294_967_288;
    assert_eq!(placed(&[long, Reference::U64]), (vec![0, 7], size, 0));
    assert_eq!(placed(&[Reference::U64, long]), (vec![0, 0], size, 7));
}

/// The buffers are as long as the members, however many these are.
#[test]
fn there_is_always_room() {
    let table = Table::build(&[]).unwrap();
    let refused = |refusal, position| Refused {
        refusal,
        place: Place::Reference(position),
    };
    let mut members = vec![BYTE; 16_384];
    let placed = table.placement(Memory::Memory32, &members);
    assert_eq!(placed.map(|placed| placed.size), Ok(16_384));

    members[16_383] = Reference::definition(0);
    assert_eq!(
        table.placement(Memory::Memory32, &members),
        Err(refused(Refusal::BadRef, 16_383))
    );
    members.push(BYTE);
    assert_eq!(
        table.placement(Memory::Memory32, &members),
        Err(refused(Refusal::TooLong, 0))
    );
}

/// A U8 and a second member, placed by the call itself in buffers of so many words that held 9; the answer and the
/// buffers.
fn placed_in<const O: usize, const G: usize>(second: Reference) -> (u64, [u32; O], [u32; G]) {
    let references = [BYTE.0, second.0];
    let (mut offsets, mut gaps) = ([9; O], [9; G]);
    // SAFETY: each pointer is of an array of the length beside it, and no two are of the same.
    let answer = unsafe {
        raw::words::placement(
            0,
            std::ptr::null(),
            0,
            0,
            references.as_ptr(),
            references.len(),
            offsets.as_mut_ptr(),
            O,
            gaps.as_mut_ptr(),
            G,
        )
    };
    (answer, offsets, gaps)
}

#[test]
fn lent_buffers_keep_their_later_words() {
    let placed = 16 | 8 << 32;
    assert_eq!(placed_in(Reference::U64), (placed, [0, 8], [0, 7]));
    assert_eq!(placed_in(Reference::U64), (placed, [0, 8, 9], [0, 7, 9, 9]));
}

#[test]
fn a_refusal_writes_neither_buffer() {
    let no_room = 7 << 56;
    assert_eq!(placed_in(Reference::U64), (no_room, [9; 2], [9; 1]));
    assert_eq!(placed_in(Reference::U64), (no_room, [9; 1], [9; 2]));
    assert_eq!(placed_in(Reference::U64), (no_room, [9; 0], [9; 0]));
    // No room comes before a bad reference, whichever buffer is short.
    let nobody = Reference::definition(0);
    assert_eq!(placed_in(nobody), (no_room, [9; 2], [9; 1]));
    assert_eq!(placed_in(nobody), (no_room, [9; 1], [9; 2]));
    assert_eq!(placed_in(nobody), (4 << 56 | 1, [9; 2], [9; 3]));
}
