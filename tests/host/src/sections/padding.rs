//! Order 10: what roundings skip and the gaps of placements. The model is held to numbers that come from the
//! order; each call over lent memory is made over bytes too.
use super::{questions, refusal};
use crate::calls::{Info, Leaf, Question, WRITTEN};
use crate::compare::{Run, Subject};
use crate::encode::{self, PLACEMENT_READS};
use crate::generate;
use crate::model::{self, Answer, MOST_WORDS, ROW, Row, number, table_of};

const U8: u32 = 2;
const U16: u32 = 4;
const U32: u32 = 6;
const U64: u32 = 8;
const STRING: u32 = 12;
const MARK: u32 = u32::MAX;

/// Fixed lists of no elements, whose alignments are 1, 2, 4 and 8; a record that has a gap of its own at its end;
/// two of nearly 4 GiB, of which the second does not come to a multiple of 8.
const DEFINITIONS: [&[u32]; 7] = [
    &[10, U8, 0],
    &[10, U16, 0],
    &[10, U32, 0],
    &[10, U64, 0],
    &[1, 2, U32, U8],
    &[10, U8, 4_294_967_281],
    &[10, U8, 4_294_967_289],
];
const EMPTY1: u32 = 64;
const EMPTY2: u32 = 65;
const EMPTY4: u32 = 66;
const EMPTY8: u32 = 67;
const PADDED: u32 = 68;
const LARGE: u32 = 69;
const LARGER: u32 = 70;
const NO_DEFINITION: u32 = 71;

pub fn run(run: &mut Run) {
    let usual = std::mem::replace(&mut run.bytes_once_in, 1);
    roundings(run);
    fields(run);
    let mut subject = run.description(&DEFINITIONS.concat()).subject;
    examples(run, &mut subject);
    each_gap(run, &mut subject);
    rooms(run, &mut subject);
    refusals(run, &mut subject);
    refusals_in_order(run, &mut subject);
    lists_of_each_length(run, &mut subject);
    every_short_list(run, &mut subject);
    run.bytes_once_in = usual;
}

/// "The rounding leaf shall answer the rounded value with the bytes it skipped."
fn roundings(run: &mut Run) {
    for (place, align, value, skipped) in [
        (0, 1, 0, 0),
        (0, 8, 0, 0),
        (7, 1, 7, 0),
        (1, 2, 2, 1),
        (2, 2, 2, 0),
        (1, 4, 4, 3),
        (6, 4, 8, 2),
        (7, 4, 8, 1),
        (1, 8, 8, 7),
        (2, 8, 8, 6),
        (3, 8, 8, 5),
        (4, 8, 8, 4),
        (5, 8, 8, 3),
        (6, 8, 8, 2),
        (7, 8, 8, 1),
        (8, 8, 8, 0),
        (9, 8, 16, 7),
        (4_294_967_281, 8, 4_294_967_288, 7),
        (4_294_967_288, 8, 4_294_967_288, 0),
        (4_294_967_289, 4, 4_294_967_292, 3),
        (4_294_967_295, 1, 4_294_967_295, 0),
    ] {
        let answer = Ok(value | skipped << 32);
        leaf_is(run, &Leaf::AlignTo(place, align), answer);
    }
    for (place, align, refusal) in [
        (4_294_967_289, 8, number::TOO_LARGE),
        (4_294_967_293, 4, number::TOO_LARGE),
        (4_294_967_295, 2, number::TOO_LARGE),
        (5, 0, number::BAD_ROW),
        (5, 3, number::BAD_ROW),
        (16, 16, number::BAD_ROW),
        (4_294_967_295, 3, number::BAD_ROW),
    ] {
        leaf_is(run, &Leaf::AlignTo(place, align), Err(refusal));
    }
}

/// "Each caller passes that on": the offset, the moved end and the bytes skipped of a field.
fn fields(run: &mut Run) {
    const PAIR: Info = [8, 4, 16, 8, 2];
    const EMPTY: Info = [0, 8, 0, 8, 0];
    for (memory, info, end, numbers) in [
        (0, PAIR, 0, [0, 8, 0]),
        (0, PAIR, 1, [4, 12, 3]),
        (1, PAIR, 1, [8, 24, 7]),
        (0, PAIR, 6, [8, 16, 2]),
        (1, PAIR, 6, [8, 24, 2]),
        (0, PAIR, 4_294_967_281, [4_294_967_284, 4_294_967_292, 3]),
        (0, EMPTY, 1, [8, 8, 7]),
        (1, EMPTY, 4_294_967_283, [4_294_967_288, 4_294_967_288, 5]),
        (1, [1, 1, 1, 1, 1], 5, [5, 6, 0]),
    ] {
        field_is(run, (memory, info, end), Ok(numbers));
    }
    for (info, end, refusal) in [
        (PAIR, 4_294_967_281, number::TOO_LARGE),
        (EMPTY, 4_294_967_289, number::TOO_LARGE),
        ([8, 3, 16, 8, 2], 1, number::BAD_ROW),
        ([8, 4, 16, 0, 2], 1, number::BAD_ROW),
        ([8, 4, 16, 3, 2], 4_294_967_295, number::BAD_ROW),
    ] {
        field_is(run, (1, info, end), Err(refusal));
    }
}

/// By every k; one above the last chooses the bytes skipped as well.
fn field_is(run: &mut Run, (memory, info, end): (u32, Info, u32), due: Result<[u64; 3], u64>) {
    for (k, chosen) in [(0, 0), (1, 1), (2, 2), (3, 2), (u32::MAX, 2)] {
        let field = Leaf::NextField {
            memory,
            info,
            end,
            k,
        };
        leaf_is(run, &field, due.map(|numbers| numbers[chosen]));
    }
}

/// A record by hand.
struct Record {
    offsets: Vec<u32>,
    gaps: Vec<u32>,
    /// Size, alignment and the gap after the last member.
    whole: [u64; 3],
}

/// References, offsets, gaps before the members; size, alignment and the gap after the last.
type Example<'a> = (&'a [u32], &'a [u32], &'a [u32], [u64; 3]);

const IN_EITHER: [Example; 18] = [
    (&[], &[], &[], [0, 1, 0]),
    (&[U8], &[0], &[0], [1, 1, 0]),
    (&[U64], &[0], &[0], [8, 8, 0]),
    (&[U8, U8, U8], &[0, 1, 2], &[0, 0, 0], [3, 1, 0]),
    (&[U8, U32], &[0, 4], &[0, 3], [8, 4, 0]),
    // The record's alignment decides what is after the last, and not that member's own.
    (&[U64, U8], &[0, 8], &[0, 0], [16, 8, 7]),
    (&[U32, U8, U16], &[0, 4, 6], &[0, 0, 1], [8, 4, 0]),
    (&[U16, U32, U16], &[0, 4, 8], &[0, 2, 0], [12, 4, 2]),
    (
        &[U8, U64, U8, U16],
        &[0, 8, 16, 18],
        &[0, 7, 0, 1],
        [24, 8, 4],
    ),
    (
        &[U8, U16, U8, U32, U8, U64],
        &[0, 2, 4, 8, 12, 16],
        &[0, 1, 0, 3, 0, 3],
        [24, 8, 0],
    ),
    // A member of no bytes has the gap before it all the same.
    (&[EMPTY8], &[0], &[0], [0, 8, 0]),
    (&[U8, EMPTY8], &[0, 8], &[0, 7], [8, 8, 0]),
    (&[U8, EMPTY8, U64], &[0, 8, 8], &[0, 7, 0], [16, 8, 0]),
    (&[EMPTY8, U8, EMPTY1], &[0, 0, 1], &[0, 0, 0], [8, 8, 7]),
    (
        &[U8, EMPTY2, EMPTY4, EMPTY8],
        &[0, 2, 4, 8],
        &[0, 1, 2, 4],
        [8, 8, 0],
    ),
    // What is lost within a member is not lost again here.
    (&[U8, PADDED, U8], &[0, 4, 12], &[0, 3, 0], [16, 4, 3]),
    (
        &[LARGE, EMPTY8],
        &[0, 4_294_967_288],
        &[0, 7],
        [4_294_967_288, 8, 0],
    ),
    (&[EMPTY8, LARGE], &[0, 0], &[0, 0], [4_294_967_288, 8, 7]),
];

const IN_32: [Example; 2] = [
    (&[U8, STRING, U8], &[0, 4, 12], &[0, 3, 0], [16, 4, 3]),
    (&[U64, STRING, U8], &[0, 8, 16], &[0, 0, 0], [24, 8, 7]),
];

const IN_64: [Example; 2] = [
    (&[U8, STRING, U8], &[0, 8, 24], &[0, 7, 0], [32, 8, 7]),
    (&[STRING, U32, U8], &[0, 16, 20], &[0, 0, 0], [24, 8, 3]),
];

fn examples(run: &mut Run, subject: &mut Subject) {
    for (memory, own) in [(0, IN_32), (1, IN_64)] {
        for (references, offsets, gaps, whole) in IN_EITHER.into_iter().chain(own) {
            let record = Record {
                offsets: offsets.to_vec(),
                gaps: gaps.to_vec(),
                whole,
            };
            let rooms = [references.len(); WRITTEN];
            placed(run, subject, memory, (references, rooms), Ok(&record));
        }
    }
}

/// Each gap that there is, before a U64 that follows so many bytes and after those that follow a U64.
fn each_gap(run: &mut Run, subject: &mut Subject) {
    for (bytes, gap) in [7, 6, 5, 4, 3, 2, 1, 0].into_iter().enumerate() {
        let bytes = bytes + 1;
        let mut references = vec![U8; bytes];
        references.push(U64);
        let mut record = Record {
            offsets: (0..bytes as u32).chain([8]).collect(),
            gaps: vec![0; bytes],
            whole: [16, 8, 0],
        };
        record.gaps.push(gap);
        in_either(run, subject, &references, Ok(&record));
        references.rotate_right(1);
        record.offsets = [0].into_iter().chain((8..).take(bytes)).collect();
        record.gaps[bytes] = 0;
        record.whole[2] = gap.into();
        in_either(run, subject, &references, Ok(&record));
    }
}

/// Buffers that are too short, exact and longer, each of the two with each of the other; 7 where one is too short.
fn rooms(run: &mut Run, subject: &mut Subject) {
    for length in [0, 1, 3, 16, 17, 65] {
        let (references, record) = bytes_and_words(length);
        let around = [0, length.saturating_sub(1), length, length + 1, length + 5];
        for offsets in around {
            for gaps in around {
                let due = match offsets < length || gaps < length {
                    true => refusal(number::NO_ROOM, 0),
                    false => Ok(&record),
                };
                for memory in [0, 1] {
                    placed(run, subject, memory, (&references, [offsets, gaps]), due);
                }
            }
        }
    }
}

/// "A refusal writes neither buffer": the last member is too large, only the size is, the last reference is bad.
fn refusals(run: &mut Run, subject: &mut Subject) {
    for (references, number, at) in [
        (&[U8, LARGE, U64][..], number::TOO_LARGE, 2),
        (&[LARGE, U64], number::TOO_LARGE, 1),
        (&[U64, LARGER], number::TOO_LARGE, 1),
        (&[U8, LARGER, LARGER, U8], number::TOO_LARGE, 2),
        (&[LARGER, EMPTY8], number::TOO_LARGE, 1),
        (&[EMPTY8, LARGER], number::TOO_LARGE, 0),
        (&[U8, EMPTY4, LARGER], number::TOO_LARGE, 0),
        (&[U8, U64, 18], number::BAD_REF, 2),
        (&[U8, U64, NO_DEFINITION], number::BAD_REF, 2),
        (&[U8, U64, MARK], number::BAD_REF, 2),
    ] {
        in_either(run, subject, references, refusal(number, at));
    }
    const GOOD: Row = [3, 8, 4, 16, 8, 2, 0, 5, 0, 0, 0, 0, 0, 0, 0, 2];
    let mut bad = GOOD;
    bad[2] = 3;
    let mut forged = run.forged(table_of(&[GOOD, bad], 2 * ROW), 2);
    let due = refusal(number::BAD_ROW, 2);
    in_either(run, &mut forged, &[U8, 64, 65], due);
}

/// A gap buffer that is too short comes after TooLong and the number of rows, and before the references.
fn refusals_in_order(run: &mut Run, subject: &mut Subject) {
    let too_long = vec![U8; MOST_WORDS + 1];
    let mut no_rows = run.forged(vec![7; ROW], 2);
    for memory in [0, 1] {
        for rooms in [[3, 2], [2, 3], [2, 2], [3, 0], [0, 3]] {
            let mut short = |subject: &mut Subject, references: &[u32], number| {
                let due = refusal(number, 0);
                placed(run, subject, memory, (references, rooms), due);
            };
            short(subject, &too_long, number::TOO_LONG);
            short(&mut no_rows, &[U8, U64, 18], number::BAD_ROW);
            short(subject, &[18, U64, 18], number::NO_ROOM);
            short(subject, &[U64, LARGER, U8], number::NO_ROOM);
        }
    }
}

/// Around each number of references where the port may change its way.
const LENGTHS: [usize; 21] = [
    1,
    2,
    15,
    16,
    17,
    24,
    25,
    63,
    64,
    65,
    255,
    256,
    257,
    1_023,
    1_024,
    1_025,
    2_047,
    2_048,
    2_049,
    MOST_WORDS - 1,
    MOST_WORDS,
];

fn lists_of_each_length(run: &mut Run, subject: &mut Subject) {
    for length in LENGTHS {
        for (references, record) in [bytes_and_words(length), empty_and_bytes(length)] {
            in_either(run, subject, &references, Ok(&record));
            for rooms in [[length, length - 1], [length - 1, length]] {
                let due = refusal(number::NO_ROOM, 0);
                placed(run, subject, 0, (&references, rooms), due);
            }
        }
        let last = length as u64 - 1;
        let with_last = |member: u32, last: u32| [&vec![member; length - 1][..], &[last]].concat();
        let due = refusal(number::BAD_REF, last);
        in_either(run, subject, &with_last(U8, 18), due);
        if length > 1 {
            let due = refusal(number::TOO_LARGE, last);
            in_either(run, subject, &with_last(U64, LARGER), due);
            let due = refusal(number::TOO_LARGE, 0);
            in_either(run, subject, &with_last(EMPTY8, LARGER), due);
        }
    }
    let too_long = vec![U8; MOST_WORDS + 1];
    in_either(run, subject, &too_long, refusal(number::TOO_LONG, 0));
}

/// U8 and U64 in turn: each U64 has a gap of 7 before it, and a U8 at the end 7 bytes after it.
fn bytes_and_words(length: usize) -> (Vec<u32>, Record) {
    let whole = match length {
        0 => [0, 1, 0],
        1 => [1, 1, 0],
        _ if length % 2 == 0 => [8 * length as u64, 8, 0],
        _ => [8 * length as u64, 8, 7],
    };
    let record = Record {
        offsets: (0..length as u32).map(|member| 8 * member).collect(),
        gaps: [0, 7].into_iter().cycle().take(length).collect(),
        whole,
    };
    let references = [U8, U64].into_iter().cycle().take(length).collect();
    (references, record)
}

/// Empty ones aligned to 8 and U8 in turn: each empty one but the first has a gap of 7 before it.
fn empty_and_bytes(length: usize) -> (Vec<u32>, Record) {
    let pairs = length as u64 / 2;
    let mut record = Record {
        offsets: (0..length as u32).map(|member| member / 2 * 8).collect(),
        gaps: [7, 0].into_iter().cycle().take(length).collect(),
        whole: [8 * pairs, 8, if length % 2 == 0 { 7 } else { 0 }],
    };
    record.gaps[0] = 0;
    let references = [EMPTY8, U8].into_iter().cycle().take(length).collect();
    (references, record)
}

/// All short lists of members of each alignment, with bytes and without; no number is written out for these.
fn every_short_list(run: &mut Run, subject: &mut Subject) {
    const MEMBERS: [u32; 9] = [U8, U16, U32, U64, STRING, EMPTY2, EMPTY4, EMPTY8, PADDED];
    for references in generate::every_list(&MEMBERS, if run.quick { 3 } else { 4 }) {
        let rooms = [references.len(); WRITTEN];
        questions::placement_in(run, subject, 0, &references, rooms);
        questions::placement_in(run, subject, 1, &references, rooms);
    }
}

fn leaf_is(run: &mut Run, leaf: &Leaf, due: Result<u64, u64>) {
    run.leaf(leaf);
    let said = model::leaf(leaf);
    run.tally.consistent(said == due, || {
        format!("by order 10 {due:?}, the model says {said:?}: {leaf:?}")
    });
}

/// Places in either memory, with as much room as is due and with more.
fn in_either(run: &mut Run, subject: &mut Subject, references: &[u32], due: Answer<&Record>) {
    let length = references.len();
    for memory in [0, 1] {
        for rooms in [[length; WRITTEN], [length + 2, length + 3]] {
            placed(run, subject, memory, (references, rooms), due);
        }
    }
}

/// What was in a lent buffer.
const LENT: u32 = 99;

/// Places in buffers of so many words: they hold the order's numbers, and then what they held.
fn placed(
    run: &mut Run,
    subject: &mut Subject,
    memory: u32,
    (references, rooms): (&[u32], [usize; WRITTEN]),
    due: Answer<&Record>,
) {
    let question = Question::Placement {
        memory,
        references: references.to_vec(),
        rooms,
    };
    run.ask(subject, &question);
    let mut written = rooms.map(|room| vec![LENT; room]);
    let mut due_written = written.clone();
    let buffers = written.each_mut().map(|words| &mut words[..]);
    let said = model::ask(&question, &subject.table, subject.n, buffers);
    let said = said.map(|answer| PLACEMENT_READS.without(answer));
    let due = due.map(|record| {
        due_written[0][..references.len()].copy_from_slice(&record.offsets);
        due_written[1][..references.len()].copy_from_slice(&record.gaps);
        let [size, align, after] = record.whole;
        encode::placement(size, align, after, 0)
    });
    let same = said == due && written == due_written;
    run.tally.consistent(same, || {
        format!(
            "by order 10 {due:?} {due_written:?}, the model says {said:?} {written:?}: {question:?}"
        )
    });
}
