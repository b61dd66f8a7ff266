//! 01's examples and order 4's, with the papers' own numbers written out, depths by order 5's rule, and whole
//! tables in order 11's columns. What the three say is compared as anywhere; here the model's answers are held
//! to the papers too.
use super::questions::{self, answer_is};
use crate::calls::{Question, Side, WRITTEN};
use crate::compare::{Built, Run};
use crate::generate::chain;
use crate::model::{Answer, Refused};
use crate::{encode, model};

const U8: u32 = 2;
const U16: u32 = 4;
const U32: u32 = 6;
const U64: u32 = 8;
const F32: u32 = 9;
const F64: u32 = 10;
const STRING: u32 = 12;
const BORROW: u32 = 14;
const MARK: u32 = u32::MAX;

/// Words of a row that an example tells.
const SIZE_ALIGN: [usize; 4] = [1, 2, 3, 4];

pub fn run(run: &mut Run) {
    records(run);
    variants(run);
    counts(run);
    large(run);
    signatures(run);
    // "The program on words 3 2 1 4 4 4 6 64 8 65 prints, whole".
    let mut built = accepted(run, &[3, 2, 1, 4, 4, 4, 6, 64, 8, 65], 3);
    row_is(run, &built, 0, &[0, 1, 2, 3, 4, 5], &[3, 8, 4, 16, 8, 2]);
    row_is(run, &built, 1, &[0, 1, 2, 3, 4, 5], &[1, 16, 4, 24, 8, 5]);
    row_is(run, &built, 2, &[0, 1, 2, 3, 4, 5], &[8, 20, 4, 32, 8, 6]);
    questions::every(run, &mut built.subject);
    columns(run);
    depths(run);
    chains(run);
    depths_read(run);
}

fn records(run: &mut Run) {
    // P1, P2, P3.
    let built = accepted(run, &[1, 0], 1);
    row_is(run, &built, 0, &SIZE_ALIGN, &[0, 1, 0, 1]);
    row_is(run, &built, 0, &[5], &[0]);
    let mut built = accepted(run, &[1, 2, U8, U32], 1);
    row_is(run, &built, 0, &SIZE_ALIGN, &[8, 4, 8, 4]);
    row_is(run, &built, 0, &[5], &[2]);
    for memory in [0, 1] {
        placement_is(run, &mut built, memory, &[U8, U32], &[0, 4], (8, 4, 0));
    }
    let mut built = accepted(run, &[1, 3, U8, STRING, U8], 1);
    row_is(run, &built, 0, &SIZE_ALIGN, &[16, 4, 32, 8]);
    row_is(run, &built, 0, &[5], &[4]);
    let members = [U8, STRING, U8];
    placement_is(run, &mut built, 0, &members, &[0, 4, 12], (16, 4, 3));
    placement_is(run, &mut built, 1, &members, &[0, 8, 24], (32, 8, 7));
}

fn variants(run: &mut Run) {
    // P5: option(U8).
    let built = accepted(run, &[8, U8], 1);
    row_is(run, &built, 0, &SIZE_ALIGN, &[2, 1, 2, 1]);
    row_is(run, &built, 0, &[9, 10], &[1, 1]);
    // P6: result(U64, String); I32 I64 I32, and I32 I64 I64.
    let built = accepted(run, &[9, U64, STRING], 1);
    row_is(run, &built, 0, &SIZE_ALIGN, &[16, 8, 24, 8]);
    row_is(run, &built, 0, &[9, 10], &[8, 8]);
    row_is(run, &built, 0, &[5, 6, 7], &[3, 0b00_01_00, 0b01_01_00]);
    // P7: variant(Float32, U32): I32 I32; variant(Float32, Float64): I32 I64.
    let built = accepted(run, &[2, 2, F32, U32, 2, 2, F32, F64], 2);
    row_is(run, &built, 0, &[5, 6, 7], &[2, 0, 0]);
    row_is(run, &built, 1, &[5, 6, 7], &[2, 0b01_00, 0b01_00]);
}

fn counts(run: &mut Run) {
    // P8, P9, P10.
    for (cases, size) in [(256, 1), (257, 2), (65_536, 2), (65_537, 4)] {
        let built = accepted(run, &[7, cases], 1);
        row_is(run, &built, 0, &SIZE_ALIGN, &[size; 4]);
        row_is(run, &built, 0, &[8], &[size]);
    }
    for (labels, size) in [(0, 0), (8, 1), (9, 2), (17, 4)] {
        let built = accepted(run, &[6, labels], 1);
        row_is(run, &built, 0, &[1, 3], &[size; 2]);
    }
    flags_of_groups(run);
    let built = accepted(run, &[10, U32, 16, 10, U32, 17], 2);
    row_is(run, &built, 0, &[5], &[16]);
    row_is(run, &built, 1, &[5], &[255]);
}

/// Order 4: "alignment 4, size four bytes and one flat I32 for each started group of 32 labels", "512 gives
/// 64 bytes, flat 16", "5 now begins at 513".
fn flags_of_groups(run: &mut Run) {
    for (labels, groups) in [(32, 1), (33, 2), (64, 2), (65, 3), (512, 16)] {
        let size = 4 * groups;
        let built = accepted(run, &[6, labels], 1);
        row_is(run, &built, 0, &SIZE_ALIGN, &[size, 4, size, 4]);
        row_is(run, &built, 0, &[5, 6, 7], &[groups, 0, 0]);
    }
    refused(run, &[6, 513], 5, 0);
    let built = accepted(run, &[6, 512, 1, 2, 64, U8], 2);
    row_is(run, &built, 1, &[1, 5], &[68, 255]);
    let built = accepted(run, &[6, 40, 10, 64, 8], 2);
    row_is(run, &built, 1, &[1, 5], &[64, 16]);
}

fn large(run: &mut Run) {
    // P11.
    let built = accepted(run, &[10, U16, 2_147_483_647], 1);
    row_is(run, &built, 0, &[1, 2], &[4_294_967_294, 2]);
    refused(run, &[10, U16, 2_147_483_648], 6, 0);
    refused(run, &[10, U16, 2_147_483_647, 1, 2, 64, U8], 6, 1);
    // P12.
    let built = accepted(run, &[10, U8, 4_294_967_294, 8, 64], 2);
    row_is(run, &built, 1, &[1, 3], &[u32::MAX; 2]);
    refused(run, &[10, U8, 4_294_967_295, 8, 64], 6, 1);
}

/// Lift sync in a 64-bit memory, lower async in a 32-bit one.
const LIFT: Side = Side {
    memory: 1,
    asynchronous: 0,
};
const LOWER: Side = Side {
    memory: 0,
    asynchronous: 1,
};

fn signatures(run: &mut Run) {
    // "Async start, five U32, lower async: one pointer; four: I32 four times."
    let mut built = accepted(run, &[], 0);
    for (count, list) in [(5, 1), (4, 4)] {
        let question = Question::AsyncStart {
            lower: LOWER,
            lift_memory: 0,
            lower_types: vec![U32; count],
            lift_types: vec![],
            k: 0,
        };
        answer_is(run, &mut built.subject, &question, encode::flat(list, 0));
    }
    // "Async return, lift sync 64, lower async 32, one U32 each: parameters I32 I64, no results."
    for (k, list) in [(0, encode::flat(2, 0b01_00)), (1, 0)] {
        let question = Question::AsyncReturn {
            lift: LIFT,
            lower: LOWER,
            lift_types: vec![U32],
            lower_types: vec![U32],
            k,
        };
        answer_is(run, &mut built.subject, &question, list);
    }
    // "Dropping an empty result record in async return: the list is not empty."
    let mut built = accepted(run, &[1, 0], 1);
    let question = Question::AsyncReturn {
        lift: LIFT,
        lower: LOWER,
        lift_types: vec![],
        lower_types: vec![64],
        k: 0,
    };
    answer_is(run, &mut built.subject, &question, encode::flat(1, 1));
}

/// What was in a lent table.
const LENT: u32 = 7;

/// Order 11: "sixteen runs, one per word of the old row, each as long as the table's capacity". The types
/// are list(U8) and option(U8).
fn columns(run: &mut Run) {
    // 33 words are a capacity of 2, and the last of them is in no run.
    let both = [
        3, 8, 8, 2, 4, 1, 16, 2, 8, 1, 2, 2, 0, 0, 5, 0, 0, 1, 0, 1, 0, 1, 0, 0, 0, 0, 0, 0, 0, 0,
        2, 2, LENT,
    ];
    table_is(run, &[3, U8, 8, U8], Ok(2), &both);
    // "A refused build leaves earlier entries of each run written, all else as it was."
    let refused = Refused { number: 3, at: 1 };
    let first = std::array::from_fn::<_, 33, _>(|place| match place % 2 {
        0 => both[place],
        _ => LENT,
    });
    table_is(run, &[3, U8, 99, U8], Err(refused), &first);
    // 31 words are a capacity of 1, so each run is one word long.
    let mut alone = [LENT; 31];
    alone[..16].copy_from_slice(&[3, 8, 4, 16, 8, 2, 0, 5, 0, 0, 0, 0, 0, 0, 0, 2]);
    table_is(run, &[3, U8], Ok(1), &alone);
    // Cut to 31 words, the table of both has other cells: row 0 has for 64 a size of 2 and an alignment of 4.
    let mut cut = run.forged(both[..31].to_vec(), 1);
    let question = Question::Type {
        reference: 64,
        k: 0,
    };
    answer_is(run, &mut cut, &question, 8 << 56);
}

/// Order 5: "one more than the deepest definition it refers to, 1 if it refers to none", and a word 15 of
/// "borrow plus twice the depth".
fn depths(run: &mut Run) {
    // Of each kind one that refers to no definition.
    for words in [
        &[1, 0][..],
        &[1, 2, U8, STRING],
        &[2, 2, MARK, U8],
        &[3, U8],
        &[4, 1, U64],
        &[5, U8, STRING],
        &[6, 40],
        &[7, 3],
        &[8, U8],
        &[9, MARK, MARK],
        &[10, U8, 0],
    ] {
        words_15_are(run, words, &[2]);
    }
    // "List elements and map parts included."
    words_15_are(run, &[3, BORROW], &[3]);
    words_15_are(run, &[3, U8, 3, 64, 8, 65], &[2, 4, 6]);
    words_15_are(
        run,
        &[3, U8, 5, 64, U8, 5, U8, 64, 5, 64, 64],
        &[2, 4, 4, 4],
    );
    words_15_are(run, &[3, U8, 8, 64, 5, 64, 65, 5, 65, 64], &[2, 4, 6, 6]);
    // The Borrow and the depth come from different members.
    words_15_are(run, &[3, U8, 3, 64, 1, 2, 65, BORROW], &[2, 4, 7]);
    words_15_are(run, &[3, BORROW, 3, U8, 3, 65, 4, 2, 64, 66], &[3, 2, 4, 7]);
    // The deepest member is the first, the last, or the same many times.
    words_15_are(run, &[3, U8, 3, 64, 1, 3, 65, 64, U8], &[2, 4, 6]);
    words_15_are(run, &[3, U8, 3, 64, 2, 3, MARK, 64, 65], &[2, 4, 6]);
    words_15_are(run, &[3, U8, 1, 4, 64, 64, 64, 64], &[2, 4]);
    words_15_are(run, &[6, 9, 9, MARK, 64, 9, 64, 65], &[2, 4, 6]);
    words_15_are(run, &[3, BORROW, 10, 64, 0], &[3, 5]);
}

/// Accepts, and has these as word 15 of its rows.
fn words_15_are(run: &mut Run, words: &[u32], numbers: &[u32]) {
    let mut built = accepted(run, words, numbers.len() as u64);
    for (row, number) in numbers.iter().enumerate() {
        row_is(run, &built, row, &[15], &[*number]);
        questions::whole_type(run, &mut built.subject, 64 + row as u32);
    }
}

/// Order 5: "9 TooDeep above 100, after BadRef and before TooLarge".
fn chains(run: &mut Run) {
    for (scalar, last) in [(U8, 200), (BORROW, 201)] {
        let built = accepted(run, &chain(3, scalar, 100), 100);
        row_is(run, &built, 99, &[15], &[last]);
        refused(run, &chain(3, scalar, 101), 9, 100);
        refused(run, &chain(3, scalar, 1_024), 9, 100);
    }
    let on_top = |definition: &[u32]| [&chain(3, U8, 100)[..], definition].concat();
    refused(run, &on_top(&[1, 2, 163, 18]), 4, 100);
    refused(run, &on_top(&[1, 2, 18, 163]), 4, 100);
    let large = [10, U8, u32::MAX, 1, 3, 164, 164];
    refused(run, &on_top(&[&large[..], &[163]].concat()), 9, 101);
    refused(run, &on_top(&[&large[..], &[162]].concat()), 6, 101);
    // Earlier rows are written, and nothing else: the last of 101 entries of each run keeps its value.
    let mut table = vec![];
    for number in [3, 8, 4, 16, 8, 2, 0, 5, 0, 0, 0, 0, 0, 0, 0] {
        table.extend([number; 100]);
        table.push(LENT);
    }
    table.extend((1..=100).map(|depth| 2 * depth));
    table.push(LENT);
    let too_deep = Refused { number: 9, at: 100 };
    table_is(run, &chain(3, U8, 101), Err(too_deep), &table);
}

/// Order 5: "a well-formed row has 2 to 201 there". The type question answers the borrow for 7 and the depth
/// from 8 on; a reference that is no definition has depth 0.
fn depths_read(run: &mut Run) {
    const BAD: u64 = 8 << 56;
    for (word, [borrow, depth]) in [
        (0, [BAD; 2]),
        (1, [BAD; 2]),
        (2, [0, 1]),
        (3, [1, 1]),
        (4, [0, 2]),
        (200, [0, 100]),
        (201, [1, 100]),
        (202, [BAD; 2]),
        (203, [BAD; 2]),
        (1 << 31, [BAD; 2]),
        (u32::MAX, [BAD; 2]),
    ] {
        let row = [3, 8, 4, 16, 8, 2, 0, 5, 0, 0, 0, 0, 0, 0, 0, word];
        let mut subject = run.forged(row.to_vec(), 1);
        for (k, answer) in [(7, borrow), (8, depth), (9, depth), (u32::MAX, depth)] {
            let reference = 64;
            answer_is(run, &mut subject, &Question::Type { reference, k }, answer);
        }
        let references = vec![64];
        let question = Question::ContainsBorrow { references };
        answer_is(run, &mut subject, &question, borrow);
    }
    let mut none = accepted(run, &[], 0);
    for (reference, borrow) in [(U8, 0), (STRING, 0), (BORROW, 1), (17, 0)] {
        for (k, answer) in [(7, borrow), (8, 0), (u32::MAX, 0)] {
            let question = Question::Type { reference, k };
            answer_is(run, &mut none.subject, &question, answer);
        }
    }
}

/// Builds in a table of as many words as these, which it must hold then.
fn table_is(run: &mut Run, words: &[u32], answer: Answer<u64>, table: &[u32]) {
    run.build_in(words, table.len());
    let mut lent = vec![LENT; table.len()];
    let said = model::build(words, &mut lent);
    run.tally.consistent(said == answer && lent == table, || {
        format!("the table of {words:?} is {table:?}, {answer:?}; the model's {lent:?}, {said:?}")
    });
}

fn accepted(run: &mut Run, words: &[u32], n: u64) -> Built {
    let built = run.description(words);
    let rows = encode::BUILD_READS.without(built.answer);
    run.tally.consistent(rows == n, || {
        format!(
            "01's example {words:?} has {n} definitions; the model says {:#x}",
            built.answer
        )
    });
    built
}

fn refused(run: &mut Run, words: &[u32], number: u64, index: u64) {
    let answer = run.description(words).answer;
    run.tally.consistent(answer == number << 56 | index, || {
        format!("01's example {words:?} is refused {number} at {index}; the model says {answer:#x}")
    });
}

fn row_is(run: &mut Run, built: &Built, row: usize, words: &[usize], numbers: &[u32]) {
    let whole = model::row(&built.subject.table, row);
    let found: Vec<u32> = words.iter().map(|word| whole[*word]).collect();
    run.tally.consistent(found == numbers, || {
        format!("01's example: words {words:?} of row {row} are {numbers:?}, the model's {found:?}")
    });
}

/// By the paper's offsets, size and alignment, and the gap after the last; the other gaps are in `padding`.
fn placement_is(
    run: &mut Run,
    built: &mut Built,
    memory: u32,
    references: &[u32],
    offsets: &[u32],
    (size, align, after): (u64, u64, u64),
) {
    let question = Question::Placement {
        memory,
        references: references.to_vec(),
        rooms: [references.len(); WRITTEN],
    };
    let answer = encode::placement(size, align, after, 0);
    let said = answer_is(run, &mut built.subject, &question, answer);
    run.tally.consistent(said == offsets, || {
        format!("01's example {question:?} has offsets {offsets:?}; the model says {said:?}")
    });
}
