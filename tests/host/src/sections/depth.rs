//! Order 5: definitions around a depth of 100, on each other by every way to refer to one, and what is
//! refused where more than the depth is wrong. The model is held to numbers that come from the order.
use super::questions;
use crate::compare::{Built, Run};
use crate::encode;
use crate::generate::chain;
use crate::model::{self, MOST_ROWS, MOST_WORDS, ROW};

const U8: u32 = 2;
const BORROW: u32 = 14;
const MARK: u32 = u32::MAX;
/// The answers where definition 100 is at fault.
const BAD_REF: u64 = 4 << 56 | 100;
const TOO_LARGE: u64 = 6 << 56 | 100;
const TOO_DEEP: u64 = 9 << 56 | 100;
/// The reference to definition 99, which has a depth of 100 where each definition is on the one before.
const DEEPEST: u32 = 64 + 99;

/// A definition that refers to one that goes deep, and to another that does not.
type Way = fn(u32, u32) -> Vec<u32>;

/// Every kind that takes references, the deep one in each place.
const WAYS: [Way; 22] = [
    |deep, _| vec![1, 1, deep],
    |deep, other| vec![1, 3, deep, other, U8],
    |deep, other| vec![1, 3, other, deep, U8],
    |deep, other| vec![1, 3, U8, other, deep],
    |deep, _| vec![2, 1, deep],
    |deep, _| vec![2, 2, deep, deep],
    |deep, other| vec![2, 3, deep, MARK, other],
    |deep, other| vec![2, 3, other, MARK, deep],
    |deep, _| vec![3, deep],
    |deep, other| vec![4, 2, deep, other],
    |deep, other| vec![4, 2, other, deep],
    |deep, other| vec![5, deep, other],
    |deep, other| vec![5, other, deep],
    |deep, _| vec![5, deep, deep],
    |deep, _| vec![8, deep],
    |deep, _| vec![9, deep, MARK],
    |deep, _| vec![9, MARK, deep],
    |deep, other| vec![9, deep, other],
    |deep, other| vec![9, other, deep],
    |deep, _| vec![9, deep, deep],
    |deep, _| vec![10, deep, 1],
    |deep, _| vec![10, deep, 0],
];

pub fn run(run: &mut Run) {
    for way in WAYS {
        for (scalar, borrow) in [(U8, 0), (BORROW, 1)] {
            chains(run, way, scalar, borrow);
            all_rows(run, way, scalar, borrow);
        }
    }
    doubled(run);
    bad_references(run);
    other_refusals(run);
    too_large(run);
    shared(run);
    all_words(run);
}

/// Definitions, each on the one so many before it; the first ones are on the scalar. From then on the first
/// definition of all is the other that they refer to.
fn definitions(way: Way, scalar: u32, many: usize, back: usize) -> Vec<u32> {
    let on = |index: usize| match index.checked_sub(back) {
        Some(before) => way(64 + before as u32, 64),
        None => way(scalar, scalar),
    };
    (0..many).flat_map(on).collect()
}

/// Each definition on the one before: "9 TooDeep above 100", so at index 100.
fn chains(run: &mut Run, way: Way, scalar: u32, borrow: u32) {
    for many in [99, 100, 101, 102, 130] {
        let words = definitions(way, scalar, many, 1);
        let answer = if many <= 100 { many as u64 } else { TOO_DEEP };
        let mut built = built(run, &words, answer);
        for index in 0..many.min(100) {
            word_15_is(run, &built, index, borrow + 2 * (index as u32 + 1));
        }
        let last = 64 + built.subject.n - 1;
        questions::whole_type(run, &mut built.subject, last);
        questions::lists(run, &mut built.subject, &[last, 64], &[last]);
        // Where there is no row for it, that comes first.
        for (rows, limited) in [(99, 7 << 56 | 99), (100, 7 << 56 | 100), (101, TOO_DEEP)] {
            let answer = if many <= rows { answer } else { limited };
            built_in(run, &words, rows, answer);
        }
    }
}

/// As many definitions as there are rows, one fewer and one more. Each on the one 10 before, definition 1000
/// is the first of depth 101. Each on the one 11 or 50 before, the last two have depths of 93 and 94, or 21.
fn all_rows(run: &mut Run, way: Way, scalar: u32, borrow: u32) {
    let words = definitions(way, scalar, MOST_ROWS, 10);
    let refused = built(run, &words, 9 << 56 | 1_000);
    word_15_is(run, &refused, 999, borrow + 2 * 100);
    for (back, depths) in [(11, [93, 94]), (50, [21, 21])] {
        for (many, answer) in [
            (MOST_ROWS - 1, 1_023),
            (MOST_ROWS, 1_024),
            (MOST_ROWS + 1, 7 << 56 | 1_024),
        ] {
            let mut built = built(run, &definitions(way, scalar, many, back), answer);
            let rows = 1_022..built.subject.n as usize;
            for (row, depth) in rows.zip(depths) {
                word_15_is(run, &built, row, borrow + 2 * depth);
            }
            let last = 64 + built.subject.n - 1;
            questions::whole_type(run, &mut built.subject, last);
            questions::lists(run, &mut built.subject, &[last, 64], &[last]);
        }
    }
}

/// Records and tuples of the one before twice. Of no bytes they go as deep as any; of eight, definition 29
/// comes to 4 GiB.
fn doubled(run: &mut Run) {
    for kind in [1, 4] {
        for (first, answer) in [(vec![1, 0], TOO_DEEP), (vec![1, 1, 8], 6 << 56 | 29)] {
            let twice = |index: u32| vec![kind, 2, 64 + index - 1, 64 + index - 1];
            let words = first.into_iter().chain((1..130).flat_map(twice));
            built(run, &words.collect::<Vec<u32>>(), answer);
        }
    }
}

/// Kinds with two references.
const PAIRS: [fn(u32, u32) -> Vec<u32>; 5] = [
    |a, b| vec![1, 2, a, b],
    |a, b| vec![4, 2, a, b],
    |a, b| vec![5, a, b],
    |a, b| vec![2, 2, a, b],
    |a, b| vec![9, a, b],
];

/// "After BadRef": a bad reference, after the one that goes too deep as well as before it.
fn bad_references(run: &mut Run) {
    for base in [chain(3, U8, 100), chain(8, U8, 100)] {
        for (kind, pair) in PAIRS.into_iter().enumerate() {
            for bad in [18, 63, 64 + 100, 64 + 101, MARK - 1, MARK] {
                // A variant and a result take the mark for a payload that is not there.
                let is_payload = bad == MARK && kind >= 3;
                let answer = if is_payload { TOO_DEEP } else { BAD_REF };
                built(run, &[&base[..], &pair(DEEPEST, bad)].concat(), answer);
                built(run, &[&base[..], &pair(bad, DEEPEST)].concat(), answer);
            }
            built(run, &[&base[..], &pair(DEEPEST, U8)].concat(), TOO_DEEP);
            built(run, &[&base[..], &pair(U8, DEEPEST - 1)].concat(), 101);
        }
    }
}

/// What is tested before BadRef, and what comes after the definition that goes too deep.
fn other_refusals(run: &mut Run) {
    let base = chain(3, U8, 100);
    for (definition, answer) in [
        (&[11, DEEPEST][..], 3 << 56 | 100),
        (&[1, 2, DEEPEST], 2 << 56 | 100),
        (&[2, 0, 3, DEEPEST], 5 << 56 | 100),
        (&[3, DEEPEST, 99], TOO_DEEP),
        (&[3, U8, 3, DEEPEST], 9 << 56 | 101),
    ] {
        built(run, &[&base[..], definition].concat(), answer);
    }
}

/// "Before TooLarge". All definitions have 4294967295 bytes, and each is one deeper than the one before.
fn too_large(run: &mut Run) {
    let mut base = vec![10, U8, u32::MAX];
    base.extend((1..100).flat_map(|index| [10, 64 + index - 1, 1]));
    let ways: [fn(u32) -> Vec<u32>; 15] = [
        |large| vec![1, 2, large, U8],
        |large| vec![1, 2, U8, large],
        |large| vec![1, 3, 64, 64, large],
        |large| vec![1, 3, large, 64, 64],
        |large| vec![4, 2, large, U8],
        |large| vec![4, 2, large, large],
        |large| vec![2, 1, large],
        |large| vec![2, 2, 64, large],
        |large| vec![5, large, U8],
        |large| vec![5, U8, large],
        |large| vec![5, 64, large],
        |large| vec![8, large],
        |large| vec![9, large, MARK],
        |large| vec![9, MARK, large],
        |large| vec![10, large, 2],
    ];
    for way in ways {
        built(run, &[&base[..], &way(DEEPEST)].concat(), TOO_DEEP);
        built(run, &[&base[..], &way(DEEPEST - 1)].concat(), TOO_LARGE);
    }
    let bad_too = [1, 4, DEEPEST, 64, 64, 18];
    built(run, &[&base[..], &bad_too].concat(), BAD_REF);
}

/// The depth is the longest way down, however many ways there are.
fn shared(run: &mut Run) {
    for kind in [1, 2, 4] {
        let mut words = vec![3, BORROW, kind, 300];
        words.resize(4 + 300, 64);
        let many = built(run, &words, 2);
        word_15_is(run, &many, 1, 5);
    }
    // Each refers to the one before ten times.
    let ten_times: Way = |deep, _| [&[2, 10][..], &[deep; 10]].concat();
    let layers = built(run, &definitions(ten_times, U8, 101, 1), TOO_DEEP);
    word_15_is(run, &layers, 99, 200);
    // All on the first, and a tree whose last definition is ten steps from it.
    let on_first: fn(u32) -> u32 = |_| 0;
    let in_tree: fn(u32) -> u32 = |index| (index - 1) / 2;
    for (on, depth) in [(on_first, 2), (in_tree, 11)] {
        let mut words = vec![3, U8];
        words.extend((1..1_024).flat_map(|index| [3, 64 + on(index)]));
        let full = built(run, &words, 1_024);
        word_15_is(run, &full, 1_023, 2 * depth);
    }
}

/// Definitions that take all the words there may be, each on the one 50 before; one word more and one fewer.
fn all_words(run: &mut Run) {
    let fourteen: Way = |deep, other| {
        let cases = [deep, other, U8, MARK, deep, other, U8, MARK, deep, other];
        [&[2, 14][..], &cases, &[BORROW, 12, 8, deep]].concat()
    };
    let words = definitions(fourteen, U8, MOST_ROWS, 50);
    let full = built(run, &words, 1_024);
    word_15_is(run, &full, 1_023, 1 + 2 * 21);
    run.tally.consistent(words.len() == MOST_WORDS, || {
        format!("{} words are not as many as there may be", words.len())
    });
    built(run, &[&words[..], &[0]].concat(), 1 << 56);
    built(run, &words[..MOST_WORDS - 1], 2 << 56 | 1_023);
}

/// Builds, and holds the model's answer to the order's.
fn built(run: &mut Run, words: &[u32], answer: u64) -> Built {
    let built = run.description(words);
    answer_is(run, words, built.answer, answer);
    built
}

/// The same in a table with room for so many rows.
fn built_in(run: &mut Run, words: &[u32], rows: usize, answer: u64) {
    let said = run.build_in(words, ROW * rows);
    answer_is(run, words, said, answer);
}

/// Of an accepted build the rows alone.
fn answer_is(run: &mut Run, words: &[u32], said: u64, answer: u64) {
    let said = match encode::refusal(said) {
        0 => encode::BUILD_READS.without(said),
        _ => said,
    };
    run.tally.consistent(said == answer, || {
        format!("by order 5 {answer:#x}, the model says {said:#x}: {words:?}")
    });
}

fn word_15_is(run: &mut Run, built: &Built, row: usize, word: u32) {
    let said = model::row(&built.subject.table, row)[15];
    run.tally.consistent(said == word, || {
        format!("by order 5 word 15 of row {row} is {word}, the model's {said}")
    });
}
