//! Order 1: the core signatures of plain calls. The model is held to signatures that come from the order; each call is
//! made over bytes too.
use super::questions::{answer_is, every_plain_call, functype, plain_calls};
use super::refusal;
use crate::calls::{PlainCall, Question, Side};
use crate::compare::{Run, Subject};
use crate::model::{Answer, Core, MOST_WORDS, ROW, Row, number, table_of};
use crate::{encode, generate};

const U8: u32 = 2;
const U32: u32 = 6;
const U64: u32 = 8;
const F32: u32 = 9;
const F64: u32 = 10;
const STRING: u32 = 12;
const MARK: u32 = u32::MAX;

/// Three that flatten to nothing; a fixed list of seventeen, which has no flat count, and a fixed list of none of these,
/// which has none either; records of two, four, five, sixteen and seventeen flat types.
const DEFINITIONS: [&[u32]; 10] = [
    &[1, 0],
    &[6, 0],
    &[10, U64, 0],
    &[10, U32, 17],
    &[10, NO_COUNT, 0],
    &[1, 2, F32, U64],
    &[1, 4, U32, U64, F32, F64],
    &[1, 2, FOUR, U32],
    &[1, 4, FOUR, FOUR, FOUR, FOUR],
    &[1, 2, SIXTEEN, U32],
];
const EMPTY_RECORD: u32 = 64;
const NO_LABELS: u32 = 65;
const NO_ELEMENTS: u32 = 66;
const NO_COUNT: u32 = 67;
const EMPTY_NO_COUNT: u32 = 68;
const TWO: u32 = 69;
const FOUR: u32 = 70;
const FIVE: u32 = 71;
const SIXTEEN: u32 = 72;
const SEVENTEEN: u32 = 73;
const NO_DEFINITION: u32 = 74;

/// As many references as flat types, which begin as those of the records do.
const SEPARATE: [u32; 17] = [
    U32, U64, F32, F64, U32, U64, F32, F64, U32, U64, F32, F64, U32, U64, F32, F64, U32,
];

pub fn run(run: &mut Run) {
    let usual = std::mem::replace(&mut run.bytes_once_in, 1);
    let mut subject = run.description(&DEFINITIONS.concat()).subject;
    for (params, results, signatures) in EXAMPLES {
        signatures_are(run, &mut subject, [params, results], signatures);
    }
    halves(run, &mut subject);
    unlike_async_return(run, &mut subject);
    long_lists(run, &mut subject);
    refusals(run, &mut subject);
    refusals_of_long_lists(run, &mut subject);
    bad_rows(run);
    refusals_in_order(run, &mut subject);
    every_short_list(run, &mut subject);
    run.bytes_once_in = usual;
}

/// The references of parameters and results; then what goes in and comes out of a sync lift, a sync lower, an async lift
/// without a callback, one with a callback, and an async lower. A letter is a core type: i and I are I32 and I64, f and F
/// are F32 and F64, p is a pointer of the memory.
type Example<'a> = (&'a [u32], &'a [u32], [&'a str; 5]);

const EXAMPLES: [Example; 12] = [
    (&[], &[], ["->", "->", "->", "->i", "->i"]),
    (&[U64], &[F64], ["I->F", "I->F", "I->", "I->i", "Ip->i"]),
    // "An async lower whose result flattens to nothing gets no pointer here."
    (
        &[U64],
        &[EMPTY_RECORD],
        ["I->", "I->", "I->", "I->i", "I->i"],
    ),
    // "Async lower takes four flat parameters at most", beside which there is the pointer.
    (
        &[U32, U64, F32, F64],
        &[],
        ["iIfF->", "iIfF->", "iIfF->", "iIfF->i", "iIfF->i"],
    ),
    (
        &[U32, U64, F32, F64],
        &[U8],
        ["iIfF->i", "iIfF->i", "iIfF->", "iIfF->i", "iIfFp->i"],
    ),
    // An async lift takes sixteen.
    (
        &[U32, U64, F32, F64, U32],
        &[],
        ["iIfFi->", "iIfFi->", "iIfFi->", "iIfFi->i", "p->i"],
    ),
    (
        &[STRING, STRING, U8],
        &[STRING],
        ["ppppi->p", "ppppip->", "ppppi->", "ppppi->i", "pp->i"],
    ),
    // "Sync lower appends a pointer parameter": the seventeenth, or the second beside the one to the parameters.
    (
        &[SIXTEEN],
        &[TWO],
        [
            "iIfFiIfFiIfFiIfF->p",
            "iIfFiIfFiIfFiIfFp->",
            "iIfFiIfFiIfFiIfF->",
            "iIfFiIfFiIfFiIfF->i",
            "pp->i",
        ],
    ),
    (&SEPARATE, &[TWO], ["p->p", "pp->", "p->", "p->i", "pp->i"]),
    // "A flat count of none is above every maximum", of 0 and of 1 too, and where there is not one flat type.
    (
        &[NO_COUNT],
        &[NO_COUNT],
        ["p->p", "pp->", "p->", "p->i", "pp->i"],
    ),
    (&[], &[EMPTY_NO_COUNT], ["->p", "p->", "->", "->i", "p->i"]),
    (
        &[EMPTY_NO_COUNT],
        &[],
        ["p->", "p->", "p->", "p->i", "p->i"],
    ),
];

/// Each list of parameters with each list of results.
fn halves(run: &mut Run, subject: &mut Subject) {
    for (params, passed, of_async_lower) in PARAMS {
        for (results, lifted, [appended, returned], appended_async) in RESULTS {
            let signatures = [
                format!("{passed}->{lifted}"),
                format!("{passed}{appended}->{returned}"),
                format!("{passed}->"),
                format!("{passed}->i"),
                format!("{of_async_lower}{appended_async}->i"),
            ];
            let signatures = signatures.each_ref().map(|signature| &signature[..]);
            signatures_are(run, subject, [params, results], signatures);
        }
    }
}

/// References of parameters, and what is passed of them: to a lift and by a sync lower; by an async lower.
const PARAMS: [(&[u32], &str, &str); 20] = [
    (&[], "", ""),
    (&[EMPTY_RECORD], "", ""),
    (&[NO_LABELS, NO_ELEMENTS], "", ""),
    (&[U64], "I", "I"),
    (&[EMPTY_RECORD, F32, NO_LABELS], "f", "f"),
    (&[STRING, STRING], "pppp", "pppp"),
    (SEPARATE.split_at(4).0, "iIfF", "iIfF"),
    (&[FOUR], "iIfF", "iIfF"),
    (&[FOUR, NO_ELEMENTS], "iIfF", "iIfF"),
    (SEPARATE.split_at(5).0, "iIfFi", "p"),
    (&[FIVE], "iIfFi", "p"),
    (&[STRING, FOUR], "ppiIfF", "p"),
    (SEPARATE.split_at(16).0, "iIfFiIfFiIfFiIfF", "p"),
    (&[SIXTEEN], "iIfFiIfFiIfFiIfF", "p"),
    (&[NO_LABELS, SIXTEEN, EMPTY_RECORD], "iIfFiIfFiIfFiIfF", "p"),
    (&SEPARATE, "p", "p"),
    (&[SIXTEEN, U8], "p", "p"),
    (&[SEVENTEEN], "p", "p"),
    (&[U8, NO_COUNT], "p", "p"),
    (&[EMPTY_NO_COUNT], "p", "p"),
];

/// References of results; what a sync lift returns of them; what a sync lower appends to its parameters, and what it
/// returns; what an async lower appends.
const RESULTS: [(&[u32], &str, [&str; 2], &str); 20] = [
    (&[], "", ["", ""], ""),
    (&[EMPTY_RECORD], "", ["", ""], ""),
    (&[NO_LABELS], "", ["", ""], ""),
    (&[NO_ELEMENTS], "", ["", ""], ""),
    (&[NO_LABELS, EMPTY_RECORD, NO_ELEMENTS], "", ["", ""], ""),
    (&[U8], "i", ["", "i"], "p"),
    (&[U64], "I", ["", "I"], "p"),
    (&[F32], "f", ["", "f"], "p"),
    (&[EMPTY_RECORD, F64, NO_LABELS], "F", ["", "F"], "p"),
    (&[TWO], "p", ["p", ""], "p"),
    (&[F32, U64], "p", ["p", ""], "p"),
    (&[STRING], "p", ["p", ""], "p"),
    (&[FOUR], "p", ["p", ""], "p"),
    (&[SIXTEEN], "p", ["p", ""], "p"),
    (&SEPARATE, "p", ["p", ""], "p"),
    (&[SEVENTEEN], "p", ["p", ""], "p"),
    (&[NO_COUNT], "p", ["p", ""], "p"),
    (&[U8, NO_COUNT], "p", ["p", ""], "p"),
    (&[EMPTY_NO_COUNT], "p", ["p", ""], "p"),
    (&[EMPTY_RECORD, EMPTY_NO_COUNT], "p", ["p", ""], "p"),
];

/// "Unlike 01's async return", which pushes a pointer for a result list that is not empty.
fn unlike_async_return(run: &mut Run, subject: &mut Subject) {
    for result in [EMPTY_RECORD, NO_LABELS, NO_ELEMENTS] {
        for memory in [0, 1] {
            let [lift, lower] = [0, 1].map(|asynchronous| Side {
                memory,
                asynchronous,
            });
            let question = Question::AsyncReturn {
                lift,
                lower,
                lift_types: vec![],
                lower_types: vec![result],
                k: 0,
            };
            answer_is(run, subject, &question, encode::list(&types("p", memory)));
            let plain = PlainCall {
                side: lower,
                lower: 1,
                callback: 0,
            };
            let question = functype(plain, [&[], &[result]], 0);
            answer_is(run, subject, &question, encode::list(&[]));
        }
    }
}

/// Around each number of references where the port may change its way.
const LENGTHS: [usize; 8] = [1, 15, 16, 17, 64, 1_024, 1_025, MOST_WORDS];

/// Lists of types that flatten to nothing, without and with a flat type at the very end.
fn long_lists(run: &mut Run, subject: &mut Subject) {
    for length in LENGTHS {
        let nothing = vec![EMPTY_RECORD; length];
        let [long, two, none] = [U64, TWO, NO_COUNT].map(|last| with_last(&nothing, last));
        for (params, results, signatures) in [
            (&nothing, &nothing, ["->", "->", "->", "->i", "->i"]),
            (&long, &nothing, ["I->", "I->", "I->", "I->i", "I->i"]),
            (&nothing, &long, ["->I", "->I", "->", "->i", "p->i"]),
            (&two, &two, ["fI->p", "fIp->", "fI->", "fI->i", "fIp->i"]),
            (&none, &none, ["p->p", "pp->", "p->", "p->i", "pp->i"]),
        ] {
            signatures_are(run, subject, [params, results], signatures);
        }
    }
}

fn with_last(list: &[u32], last: u32) -> Vec<u32> {
    [&list[1..], &[last]].concat()
}

/// "Refusals: those of a question, parameters tested before results", whose positions count on. An async lift does not
/// look at its results, and tests them all the same.
fn refusals(run: &mut Run, subject: &mut Subject) {
    for (params, results, at) in [
        (&[18][..], &[][..], 0),
        (&[], &[MARK], 0),
        (&[U8, NO_DEFINITION, U8], &[U8], 1),
        (&[U8, U8], &[18], 2),
        (&[U8, U8], &[U8, NO_DEFINITION], 3),
        (&[U8, U8, 63], &[18, 63], 2),
        (&[SEVENTEEN, SIXTEEN, 18], &[], 2),
        (&[SIXTEEN, NO_COUNT], &[SIXTEEN, NO_COUNT, 18], 4),
    ] {
        refused(run, subject, [params, results], number::BAD_REF, at);
    }
}

fn refusals_of_long_lists(run: &mut Run, subject: &mut Subject) {
    for length in LENGTHS {
        let good = vec![U8; length];
        let bad = with_last(&good, 18);
        let all_bad = vec![MARK; length];
        let last = length as u64 - 1;
        for (params, results, at) in [
            (&bad, &good, last),
            (&bad, &all_bad, last),
            (&all_bad, &bad, 0),
            (&good, &all_bad, last + 1),
            (&good, &bad, 2 * last + 1),
        ] {
            refused(run, subject, [params, results], number::BAD_REF, at);
        }
    }
}

/// Row 0 is good and row 1 is not; there is no row 2.
fn bad_rows(run: &mut Run) {
    const GOOD: Row = [3, 8, 4, 16, 8, 2, 0, 5, 0, 0, 0, 0, 0, 0, 0, 2];
    let mut bad = GOOD;
    bad[2] = 3;
    let mut forged = run.forged(table_of(&[GOOD, bad], 2 * ROW), 2);
    for (params, results, number, at) in [
        (&[65][..], &[65][..], number::BAD_ROW, 0),
        (&[64, 65], &[18], number::BAD_ROW, 1),
        (&[64, 64], &[64, 65], number::BAD_ROW, 3),
        (&[64], &[66, 65], number::BAD_REF, 1),
        (&[18], &[65], number::BAD_REF, 0),
    ] {
        refused(run, &mut forged, [params, results], number, at);
    }
}

/// A list that is too long comes before the number of rows, and that before the references.
fn refusals_in_order(run: &mut Run, subject: &mut Subject) {
    let too_long = vec![U8; MOST_WORDS + 1];
    let bad = [18];
    let mut no_rows = run.forged(vec![7; ROW], 2);
    for lists in [
        [&too_long[..], &too_long],
        [&too_long, &bad],
        [&bad, &too_long],
    ] {
        refused(run, subject, lists, number::TOO_LONG, 0);
        refused(run, &mut no_rows, lists, number::TOO_LONG, 0);
    }
    for lists in [[&bad[..], &bad], [&[], &[]], [&[U8], &[U8, 18]]] {
        refused(run, &mut no_rows, lists, number::BAD_ROW, 0);
    }
}

/// All short lists of parameters with all of results; no signature is written out for these.
fn every_short_list(run: &mut Run, subject: &mut Subject) {
    const TYPES: [u32; 10] = [
        U32,
        U64,
        F32,
        F64,
        STRING,
        EMPTY_RECORD,
        FOUR,
        SIXTEEN,
        NO_COUNT,
        EMPTY_NO_COUNT,
    ];
    let lists = generate::every_list(&TYPES, if run.quick { 1 } else { 2 });
    for params in &lists {
        for results in &lists {
            plain_calls(run, subject, params, results);
        }
    }
}

/// Asks for the signature in every way, and holds it to the one of the five that is this way's.
fn signatures_are(run: &mut Run, subject: &mut Subject, lists: [&[u32]; 2], signatures: [&str; 5]) {
    in_every_way(run, subject, lists, |plain| {
        // A callback plays a part in an async lift alone.
        let signature = match (plain.side.asynchronous, plain.lower, plain.callback) {
            (0, 0, _) => signatures[0],
            (0, _, _) => signatures[1],
            (_, 0, 0) => signatures[2],
            (_, 0, _) => signatures[3],
            _ => signatures[4],
        };
        let (params, results) = signature.split_once("->").expect("an arrow");
        Ok([params, results].map(|letters| types(letters, plain.side.memory)))
    });
}

fn refused(run: &mut Run, subject: &mut Subject, lists: [&[u32]; 2], number: u64, at: u64) {
    in_every_way(run, subject, lists, |_| refusal(number, at));
}

/// By every k; one above 1 chooses the results as well. Any number but 0 is a yes. Over long lists in three ways, since
/// they take long.
fn in_every_way(
    run: &mut Run,
    subject: &mut Subject,
    lists: [&[u32]; 2],
    due: impl Fn(PlainCall) -> Answer<[Vec<Core>; 2]>,
) {
    let mut calls = [1, u32::MAX].map(every_plain_call).concat();
    if lists.concat().len() > 64 {
        calls = (0..3).map(|_| run.random.pick(&calls)).collect();
    }
    for plain in calls {
        for (k, half) in [(0, 0), (1, 1), (2, 1), (u32::MAX, 1)] {
            let answer = due(plain).map(|signature| encode::list(&signature[half]));
            let question = functype(plain, lists, k);
            answer_is(run, subject, &question, encode::answer(answer));
        }
    }
}

/// The core types that letters stand for.
fn types(letters: &str, memory: u32) -> Vec<Core> {
    let core = |letter| match letter {
        'i' => Core::I32,
        'I' => Core::I64,
        'f' => Core::F32,
        'F' => Core::F64,
        'p' if memory == 0 => Core::I32,
        'p' => Core::I64,
        _ => unreachable!("a letter of no core type"),
    };
    letters.chars().map(core).collect()
}
