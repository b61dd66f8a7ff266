//! Calls over bytes beside the same calls over words, at the sizes of a small description.
use crate::inputs::{SMALL, SMALL_REFERENCES};
use crate::port::{bytes, bytes_of, rows, words};
use crate::report::{Aim, Group, Report, Timed};
use crate::table::ROW;
use crate::tested::Way;
use crate::timing::Contender;
use std::hint::black_box;

const ROWS: u32 = 3;
/// The record of four members.
const REFERENCE: u32 = 65;

pub fn run(report: &mut Report) {
    let mut table = [0; ROW * ROWS as usize];
    let accepted = rows(words::build(&SMALL, &mut table));
    assert_eq!(accepted, Some(ROWS), "the port accepts the input");
    let table_bytes = bytes_of(&table);
    let references = SMALL_REFERENCES;
    let list = bytes_of(&references);

    // The size in the 32-bit memory.
    let over_words = || words::type_of(&table, ROWS, black_box(REFERENCE), 0);
    let over_bytes = || bytes::type_of(&table_bytes, ROWS, black_box(REFERENCE), 0);
    beside(report, "type, 3 rows", 1.5, over_words, over_bytes);

    let over_words = || words::size_align(&table, ROWS, black_box(REFERENCE));
    let over_bytes = || bytes::size_align(&table_bytes, ROWS, black_box(REFERENCE));
    time(report, "size_align, 3 rows", over_words, over_bytes);

    let over_words = || words::flatten(&table, ROWS, 16, black_box(&references));
    let over_bytes = || bytes::flatten(&table_bytes, ROWS, 16, black_box(&list));
    beside(report, "flatten of 8, 3 rows", 3.0, over_words, over_bytes);

    functype(report, &table, &table_bytes);
    placement(report, &table, &table_bytes);

    let description = bytes_of(&SMALL);
    let (mut built, mut built_bytes) = (table, table_bytes.clone());
    let over_words = || words::build(black_box(&SMALL), &mut built);
    let over_bytes = || bytes::build(black_box(&description), &mut built_bytes);
    beside(
        report,
        "build of 10 words, 3 rows",
        3.0,
        over_words,
        over_bytes,
    );
    assert_eq!(built_bytes, bytes_of(&built), "the same table");
}

/// The parameters of a sync lower whose result is the record.
fn functype(report: &mut Report, table: &[u32], table_bytes: &[u8]) {
    let (params, results) = (SMALL_REFERENCES, [REFERENCE]);
    let (param_bytes, result_bytes) = (bytes_of(&params), bytes_of(&results));
    let over_words = || {
        let params = black_box(&params);
        words::functype(Way::SYNC_LOWER, table, ROWS, params, &results, 0)
    };
    let over_bytes = || {
        let params = black_box(&param_bytes);
        bytes::functype(Way::SYNC_LOWER, table_bytes, ROWS, params, &result_bytes, 0)
    };
    let what = "functype, 8 parameters and 1 result, 3 rows";
    beside(report, what, 3.0, over_words, over_bytes);
}

fn placement(report: &mut Report, table: &[u32], table_bytes: &[u8]) {
    let references = SMALL_REFERENCES;
    let list = bytes_of(&references);
    let [mut offsets, mut gaps] = [[0; 8]; 2];
    let [mut offset_bytes, mut gap_bytes] = [[0; 32]; 2];
    let over_words = || {
        let references = black_box(&references);
        words::placement(table, ROWS, references, &mut offsets, &mut gaps)
    };
    let over_bytes = || {
        let list = black_box(&list);
        bytes::placement(table_bytes, ROWS, list, &mut offset_bytes, &mut gap_bytes)
    };
    let what = "placement of 8, 3 rows";
    beside(report, what, 3.0, over_words, over_bytes);
    assert_eq!(offset_bytes[..], bytes_of(&offsets), "the same offsets");
    assert_eq!(gap_bytes[..], bytes_of(&gaps), "the same gaps");
}

fn beside(
    report: &mut Report,
    what: &str,
    most: f64,
    over_words: impl FnMut() -> u64,
    over_bytes: impl FnMut() -> u64,
) {
    let timed = time(report, what, over_words, over_bytes);
    let over = format!("{what}: bytes over words");
    report.aim(over, timed.ratio(0, 1), Aim::AtMost(most));
}

/// Both must answer alike, and no refusal.
fn time(
    report: &mut Report,
    what: &str,
    mut over_words: impl FnMut() -> u64,
    mut over_bytes: impl FnMut() -> u64,
) -> Timed {
    let answer = over_words();
    assert_eq!(answer >> 56, 0, "{what} is refused");
    assert_eq!(over_bytes(), answer, "{what} over bytes");
    let contenders = vec![
        Contender::new("the port over bytes", || {
            black_box(over_bytes());
        }),
        Contender::new("the port over words", || {
            black_box(over_words());
        }),
    ];
    let what = what.to_string();
    report.time(Group { what, contenders })
}
