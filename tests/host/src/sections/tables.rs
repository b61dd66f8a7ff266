//! Tables that no build wrote, of good form and not.
use super::questions;
use crate::calls::Question;
use crate::compare::{Run, Subject};
use crate::generate::{self, Shape};
use crate::model::{self, MOST_ROWS, ROW, Row, capacity, table_of};

pub fn run(run: &mut Run) {
    each_word(run);
    depth_words(run);
    for _ in 0..run.cases / 4 {
        let rows = run.random.below(6);
        let rows = rows_of(run, rows);
        let mut subject = run.forged(exact(&rows), rows.len() as u32);
        questions::some(run, &mut subject);
        let rows = run.random.between(1, 4);
        let rows = rows_of(run, rows);
        one_word_changed(run, &rows);
        built_and_changed(run);
        lent_otherwise(run);
    }
    numbers_of_rows(run);
}

/// The table of these rows and no more.
fn exact(rows: &[Row]) -> Vec<u32> {
    table_of(rows, ROW * rows.len())
}

fn one_word_changed(run: &mut Run, rows: &[Row]) {
    let mut table = exact(rows);
    let place = run.random.below(table.len() as u64) as usize;
    table[place] = match run.random.once_in(2) {
        true => generate::any_word(&mut run.random),
        false => table[place] ^ 1 << run.random.below(32),
    };
    let rows = capacity(table.len()) as u32;
    // Now and then another number of rows: fewer, or more than there are.
    let n = match run.random.once_in(4) {
        true => run.random.below(u64::from(rows) + 2) as u32,
        false => rows,
    };
    let mut subject = run.forged(table, n);
    questions::some(run, &mut subject);
}

/// The rows of a description, which refer to each other as no random ones do, and one word changed.
fn built_and_changed(run: &mut Run) {
    let shape = Shape {
        definitions: run.random.between(1, 6),
        members: run.random.between(1, 5),
        large: run.random.once_in(4),
        deep: false,
    };
    let words = generate::description(&mut run.random, shape);
    let built = run.description(&words);
    let table = &built.subject.table;
    let rows = (0..built.subject.n as usize).map(|index| model::row(table, index));
    let rows: Vec<Row> = rows.collect();
    if !rows.is_empty() {
        one_word_changed(run, &rows);
    }
}

/// A built table lent shorter and longer than it was built, which gives it other cells where it has room
/// for more rows or for fewer.
fn lent_otherwise(run: &mut Run) {
    let shape = Shape {
        definitions: run.random.between(1, 6),
        members: run.random.between(1, 5),
        large: false,
        deep: false,
    };
    let words = generate::description(&mut run.random, shape);
    let Subject { table, n, .. } = run.description(&words).subject;
    let built = table.len();
    let rows = ROW * n as usize;
    for length in [rows, built - ROW, built - 1, built + 1, built + ROW] {
        let mut subject = with_length(run, &table, length, n);
        questions::some(run, &mut subject);
    }
}

/// So many words of a table; beyond its own they are random.
pub fn with_length(run: &mut Run, table: &[u32], length: usize, n: u32) -> Subject {
    let more = std::iter::repeat_with(|| run.random.word());
    let words = table.iter().copied().chain(more).take(length).collect();
    run.forged(words, n)
}

fn rows_of(run: &mut Run, rows: u64) -> Vec<Row> {
    (0..rows).map(|_| generate::row(&mut run.random)).collect()
}

/// Well-formed rows: five flat types, three, sixteen, and none; depths of 1 and of 100.
const GOOD: [Row; 4] = [
    [1, 16, 4, 24, 8, 5, 0, 0x15, 0, 0, 0, 0, 0, 0, 0, 3],
    [9, 16, 8, 24, 8, 3, 4, 20, 1, 8, 8, 0, 0, 0, 0, 2],
    SIXTEEN,
    [4, 68, 4, 68, 4, 255, 0, 0, 0, 0, 0, 0, 0, 0, 0, 201],
];
const SIXTEEN: Row = {
    let mut row = [10, 64, 4, 64, 4, 16, 0, 0, 0, 0, 0, 0, 0, 0, 0, 200];
    (row[6], row[7]) = (0xAAAA_AAAA, u32::MAX);
    row
};

/// Every word of a good row changed to each of many values.
fn each_word(run: &mut Run) {
    let values = (0..=34).chain([63, 64, 127, 128, 255, 256, 257, 511, 1 << 16, 1 << 31]);
    let values: Vec<u32> = values
        .chain(199..=204)
        .chain([u32::MAX - 7, u32::MAX - 1, u32::MAX])
        .collect();
    for row in GOOD {
        for place in 0..ROW {
            for value in &values {
                let mut row = row;
                row[place] = *value;
                let mut subject = run.forged(exact(&[row]), 1);
                questions::whole_type(run, &mut subject, 64);
                questions::lists(run, &mut subject, &[2, 64], &[64, 18]);
            }
        }
        each_flat_bit(run, row);
    }
}

/// Word 15 around both ends of what is good, and words whose low bits alone are good: every question, over
/// bytes too, of a list that names such a row at its end, in the other list, and not at all.
fn depth_words(run: &mut Run) {
    let usual = std::mem::replace(&mut run.bytes_once_in, 1);
    let large = [258, 1 << 16 | 2, 1 << 31, 1 << 31 | 2, 1 << 31 | 200];
    let words = (0..=6).chain(196..=206).chain(large);
    for word in words.chain([u32::MAX - 1, u32::MAX]) {
        for row in GOOD {
            let mut changed = row;
            changed[15] = word;
            let mut subject = run.forged(exact(&[row, changed]), 2);
            questions::whole_type(run, &mut subject, 65);
            questions::lists(run, &mut subject, &[64, 65], &[2]);
            questions::lists(run, &mut subject, &[64], &[2, 65]);
            questions::lists(run, &mut subject, &[64], &[64]);
        }
    }
    run.bytes_once_in = usual;
}

/// Each flat count with each bit of the flat words set by itself.
fn each_flat_bit(run: &mut Run, mut row: Row) {
    for count in (0..=18).chain([254, 255, 256]) {
        for bit in 0..32 {
            for word in [6, 7] {
                (row[5], row[6], row[7]) = (count, 0, 0);
                row[word] = 1 << bit;
                let mut subject = run.forged(exact(&[row]), 1);
                let k = word as u32 - 1;
                let reference = 64;
                run.ask(&mut subject, &Question::Type { reference, k });
            }
        }
    }
}

/// n around every limit: the rows there are, 1,024, and where 16 n passes 32 and 64 bits' halves.
fn numbers_of_rows(run: &mut Run) {
    for rows in [0, 1, 2, 5, MOST_ROWS - 1, MOST_ROWS, MOST_ROWS + 1] {
        let whole = rows_of(run, rows as u64);
        let full = ROW * rows;
        for length in [full.saturating_sub(1), full, full + 1] {
            let table = table_of(&whole, length);
            let rows = rows as u32;
            let around = [rows.saturating_sub(1), rows, rows + 1, 1_023, 1_024, 1_025];
            let huge = [1 << 28, (1 << 28) + 1, 1 << 31, u32::MAX - 1, u32::MAX];
            for n in around.into_iter().chain(huge) {
                let mut subject = run.forged(table.clone(), n);
                for reference in [0, 17, 18, 64, 63 + rows, 64 + rows, u32::MAX] {
                    questions::whole_type(run, &mut subject, reference);
                }
                questions::lists(run, &mut subject, &[2, 63 + rows], &[64]);
                questions::lists(run, &mut subject, &[], &[]);
            }
        }
    }
}
