//! Where a call over bytes changes its way: lists of at most 16 references pick the rows that they name, and a description of at most
//! 64 words is built in a table apart. Around both numbers it must answer and write as the call over words does, which has one way.
//! Each call is made over bytes too.
use super::questions;
use crate::compare::{Run, Subject};
use crate::generate::{self, Shape};
use crate::model::{ROW, Row, table_of};

/// The most references, and the most words of a description, that take the shorter way.
const REFERENCES: u64 = 16;
const WORDS: usize = 64;
/// More rows than either way has slots for.
const ROWS: u32 = 40;

pub fn run(run: &mut Run) {
    let usual = std::mem::replace(&mut run.bytes_once_in, 1);
    lists(run);
    builds(run);
    run.bytes_once_in = usual;
}

/// Lists of each length, in a table that a build wrote, in one that none did, and with rows that are not there.
fn lists(run: &mut Run) {
    let shape = Shape {
        definitions: u64::from(ROWS),
        members: 3,
        large: false,
        deep: false,
    };
    let words = generate::description(&mut run.random, shape);
    let mut built = run.description(&words);
    lists_in(run, &mut built.subject);
    let mut rows: Vec<Row> = (0..ROWS).map(|_| generate::row(&mut run.random)).collect();
    rows[7][2] = 3;
    for n in [0, 7, ROWS, ROWS + 1, 1_025] {
        let mut subject = run.forged(table_of(&rows, ROWS as usize * ROW + 5), n);
        lists_in(run, &mut subject);
    }
}

fn lists_in(run: &mut Run, subject: &mut Subject) {
    for length in REFERENCES - 2..=REFERENCES + 2 {
        for other in [0, 1, REFERENCES - 1, REFERENCES, REFERENCES + 1] {
            let bad_once_in = run.random.pick(&[12, u64::MAX]);
            let first = generate::references(&mut run.random, ROWS, length, bad_once_in);
            let second = generate::references(&mut run.random, ROWS, other, bad_once_in);
            questions::lists(run, subject, &first, &second);
            questions::lists(run, subject, &second, &first);
            rooms_around(run, subject, &first);
        }
    }
}

/// Placements with too little room, room enough and more, for the offsets and for the gaps.
fn rooms_around(run: &mut Run, subject: &mut Subject, references: &[u32]) {
    let length = references.len();
    let around = [length - 1, length, length + 1, 3 * length];
    for offsets in around {
        for gaps in around {
            questions::placement_in(run, subject, 0, references, [offsets, gaps]);
            questions::placement_in(run, subject, 1, references, [offsets, gaps]);
        }
    }
}

/// As many definitions as so many words hold, each on the one before or on none, the last of them whole, cut or refused, in tables
/// with room for all and for fewer.
fn builds(run: &mut Run) {
    for length in WORDS - 3..=WORDS + 3 {
        let alike = [&[1, 0][..], &[6, 9], &[8, 8], &[10, 12, 3]];
        let alike = alike.map(|definition| definition.repeat(length));
        let chain = generate::chain(3, 14, length as u32);
        for mut words in alike.into_iter().chain([chain]) {
            words.truncate(length);
            let mut refused = words.clone();
            refused[length - 2] = 99;
            for rows in [0, 1, WORDS / 2 - 1, WORDS / 2, WORDS / 2 + 1, WORDS] {
                for more in [0, 1, ROW - 1] {
                    run.build_in(&words, ROW * rows + more);
                    run.build_in(&refused, ROW * rows + more);
                }
            }
        }
    }
}
