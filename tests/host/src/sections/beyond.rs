//! Tables, lists and buffers longer than a call over bytes looks at, which is 16,384 words of a table, 16,385
//! references, and of a buffer as many words as there is room to decode references (16, 1,024 or 16,385): it must
//! answer as if it had looked at all. Each call is made over bytes too.
use super::{questions, tables};
use crate::compare::{Run, Subject};
use crate::generate;
use crate::model::{self, MOST_ROWS, MOST_WORDS, ROW, Row, table_of};

/// Lengths in words around the limit and well beyond it.
const LENGTHS: [usize; 8] = [
    MOST_WORDS - 1,
    MOST_WORDS,
    MOST_WORDS + 1,
    MOST_WORDS + 2,
    MOST_WORDS + ROW - 1,
    MOST_WORDS + ROW,
    MOST_WORDS + ROW + 1,
    20_000,
];

pub fn run(run: &mut Run) {
    let usual = std::mem::replace(&mut run.bytes_once_in, 1);
    forged_tables(run);
    built_tables(run);
    lists(run);
    buffers(run);
    builds(run);
    run.bytes_once_in = usual;
}

/// Each table with every number of rows that could be taken for good.
fn forged_tables(run: &mut Run) {
    let rows: Vec<Row> = (0..LENGTHS[7].div_ceil(ROW))
        .map(|_| generate::row(&mut run.random))
        .collect();
    let last = 64 + MOST_ROWS as u32 - 1;
    let references = [12, 64, last - 1, last, last + 1, 64 + 1_249];
    for length in LENGTHS {
        let there = (length / ROW) as u32;
        for n in [0, 1, 1_023, 1_024, 1_025, there, there + 1, u32::MAX] {
            let mut subject = run.forged(table_of(&rows, length), n);
            let asked = match run.quick {
                true => vec![run.random.pick(&references)],
                false => references.to_vec(),
            };
            for reference in asked {
                questions::whole_type(run, &mut subject, reference);
                questions::lists(run, &mut subject, &[2, reference], &[last]);
            }
        }
    }
}

/// A built table of 1,024 rows lent with each length: from 16,384 words on every row stands where it stood.
fn built_tables(run: &mut Run) {
    let words: Vec<u32> = (0..MOST_ROWS as u32)
        .flat_map(|labels| [6, labels % 513])
        .collect();
    let Subject { table, n, .. } = run.description(&words).subject;
    for length in LENGTHS {
        let n = n.min(model::capacity(length) as u32);
        let mut subject = tables::with_length(run, &table, length, n);
        let row_same = |row| model::row(&subject.table, row) == model::row(&table, row);
        let same = (0..n as usize).all(row_same);
        run.tally.consistent(same == (length >= MOST_WORDS), || {
            format!("a table of {MOST_ROWS} rows lent with {length} words: {same} that its rows are the same")
        });
        for reference in [64, 64 + 300, 64 + n - 1] {
            questions::whole_type(run, &mut subject, reference);
            questions::lists(run, &mut subject, &[2, reference], &[reference]);
        }
    }
}

/// Lists of each length, good but for one reference, beside a short list and beside themselves.
fn lists(run: &mut Run) {
    let mut built = run.description(&[1, 2, 2, 12, 8, 64, 6, 9, 3, 14]);
    // A table of 1,025 rows is refused, but only after a list that is too long.
    let mut forged = run.forged(vec![1; ROW], 1_025);
    for length in LENGTHS {
        let places = [0, 1, MOST_WORDS - 1, MOST_WORDS, MOST_WORDS + 1, length - 1];
        let places = match run.quick {
            true => vec![run.random.pick(&places)],
            false => places.to_vec(),
        };
        let good = vec![2; length];
        whole_lists(run, &mut built.subject, &good);
        whole_lists(run, &mut forged, &good);
        for place in places.into_iter().filter(|place| *place < length) {
            let mut list = generate::references(&mut run.random, 4, length as u64, u64::MAX);
            list[place] = run.random.pick(&[18, 63, 68, u32::MAX]);
            whole_lists(run, &mut built.subject, &list);
        }
    }
}

fn whole_lists(run: &mut Run, subject: &mut Subject, list: &[u32]) {
    questions::lists(run, subject, list, &[64, 18]);
    questions::lists(run, subject, &[64, 2], list);
    questions::lists(run, subject, list, list);
}

/// Placements in buffers of each length: what is neither an offset nor a gap keeps its bytes to the very end.
fn buffers(run: &mut Run) {
    let mut built = run.description(&[1, 2, 2, 12, 10, 2, 1 << 18]);
    let subject = &mut built.subject;
    for room in LENGTHS {
        for count in [
            0,
            1,
            9,
            17,
            1_024,
            1_025,
            MOST_WORDS - 1,
            MOST_WORDS,
            MOST_WORDS + 1,
            room,
        ] {
            let other = run
                .random
                .pick(&[count, LENGTHS[0], LENGTHS[2], LENGTHS[7]]);
            // The last one's end passes 4 GiB after 16,383 of them.
            for member in [2, 12, 64, 65] {
                let references = vec![member; count];
                for rooms in [[room, room], [room, other], [other, room]] {
                    questions::placement_in(run, subject, 0, &references, rooms);
                    questions::placement_in(run, subject, 1, &references, rooms);
                }
            }
        }
    }
}

/// Builds in tables of each length, and of descriptions of each length.
fn builds(run: &mut Run) {
    for room in LENGTHS {
        for definitions in [0, 1, MOST_ROWS - 1, MOST_ROWS, MOST_ROWS + 1] {
            let mut words = [10, 12, 3].repeat(definitions);
            run.build_in(&words, room);
            words.push(99);
            run.build_in(&words, room);
        }
        for length in LENGTHS {
            let mut words = vec![1, length as u32 - 2];
            words.resize(length, 12);
            run.build_in(&words, room);
        }
    }
}
