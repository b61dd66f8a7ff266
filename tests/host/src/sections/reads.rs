//! Order 6: what builds and placements report as read back. The model is held to numbers that come from the
//! order; each call is made over bytes too.
use super::refusal;
use crate::calls::{Question, WRITTEN};
use crate::compare::{Run, Subject};
use crate::encode::{self, PLACEMENT_READS};
use crate::generate::chain;
use crate::model::{self, Answer, MOST_ROWS, MOST_WORDS, ROW, Row, table_of};

const U8: u32 = 2;
const U32: u32 = 6;
const STRING: u32 = 12;
const BORROW: u32 = 14;
const MARK: u32 = u32::MAX;
/// Flags of two bytes, which read nothing back: definition 0, for others to refer to.
const FLAGS: [u32; 2] = [6, 9];

pub fn run(run: &mut Run) {
    let usual = std::mem::replace(&mut run.bytes_once_in, 1);
    report(run, &[], Ok((0, 0)));
    running_number(run);
    numbers_of_members(run);
    most_reads(run);
    other_definitions(run);
    few_references(run);
    lists_of_each_length(run);
    lists_of_all_rows(run);
    bad_rows(run);
    run.bytes_once_in = usual;
}

/// Definitions that refer to no other than 0, and how many references of the form 64+j each has: in each
/// place of each kind, with marks beside them, and with numbers that only look like such a reference.
const DEFINITIONS: [(&[u32], u64); 34] = [
    (&[1, 0], 0),
    (&[1, 3, U8, STRING, U8], 0),
    (&[1, 4, 64, U8, 64, 64], 3),
    (&[2, 1, MARK], 0),
    (&[2, 3, MARK, MARK, MARK], 0),
    (&[2, 3, MARK, 64, MARK], 1),
    (&[2, 5, 64, MARK, U8, 64, MARK], 2),
    (&[3, BORROW], 0),
    (&[3, 64], 1),
    (&[4, 0], 0),
    (&[4, 2, 64, 64], 2),
    (&[5, U8, STRING], 0),
    (&[5, 64, U8], 1),
    (&[5, U8, 64], 1),
    (&[5, 64, 64], 2),
    (&[6, 63], 0),
    (&[6, 64], 0),
    (&[6, 65], 0),
    (&[6, 512], 0),
    (&[7, 64], 0),
    (&[7, 65], 0),
    (&[7, MARK], 0),
    (&[8, U8], 0),
    (&[8, 64], 1),
    (&[9, MARK, MARK], 0),
    (&[9, 64, MARK], 1),
    (&[9, MARK, 64], 1),
    (&[9, 64, 64], 2),
    (&[10, U8, 64], 0),
    (&[10, U8, 65], 0),
    (&[10, U8, MARK], 0),
    (&[10, 64, 64], 1),
    (&[10, 64, 66], 1),
    (&[10, 64, 0], 1),
];

/// Definitions that are refused, three of them after a row was read.
const REFUSED: [(&[u32], u64); 6] = [
    (&[1, 2, 64], 2),
    (&[99], 3),
    (&[1, 2, 64, 18], 4),
    (&[5, 64, MARK], 4),
    (&[2, 0], 5),
    (&[10, 64, MARK], 6),
];

/// "After each definition the running number is the one for the definitions so far": each definition alone,
/// and all up to it. With one more that is refused, or that has no row, 0 is reported.
fn running_number(run: &mut Run) {
    let mut words = FLAGS.to_vec();
    let (mut rows, mut so_far) = (1, 0);
    for (definition, reads) in DEFINITIONS {
        report(run, &[&FLAGS, definition].concat(), Ok((2, reads)));
        words.extend(definition);
        rows += 1;
        so_far += reads;
        report(run, &words, Ok((rows, so_far)));
        for (refused, number) in REFUSED {
            let words = [&words[..], refused].concat();
            report(run, &words, refusal(number, rows));
        }
        report_in(run, &words, rows as usize, Ok((rows, so_far)));
        report_in(run, &words, rows as usize - 1, refusal(7, rows - 1));
    }
}

/// After the flags a record, tuple or variant of so many members that are all the same.
fn of_many(kind: u32, many: usize, member: u32) -> Vec<u32> {
    let head = [kind, many as u32];
    [&FLAGS[..], &head, &vec![member; many]].concat()
}

/// Numbers of members that look like references.
fn numbers_of_members(run: &mut Run) {
    for kind in [1, 2, 4] {
        for many in [63, 64, 65, 66, 127, 128, 1_000] {
            report(run, &of_many(kind, many, U8), Ok((2, 0)));
            report(run, &of_many(kind, many, 64), Ok((2, many as u64)));
        }
    }
    for many in [64, 65, 1_000] {
        let mut words = of_many(2, many, MARK);
        report(run, &words, Ok((2, 0)));
        *words.last_mut().expect("a case") = 64;
        report(run, &words, Ok((2, 1)));
    }
}

/// No accepted description has more references of the form 64+j than 16,380: it has one definition before
/// them, and two words at the head of the other.
fn most_reads(run: &mut Run) {
    let most = MOST_WORDS - 4;
    for kind in [1, 2, 4] {
        report(run, &of_many(kind, most - 1, 64), Ok((2, most as u64 - 1)));
        let mut words = of_many(kind, most, 64);
        report(run, &words, Ok((2, most as u64)));
        report_in(run, &words, 1, refusal(7, 1));
        for bad in [18, 65] {
            words[MOST_WORDS - 1] = bad;
            report(run, &words, refusal(4, 1));
        }
        report(run, &of_many(kind, most + 1, 64), refusal(1, 0));
    }
    // As many rows as there may be in as many words: 1,022 records of 14 members, and one of 28.
    let mut words = FLAGS.to_vec();
    for many in [[14; 1_022].as_slice(), &[28]].concat() {
        words.extend([1, many]);
        words.extend(vec![64; many as usize]);
    }
    report(run, &words, Ok((1_024, 1_022 * 14 + 28)));
    report_in(run, &words, MOST_ROWS - 1, refusal(7, 1_023));
    let large = [&[10, U8, 1 << 19, 1, 16_379][..], &[64; 16_379]].concat();
    report(run, &large, refusal(6, 1));
}

/// References to other definitions than the first.
fn other_definitions(run: &mut Run) {
    report(run, &chain(3, U8, 100), Ok((100, 99)));
    report_in(run, &chain(3, U8, 100), 50, refusal(7, 50));
    report(run, &chain(3, U8, 101), refusal(9, 100));
    let mut words = FLAGS.repeat(MOST_ROWS - 1);
    words.extend([1, 1_023]);
    words.extend(64..64 + 1_023);
    report(run, &words, Ok((1_024, 1_023)));
}

/// Five definitions, references 64 to 68: of no bytes, of two, a list, of 256 KiB, and of 5 bytes less than 4 GiB.
const PLACED: [u32; 12] = [1, 0, 6, 9, 3, BORROW, 10, U8, 1 << 18, 10, U8, MARK - 4];

/// "Placement reports likewise for its references."
fn few_references(run: &mut Run) {
    let mut subject = run.description(&PLACED).subject;
    let scalars: Vec<u32> = (0..18).collect();
    for (references, reads) in [
        (&[][..], 0),
        (&[U8], 0),
        (&scalars, 0),
        (&[64], 1),
        (&[U8, 64], 1),
        (&[65, 65, 65], 3),
        (&[64, U8, 65, STRING, 66, 64, 67], 5),
        (&[68, U8], 1),
    ] {
        placed(run, &mut subject, references, Ok(reads));
    }
    // A member's end passes 4 GiB, or only the size does.
    placed(run, &mut subject, &[64, 68, U32], refusal(6, 2));
    placed(run, &mut subject, &[64, 68, 68], refusal(6, 2));
    placed(run, &mut subject, &[64, U32, 68], refusal(6, 0));
    placed_in(run, &mut subject, &[64, 65], 1, refusal(7, 0));
}

/// Around each number of references where the port may change its way.
const LENGTHS: [usize; 17] = [
    1,
    2,
    15,
    16,
    17,
    24,
    25,
    64,
    65,
    256,
    257,
    1_024,
    1_025,
    2_048,
    2_049,
    MOST_WORDS - 1,
    MOST_WORDS,
];

/// Lists of one definition, of none, and of both in turn; the last reference is bad; there is no room.
fn lists_of_each_length(run: &mut Run) {
    let mut subject = run.description(&PLACED).subject;
    for length in LENGTHS {
        let (all, last) = (length as u64, length as u64 - 1);
        placed(run, &mut subject, &vec![U8; length], Ok(0));
        placed(run, &mut subject, &vec![64; length], Ok(all));
        placed(run, &mut subject, &vec![65; length], Ok(all));
        let turns: Vec<u32> = [U8, 65].into_iter().cycle().take(length).collect();
        placed(run, &mut subject, &turns, Ok(all / 2));
        for bad in [18, 63, 69, MARK] {
            let list = [&vec![64; length - 1][..], &[bad]].concat();
            placed(run, &mut subject, &list, refusal(4, last));
        }
        placed_in(
            run,
            &mut subject,
            &vec![64; length],
            length - 1,
            refusal(7, 0),
        );
    }
    // They come to 4 GiB with the last one.
    placed(run, &mut subject, &[67; MOST_WORDS - 1], Ok(16_383));
    placed(run, &mut subject, &[67; MOST_WORDS], refusal(6, 16_383));
    placed(run, &mut subject, &[64; MOST_WORDS + 1], refusal(1, 0));
}

/// Every row of a full table, once and many times.
fn lists_of_all_rows(run: &mut Run) {
    let mut subject = run.description(&FLAGS.repeat(MOST_ROWS)).subject;
    let all: Vec<u32> = (64..64 + MOST_ROWS as u32).collect();
    for times in [1, 2, 16] {
        let reads = (times * MOST_ROWS) as u64;
        placed(run, &mut subject, &all.repeat(times), Ok(reads));
    }
}

/// The last reference names a row that is not well formed, or there are not so many rows.
fn bad_rows(run: &mut Run) {
    const GOOD: Row = [3, 8, 4, 16, 8, 2, 0, 5, 0, 0, 0, 0, 0, 0, 0, 2];
    let mut bad = GOOD;
    bad[15] = 0;
    let table = table_of(&[GOOD, bad], 2 * ROW);
    let mut subject = run.forged(table.clone(), 2);
    for length in LENGTHS {
        let list = [&vec![64; length - 1][..], &[65]].concat();
        placed(run, &mut subject, &list, refusal(8, length as u64 - 1));
    }
    let mut subject = run.forged(table, 3);
    placed(run, &mut subject, &[64, 64], refusal(8, 0));
}

/// Builds with room for every row: rows and rows read back, or the refusal, are the order's.
fn report(run: &mut Run, words: &[u32], due: Answer<(u64, u64)>) {
    let said = run.description(words).answer;
    report_is(run, words, said, due);
}

/// The same in a table with room for so many rows; not put to the original.
fn report_in(run: &mut Run, words: &[u32], rows: usize, due: Answer<(u64, u64)>) {
    let said = run.build_in(words, ROW * rows);
    report_is(run, words, said, due);
}

fn report_is(run: &mut Run, words: &[u32], said: u64, due: Answer<(u64, u64)>) {
    let answer = encode::answer(due.map(|(rows, reads)| encode::build(rows, reads)));
    run.tally.consistent(said == answer, || {
        format!("by order 6 {answer:#x}, the model says {said:#x}: {words:?}")
    });
}

/// Places in either memory, with as much room as is due: the rows read back, or the refusal, are the order's.
fn placed(run: &mut Run, subject: &mut Subject, references: &[u32], due: Answer<u64>) {
    placed_in(run, subject, references, references.len(), due);
}

fn placed_in(
    run: &mut Run,
    subject: &mut Subject,
    references: &[u32],
    room: usize,
    due: Answer<u64>,
) {
    for memory in [0, 1] {
        let question = Question::Placement {
            memory,
            references: references.to_vec(),
            rooms: [room; WRITTEN],
        };
        run.ask(subject, &question);
        let written = [&mut vec![0; room][..], &mut vec![0; room]];
        let said = model::ask(&question, &subject.table, subject.n, written);
        let said = said.map(|answer| PLACEMENT_READS.of(answer));
        run.tally.consistent(said == due, || {
            format!("by order 6 {due:?}, the model says {said:?}: {question:?}")
        });
    }
}
