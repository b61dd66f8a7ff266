//! Every limit but the depth: words, rows, references, buffers, bytes.
use super::{depth, questions};
use crate::calls::{Question, Side};
use crate::compare::{Run, Subject, bytes_of};
use crate::generate::{self, Shape};
use crate::model::{MOST_ROWS, MOST_WORDS, ROW};

pub fn descriptions(run: &mut Run) {
    long(run);
    depth::run(run);
    // As many definitions as there are rows, one fewer and one more.
    for many in [MOST_ROWS - 1, MOST_ROWS, MOST_ROWS + 1, MOST_ROWS + 2] {
        for definition in [
            &[1, 0][..],
            &[6, 9],
            &[8, 8],
            &[10, 12, 3],
            &[2, 2, 12, u32::MAX],
        ] {
            let words = definition.repeat(many);
            run.description(&words);
            for rows in [many - 1, many, many + 1, MOST_ROWS, MOST_ROWS + 1] {
                for more in [0, 1, 15] {
                    run.build_in(&words, ROW * rows + more);
                }
            }
        }
    }
    let rounds = if run.quick { 4 } else { 60 };
    for _ in 0..rounds {
        let shape = Shape {
            definitions: run.random.between(900, 1_100),
            members: run.random.between(1, 20),
            large: false,
            deep: false,
        };
        let words = generate::description(&mut run.random, shape);
        let mut built = run.description(&words[..words.len().min(MOST_WORDS)]);
        for _ in 0..4 {
            questions::some(run, &mut built.subject);
        }
        run.description(&words);
    }
}

/// One definition of as many words as there may be, one fewer and one more.
fn long(run: &mut Run) {
    for length in [MOST_WORDS - 1, MOST_WORDS, MOST_WORDS + 1, MOST_WORDS + 2] {
        for kind in [1, 2, 4] {
            for member in [0, 8, 12, 14] {
                for off in [-1, 0, 1] {
                    let count = (length as i64 - 2 + off) as u32;
                    let mut words = vec![kind, count];
                    words.resize(length, member);
                    run.description(&words);
                }
            }
        }
    }
    // Truncated definitions of each kind, and counts that no description could hold.
    for kind in 0..12 {
        for count in [
            0,
            1,
            2,
            3,
            16_382,
            16_383,
            65_536,
            1 << 30,
            u32::MAX - 2,
            u32::MAX,
        ] {
            for members in 0..4 {
                let mut words = vec![kind, count];
                words.extend([2].repeat(members));
                run.description(&words);
            }
        }
        run.description(&[kind]);
        run.description(&[1, 0, kind]);
    }
}

/// Buffers of every length around a table's, and descriptions of any number of bytes.
pub fn buffers(run: &mut Run) {
    let words = [3, 2, 1, 4, 4, 4, 6, 64, 8, 65];
    for room in 0..=5 * ROW {
        run.build_in(&words, room);
        run.build_in(&[1, 0, 99], room);
        run.build_in(&[], room);
    }
    let bytes = bytes_of(&words);
    for length in 0..=bytes.len() {
        for room in [0, 15, 16, 17, 48, 49] {
            run.build_bytes(&bytes[..length], room);
        }
    }
    let most = 4 * MOST_WORDS;
    let mut long = vec![1, MOST_WORDS as u32 - 2];
    long.resize(MOST_WORDS + 2, 2);
    let long = bytes_of(&long);
    for length in most - 5..=most + 8 {
        run.build_bytes(&long[..length], ROW);
    }
}

/// Numbers of references around the limit, lists in both orders, n and maximum around theirs.
pub fn questions(run: &mut Run) {
    let mut built = run.description(&[1, 2, 2, 12, 8, 64, 10, 2, 4_000_000_000, 1, 0]);
    let subject = &mut built.subject;
    for reference in (0..200).chain([1_086, 1_087, 1_088, 1_089, u32::MAX - 1, u32::MAX]) {
        questions::whole_type(run, subject, reference);
        questions::lists(run, subject, &[reference], &[2]);
        questions::lists(run, subject, &[2, 65], &[65, reference, 4_000]);
    }
    for max in (0..20).chain([255, 256, u32::MAX]) {
        for references in [
            vec![],
            vec![6; 16],
            vec![6; 17],
            vec![66],
            vec![200],
            vec![67],
        ] {
            for memory in [0, 1, 7] {
                let references = references.clone();
                run.ask(
                    subject,
                    &Question::Flatten {
                        memory,
                        max,
                        references,
                    },
                );
            }
        }
    }
    lists_of_each_length(run, subject);
}

fn lists_of_each_length(run: &mut Run, subject: &mut Subject) {
    for length in [0, 1, 7, 8, 9, MOST_WORDS - 1, MOST_WORDS, MOST_WORDS + 1] {
        for member in [2, 8, 12, 64, 200, 67] {
            let long = vec![member; length];
            questions::lists(run, subject, &long, &[2]);
            questions::lists(run, subject, &[2], &long);
            many_rooms(run, subject, &long);
            twice(run, subject, &long);
        }
        // The bad reference is at the very end.
        let mut long = vec![2; length];
        if let Some(last) = long.last_mut() {
            *last = 18;
        }
        questions::lists(run, subject, &long, &[200]);
        questions::lists(run, subject, &[2], &long);
    }
}

fn many_rooms(run: &mut Run, subject: &mut Subject, references: &[u32]) {
    let length = references.len();
    for room in [
        0,
        length.saturating_sub(1),
        length,
        length + 1,
        length + 100,
    ] {
        for rooms in [[room, room], [room, length], [length, room]] {
            for memory in [0, 1] {
                questions::placement_in(run, subject, memory, references, rooms);
            }
        }
    }
}

/// Signatures whose two lists are the same.
fn twice(run: &mut Run, subject: &mut Subject, references: &[u32]) {
    for k in [0, 1] {
        let lift = Side {
            memory: 1,
            asynchronous: 1,
        };
        let lower = Side {
            memory: 0,
            asynchronous: 0,
        };
        let question = Question::AsyncReturn {
            lift,
            lower,
            lift_types: references.to_vec(),
            lower_types: references.to_vec(),
            k,
        };
        run.ask(subject, &question);
    }
    questions::plain_calls(run, subject, references, references);
}
