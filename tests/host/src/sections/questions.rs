//! Questions put to a table: every kind, both memories, both async settings.
use crate::calls::{PlainCall, Question, Side, WRITTEN};
use crate::compare::{Run, Subject};
use crate::{encode, generate, model};

/// A few random questions of each kind.
pub fn some(run: &mut Run, subject: &mut Subject) {
    let n = subject.n;
    let reference = generate::references(&mut run.random, n, 1, 8)[0];
    whole_type(run, subject, reference);
    for count in [run.random.below(4), run.random.below(20)] {
        let bad_once_in = run.random.pick(&[20, 1000]);
        let first = generate::references(&mut run.random, n, count, bad_once_in);
        let count = run.random.below(6);
        let second = generate::references(&mut run.random, n, count, bad_once_in);
        lists(run, subject, &first, &second);
    }
}

/// Every question of each definition by itself, and of all of them together.
pub fn every(run: &mut Run, subject: &mut Subject) {
    let all: Vec<u32> = (0..subject.n).map(|index| 64 + index).collect();
    for reference in (0..20).chain(all.clone()).chain([64 + subject.n, u32::MAX]) {
        whole_type(run, subject, reference);
        lists(run, subject, &[reference], &[reference]);
    }
    lists(run, subject, &all, &all);
    lists(run, subject, &[], &[]);
}

/// The nine numbers of one reference, the last also by a k above it, and its size and alignment.
pub fn whole_type(run: &mut Run, subject: &mut Subject, reference: u32) {
    for k in 0..10 {
        run.ask(subject, &Question::Type { reference, k });
    }
    for memory in [0, 1] {
        run.ask(subject, &Question::SizeAlign { memory, reference });
    }
}

/// Every question over lists, in both memories and both async settings.
pub fn lists(run: &mut Run, subject: &mut Subject, first: &[u32], second: &[u32]) {
    run.ask(
        subject,
        &Question::ContainsBorrow {
            references: first.to_vec(),
        },
    );
    for memory in [0, 1] {
        placement(run, subject, memory, first);
        let max = match run.random.once_in(10) {
            true => run.random.pick(&[16, 17, 18, u32::MAX]),
            false => run.random.below(17) as u32,
        };
        for max in [max, 16] {
            run.ask(
                subject,
                &Question::Flatten {
                    memory,
                    max,
                    references: first.to_vec(),
                },
            );
        }
        for asynchronous in [0, 1] {
            let side = Side {
                memory,
                asynchronous,
            };
            let references = first.to_vec();
            run.ask(subject, &Question::Lowering { side, references });
            let references = first.to_vec();
            run.ask(subject, &Question::Lifting { side, references });
            signatures(run, subject, side, first, second);
        }
    }
    plain_calls(run, subject, first, second);
}

/// Both async signatures, the first list on this side; all settings of the other side over short lists, one
/// of them over long ones.
fn signatures(run: &mut Run, subject: &mut Subject, side: Side, first: &[u32], second: &[u32]) {
    let yes = run.random.yes();
    let mut settings = vec![(0, 0), (0, yes), (yes, 0), (yes, yes)];
    if are_long(first, second) {
        settings = vec![run.random.pick(&settings)];
    }
    for (memory, asynchronous) in settings {
        for k in [0, run.random.of_results()] {
            let start = Question::AsyncStart {
                lower: side,
                lift_memory: memory,
                lower_types: first.to_vec(),
                lift_types: second.to_vec(),
                k,
            };
            run.ask(subject, &start);
            let other = Side {
                memory,
                asynchronous,
            };
            let back = Question::AsyncReturn {
                lift: side,
                lower: other,
                lift_types: first.to_vec(),
                lower_types: second.to_vec(),
                k,
            };
            run.ask(subject, &back);
        }
    }
}

/// Whether two lists are too long for every setting to be asked.
fn are_long(first: &[u32], second: &[u32]) -> bool {
    first.len() + second.len() > 8
}

/// The core signature of a function with these parameters and results: called in every way over short lists, in one of
/// them over long ones.
pub fn plain_calls(run: &mut Run, subject: &mut Subject, params: &[u32], results: &[u32]) {
    let mut calls = every_plain_call(run.random.yes()).to_vec();
    if are_long(params, results) {
        calls = vec![run.random.pick(&calls)];
    }
    for plain in calls {
        for k in [0, run.random.of_results()] {
            run.ask(subject, &functype(plain, [params, results], k));
        }
    }
}

/// In either memory, sync and async, lifted and lowered, without a callback and with one; each of these numbers is 0 or
/// the given one.
pub fn every_plain_call(yes: u32) -> [PlainCall; 16] {
    std::array::from_fn(|settings| {
        let setting = |bit: u32| if settings >> bit & 1 == 0 { 0 } else { yes };
        PlainCall {
            side: Side {
                memory: setting(0),
                asynchronous: setting(1),
            },
            lower: setting(2),
            callback: setting(3),
        }
    })
}

pub fn functype(plain: PlainCall, [params, results]: [&[u32]; 2], k: u32) -> Question {
    Question::Functype {
        plain,
        params: params.to_vec(),
        results: results.to_vec(),
        k,
    }
}

/// Asks, and holds the model's answer to the papers'; the offsets that the model writes for a placement.
pub fn answer_is(
    run: &mut Run,
    subject: &mut Subject,
    question: &Question,
    answer: u64,
) -> Vec<u32> {
    run.ask(subject, question);
    let [mut offsets, mut gaps] = question.rooms().map(|room| vec![0; room.unwrap_or(0)]);
    let written = [&mut offsets[..], &mut gaps];
    let said = encode::answer(model::ask(question, &subject.table, subject.n, written));
    run.tally.consistent(said == answer, || {
        format!("by the papers {answer:#x}, the model says {said:#x}: {question:?}")
    });
    offsets
}

/// One placement, in buffers of so many words for the offsets and for the gaps.
pub fn placement_in(
    run: &mut Run,
    subject: &mut Subject,
    memory: u32,
    references: &[u32],
    rooms: [usize; WRITTEN],
) {
    let references = references.to_vec();
    let question = Question::Placement {
        memory,
        references,
        rooms,
    };
    run.ask(subject, &question);
}

/// Buffers as long as the references, and others, of which each is so long or a little shorter or longer.
fn placement(run: &mut Run, subject: &mut Subject, memory: u32, references: &[u32]) {
    let length = references.len();
    let around = [
        length,
        length.saturating_sub(1),
        length + 1,
        length + 3,
        length / 2,
    ];
    let others = [run.random.pick(&around), run.random.pick(&around)];
    for rooms in [[length; WRITTEN], others] {
        placement_in(run, subject, memory, references, rooms);
    }
}
