//! Random descriptions of every kind, damaged copies of them, and questions about both.
use super::questions;
use crate::compare::Run;
use crate::generate::{self, Shape};
use crate::model::ROW;

pub fn run(run: &mut Run) {
    for _ in 0..run.cases {
        let deep = run.random.once_in(40);
        let shape = Shape {
            definitions: match run.random.below(30) {
                // Long enough that some of these go deeper than 100 and some do not.
                _ if deep => run.random.between(90, 200),
                0 => run.random.between(20, 200),
                _ => run.random.between(1, 8),
            },
            members: match run.random.below(30) {
                0 => run.random.between(20, 200),
                _ => run.random.between(1, 6),
            },
            large: run.random.once_in(6),
            deep,
        };
        let words = generate::description(&mut run.random, shape);
        let mut built = run.description(&words);
        questions::some(run, &mut built.subject);
        rooms(run, &words, built.subject.n as usize);
        for _ in 0..6 {
            let damaged = generate::damaged(&mut run.random, &words);
            let mut built = run.description(&damaged);
            if run.random.once_in(8) {
                questions::some(run, &mut built.subject);
            }
        }
    }
}

/// Tables exactly full, one word short, one long, and of any length up to that.
fn rooms(run: &mut Run, words: &[u32], rows: usize) {
    let full = ROW * rows;
    let any = run.random.below(full as u64 + 20) as usize;
    for room in [full, full.saturating_sub(1), full + 1, any] {
        run.build_in(words, room);
    }
}
