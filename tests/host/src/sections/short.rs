//! Short descriptions, all of them.
use super::questions;
use crate::compare::Run;
use crate::generate;
use crate::model::ROW;

/// U32, U64, Float32, Float64 and String: every core type, and one that depends on the memory.
const FLAT_ALPHABET: [u32; 5] = [6, 8, 9, 10, 12];

/// All pairs of short flat lists, joined by a variant, an option and a result.
pub fn joins(run: &mut Run) {
    let lists = generate::every_list(&FLAT_ALPHABET, if run.quick { 2 } else { 3 });
    for first in &lists {
        for second in &lists {
            let mut words = vec![1, first.len() as u32];
            words.extend(first);
            words.extend([4, second.len() as u32]);
            words.extend(second);
            words.extend([2, 2, 64, 65, 9, 64, 65, 8, 66]);
            run.description(&words);
        }
    }
}

/// Kinds, scalars of each sort, definitions 0 and 1, and the mark: every description over these.
const WORDS: [u32; 17] = [
    0,
    1,
    2,
    3,
    4,
    5,
    6,
    7,
    8,
    9,
    10,
    12,
    14,
    18,
    64,
    65,
    u32::MAX,
];
/// Fewer, for one word more.
const FEW_WORDS: [u32; 9] = [0, 1, 2, 3, 8, 9, 10, 64, u32::MAX];

pub fn all(run: &mut Run) {
    let (longest, longest_of_few) = if run.quick { (4, 5) } else { (5, 6) };
    for length in 0..=longest {
        each(run, &WORDS, length);
    }
    each(run, &FEW_WORDS, longest_of_few);
}

fn each(run: &mut Run, alphabet: &[u32], length: u32) {
    for number in 0..(alphabet.len() as u64).pow(length) {
        let mut rest = number;
        let mut words = Vec::with_capacity(length as usize);
        for _ in 0..length {
            words.push(alphabet[(rest % alphabet.len() as u64) as usize]);
            rest /= alphabet.len() as u64;
        }
        let mut built = run.description(&words);
        // In the table exactly as long, one word short and one long, and with questions, now and then.
        if run.random.once_in(128) {
            let full = ROW * built.subject.n as usize;
            for room in [full, full.saturating_sub(1), full + 1] {
                run.build_in(&words, room);
            }
            questions::some(run, &mut built.subject);
        }
    }
}
