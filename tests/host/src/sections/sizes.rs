//! Sizes around 4 GiB: first a type that leaves a few bytes to the limit, then every way to build on
//! it and to place it.
use super::questions;
use crate::calls::WRITTEN;
use crate::compare::Run;
use crate::random::Random;

pub fn run(run: &mut Run) {
    let nearest = if run.quick { 20 } else { 70 };
    for left in 0..nearest {
        for (element, size) in [(2, 1), (4, 2), (6, 4), (8, 8)] {
            let whole = (1_u64 << 32) - left;
            if whole % size != 0 || whole / size > u64::from(u32::MAX) {
                continue;
            }
            // 64: the large one. 65 to 68: empty ones of each alignment. 69: a String pair.
            let count = (whole / size) as u32;
            let mut words = vec![10, element, count];
            words.extend([10, 2, 0, 10, 4, 0, 10, 6, 0, 10, 8, 0, 3, 2]);
            on_top(run, &words);
            placements(run, &words);
        }
    }
    // Large in the 64-bit memory alone: strings, of 8 and 16 bytes.
    for count in (1_u32 << 28) - 3..(1 << 28) + 3 {
        on_top(
            run,
            &[10, 12, count, 10, 2, 0, 10, 4, 0, 10, 6, 0, 10, 8, 0, 3, 2],
        );
        placements(
            run,
            &[10, 12, count, 10, 2, 0, 10, 4, 0, 10, 6, 0, 10, 8, 0, 3, 2],
        );
    }
    equal_parts(run);
    for _ in 0..run.cases {
        random_sums(run);
    }
}

/// Halves and thirds that are put together.
fn equal_parts(run: &mut Run) {
    for parts in 2..6_u64 {
        for more in 0..4 {
            let count = ((1_u64 << 32) / parts + more).saturating_sub(2) as u32;
            let mut words = vec![10, 2, count];
            words.extend([10, 64, parts as u32]);
            words.extend([1, parts as u32]);
            words.extend(std::iter::repeat_n(64, parts as usize));
            words.extend([8, 64, 5, 64, 64, 4, 2, 64, 64]);
            run.description(&words);
        }
    }
}

/// Random parts that come to 4 GiB but for a few bytes, in random orders among small ones.
fn random_sums(run: &mut Run) {
    let (mut base, parts) = random_parts(&mut run.random);
    // Empty ones of each alignment.
    base.extend([10, 2, 0, 10, 4, 0, 10, 6, 0, 10, 8, 0]);
    let whole = 64 + parts + 4;
    for _ in 0..2 {
        let members = random_order(&mut run.random, parts);
        let mut words = base.clone();
        words.extend([run.random.pick(&[1, 4]), members.len() as u32]);
        words.extend(&members);
        words.extend(match run.random.below(6) {
            0 => vec![8, whole],
            1 => vec![10, whole, run.random.below(3) as u32],
            2 => vec![9, whole, 64],
            3 => vec![5, 64, whole],
            4 => vec![2, 3, u32::MAX, whole, 8],
            _ => vec![1, 2, whole, run.random.pick(&[2, 8, whole - 1])],
        });
        let mut built = run.description(&words);
        for memory in [0, 1] {
            let rooms = [members.len(); WRITTEN];
            questions::placement_in(run, &mut built.subject, memory, &members, rooms);
        }
    }
}

/// Fixed lists, one to four of them, that together have 4 GiB within forty bytes in one of the memories.
fn random_parts(random: &mut Random) -> (Vec<u32>, u32) {
    // A String takes 8 or 16 bytes.
    const ELEMENTS: [(u32, u64); 6] = [(2, 1), (4, 2), (6, 4), (8, 8), (12, 8), (12, 16)];
    let parts = random.between(1, 4);
    let mut left = (1_u64 << 32) - 40 + random.below(80);
    let mut words = Vec::new();
    for part in 1..=parts {
        let (element, size) = random.pick(&ELEMENTS);
        let bytes = match part == parts {
            true => left,
            false => random.below(left),
        };
        let count = (bytes / size).min(u32::MAX.into());
        left -= count * size;
        words.extend([10, element, count as u32]);
    }
    (words, parts as u32)
}

/// The parts once each and a few small ones, in any order.
fn random_order(random: &mut Random, parts: u32) -> Vec<u32> {
    let mut members: Vec<u32> = (64..64 + parts).collect();
    let empty = 64 + parts;
    for _ in 0..random.below(5) {
        members.push(random.pick(&[2, 4, 6, 8, 12, empty, empty + 1, empty + 2, empty + 3]));
    }
    for place in (1..members.len()).rev() {
        members.swap(place, random.below(place as u64 + 1) as usize);
    }
    members
}

/// One more definition of each kind over the large one, which is refused or just accepted.
fn on_top(run: &mut Run, base: &[u32]) {
    let small = [0, 2, 4, 6, 8, 12, 65, 66, 67, 68, 69];
    let mut tops: Vec<Vec<u32>> = vec![
        vec![1, 1, 64],
        vec![8, 64],
        vec![3, 64],
        vec![10, 64, 0],
        vec![10, 64, 1],
        vec![10, 64, 2],
        vec![2, 1, 64],
        vec![2, 2, u32::MAX, 64],
        vec![9, 64, u32::MAX],
        vec![4, 2, 64, 64],
    ];
    let mut wide = vec![2, 257];
    wide.extend([u32::MAX].repeat(256));
    wide.push(64);
    tops.push(wide);
    for other in small {
        tops.push(vec![1, 2, 64, other]);
        tops.push(vec![4, 2, other, 64]);
        tops.push(vec![1, 3, 64, other, 65]);
        tops.push(vec![1, 3, 68, 64, other]);
        tops.push(vec![5, 64, other]);
        tops.push(vec![5, other, 64]);
        tops.push(vec![9, 64, other]);
        tops.push(vec![2, 2, other, 64]);
    }
    for top in tops {
        let mut words = base.to_vec();
        words.extend(top);
        run.description(&words);
    }
}

/// The same by questions: each order of the large one among small ones, in both memories.
fn placements(run: &mut Run, base: &[u32]) {
    let mut built = run.description(base);
    let subject = &mut built.subject;
    let small = [0, 2, 4, 8, 12, 65, 66, 67, 68];
    let mut lists: Vec<Vec<u32>> = vec![vec![64], vec![64, 64]];
    for first in small {
        lists.push(vec![64, first]);
        lists.push(vec![first, 64]);
        for second in small {
            lists.push(vec![64, first, second]);
            lists.push(vec![first, 64, second]);
        }
    }
    for references in lists {
        for memory in [0, 1] {
            let rooms = [references.len(); WRITTEN];
            questions::placement_in(run, subject, memory, &references, rooms);
        }
    }
    // Signatures do not look at sizes.
    questions::lists(run, subject, &[64, 64], &[64, 64]);
}
