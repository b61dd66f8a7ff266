//! The leaves: all flat pairs, rounding around every boundary, every count around its own.
use super::questions;
use crate::calls::{Info, Leaf};
use crate::compare::Run;
use crate::generate;

/// Flat counts well above the last that the boundary tells apart.
const LARGE_COUNTS: [u32; 4] = [257, 300, 65_536, u32::MAX];

pub fn numbers(run: &mut Run) {
    let flats: Vec<u32> = (0..=256).chain(LARGE_COUNTS).collect();
    for a in &flats {
        for b in &flats {
            run.leaf(&Leaf::AddFlat(*a, *b));
            run.leaf(&Leaf::MaxFlat(*a, *b));
        }
    }
    let places = places();
    let alignments: Vec<u32> = (0..=17).chain([32, 64, 255, 1 << 31, u32::MAX]).collect();
    for place in &places {
        for align in &alignments {
            run.leaf(&Leaf::AlignTo(*place, *align));
        }
    }
    for a in places.iter().step_by(7) {
        for b in places.iter().step_by(11) {
            run.leaf(&Leaf::Max(*a, *b));
        }
    }
    for _ in 0..run.cases {
        let (a, b) = (run.random.word(), run.random.word());
        run.leaf(&Leaf::Max(a, b));
        run.leaf(&Leaf::Max(a, a));
        let align = run.random.pick(&[1, 2, 4, 8, b]);
        run.leaf(&Leaf::AlignTo(a, align));
    }
}

/// Small places, and those around each power of two.
fn places() -> Vec<u32> {
    let mut places: Vec<u32> = (0..=300).collect();
    for power in 9..=32 {
        let middle = 1_u64 << power;
        places.extend((middle - 20..=middle + 20).filter_map(|p| u32::try_from(p).ok()));
    }
    places
}

/// A good info, a String's.
const GOOD: Info = [8, 4, 16, 8, 2];

pub fn infos(run: &mut Run) {
    next_fields(run);
    // Every word of an info by itself, against a good one.
    for place in 0..4 {
        for word in (0..10).chain([12, 16, 17, 18, 255, 256, 257, u32::MAX]) {
            let mut info = GOOD;
            info[place] = word;
            every_leaf_of(run, info);
        }
    }
    // Every flat count: 0 to 16, 255 for none, and all those that are bad.
    for flat in (0..=260).chain(LARGE_COUNTS) {
        let mut info = GOOD;
        info[4] = flat;
        every_leaf_of(run, info);
    }
    random_infos(run);
    lists_of_each_length(run);
    slices_of_infos(run);
}

/// Lists of 1 to 20 infos, where the port may go another way for short ones: good ones, one bad or large one at
/// each place, and two bad ones of which the first is told.
fn lists_of_each_length(run: &mut Run) {
    let odd: [Info; 8] = [
        [8, 3, 16, 8, 2],
        [9, 4, 16, 8, 2],
        [8, 4, 16, 8, 17],
        [8, 4, 16, 8, 254],
        [8, 4, 16, 8, 256],
        [8, 4, 16, 8, 255],
        [u32::MAX, 1, 0, 1, 0],
        [0, 1, u32::MAX - 7, 8, 0],
    ];
    for length in 1..=20 {
        let mut list: Vec<Info> = Vec::new();
        while list.len() < length {
            let info = generate::info(&mut run.random);
            list.push(
                match generate::is_good(&info) && info[0] < 1 << 20 && info[2] < 1 << 20 {
                    true => info,
                    false => GOOD,
                },
            );
        }
        list_of(run, &list);
        for place in 0..length {
            for info in odd {
                let mut list = list.clone();
                list[place] = info;
                list_of(run, &list);
            }
        }
        // Too large comes after every bad info, wherever that stands.
        let mut list = list.clone();
        list[0] = odd[6];
        list[length - 1] = odd[2];
        list_of(run, &list);
    }
}

/// The record of a list of infos, and the variant whose cases have them.
fn list_of(run: &mut Run, infos: &[Info]) {
    record(run, infos.concat());
    let case = |info: &Info| [&[1], &info[..]].concat();
    variant(run, infos.iter().flat_map(case).collect());
}

fn random_infos(run: &mut Run) {
    for _ in 0..run.cases {
        let info = generate::info(&mut run.random);
        every_leaf_of(run, info);
        let many = match run.random.once_in(8) {
            true => run.random.below(24),
            false => run.random.below(8),
        };
        let mut infos = Vec::new();
        for _ in 0..many {
            infos.extend(generate::info(&mut run.random));
        }
        record(run, infos);
        let mut cases = Vec::new();
        for _ in 0..many {
            cases.push(run.random.choice());
            cases.extend(generate::info(&mut run.random));
        }
        variant(run, cases);
    }
}

/// Slices of no info, of one and a piece of another, and of very many.
fn slices_of_infos(run: &mut Run) {
    record(run, vec![]);
    variant(run, vec![]);
    // Words after the last whole info or case are not read.
    for extra in 1..6 {
        let mut info = vec![8, 4, 16, 8, 2];
        info.extend((3..).take(extra));
        record(run, info);
        let mut case = vec![1, 8, 4, 16, 8, 2];
        case.extend((3..).take(extra));
        variant(run, case);
    }
    // A slice of infos has no limit of its own.
    let member = [1, 1, 1, 1, 1];
    record(run, member.repeat(20_000));
    for cases in [255, 256, 257, 65_535, 65_536, 65_537] {
        variant(run, [0, 3, 3, 3, 3, 3].repeat(cases));
    }
}

fn next_fields(run: &mut Run) {
    let ends: Vec<u32> = (0..20).chain(u32::MAX - 40..=u32::MAX).collect();
    for align in [1, 2, 4, 8] {
        for size in [0, align, 3 * align, u32::MAX / align * align] {
            for end in &ends {
                for memory in [0, 1] {
                    // The other memory's half is another, so that a mixed-up one shows.
                    let info = match memory {
                        0 => [size, align, 24, 8, 3],
                        _ => [24, 8, size, align, 3],
                    };
                    for k in 0..4 {
                        let end = *end;
                        run.leaf(&Leaf::NextField {
                            memory,
                            info,
                            end,
                            k,
                        });
                    }
                }
            }
        }
    }
}

/// Each leaf that takes one info.
fn every_leaf_of(run: &mut Run, info: Info) {
    let memory = run.random.choice();
    let end = match run.random.once_in(2) {
        true => run.random.below(64) as u32,
        false => run.random.word(),
    };
    for k in [0, 1, 2, 3, u32::MAX] {
        run.leaf(&Leaf::NextField {
            memory,
            info,
            end,
            k,
        });
    }
    let count = match run.random.below(4) {
        0 => (u32::MAX / info[0].max(1)).wrapping_add(run.random.below(3) as u32),
        1 => run.random.word(),
        _ => run.random.below(20) as u32,
    };
    for k in 0..6 {
        run.leaf(&Leaf::FixedLengthList { info, count, k });
    }
    record(run, info.to_vec());
    variant(run, [1].into_iter().chain(info).collect());
}

fn record(run: &mut Run, infos: Vec<u32>) {
    let mut leaf = Leaf::Record { infos, k: 0 };
    for number in [0, 1, 2, 3, 4, 5, u32::MAX] {
        if let Leaf::Record { k, .. } = &mut leaf {
            *k = number;
        }
        run.leaf(&leaf);
    }
}

fn variant(run: &mut Run, cases: Vec<u32>) {
    let mut leaf = Leaf::Variant { cases, k: 0 };
    for number in [0, 1, 2, 3, 4, 5, 6, 7, 8, u32::MAX] {
        if let Leaf::Variant { k, .. } = &mut leaf {
            *k = number;
        }
        run.leaf(&leaf);
    }
}

/// Flags of each number of labels in types of every kind that takes a reference, and questions about them.
fn flags_in_others(run: &mut Run) {
    for labels in 0..=513 {
        let mut words = vec![6, labels];
        // A record and a tuple.
        words.extend([1, 3, 2, 64, 8, 4, 2, 64, 64]);
        // A variant, an option and a result, which join their types with others.
        words.extend([2, 3, 64, 10, 9, 8, 64, 9, 64, 12]);
        // A list and a map.
        words.extend([3, 64, 5, 64, 2]);
        // Fixed lists with fewer and with more than sixteen types.
        words.extend((0..=17).flat_map(|elements| [10, 64, elements]));
        let mut built = run.description(&words);
        questions::whole_type(run, &mut built.subject, 64);
        questions::lists(run, &mut built.subject, &[64], &[64, 65]);
    }
}

pub fn counts(run: &mut Run) {
    let around = |middle: u32| middle - 3..=middle + 3;
    let mut counts: Vec<u32> = (0..=600).collect();
    counts.extend(around(65_536));
    counts.extend(around(1 << 24));
    counts.extend(around(1 << 31));
    counts.extend(u32::MAX - 3..=u32::MAX);
    for count in counts {
        run.leaf(&Leaf::Discriminant(count));
        for k in 0..6 {
            run.leaf(&Leaf::Flags(count, k));
            run.leaf(&Leaf::Enum(count, k));
        }
        run.description(&[6, count]);
        run.description(&[7, count]);
    }
    flags_in_others(run);
    // Variants of each number of cases, with and without a payload at the last.
    for cases in (1..=300).chain([16_382]) {
        for last in [u32::MAX, 2, 8, 12] {
            let mut words = vec![2, cases];
            words.extend(std::iter::repeat_n(u32::MAX, cases as usize - 1));
            words.push(last);
            run.description(&words);
        }
    }
    // Fixed lists: flat products around 16, sizes around 4 GiB.
    for element in 0..18 {
        for count in 0..=20 {
            run.description(&[10, element, count]);
        }
        for size in [1_u64, 2, 4, 8, 16] {
            let most = (1_u64 << 32) / size;
            for count in most.saturating_sub(3)..=most + 3 {
                if let Ok(count) = u32::try_from(count) {
                    run.description(&[10, element, count]);
                }
            }
        }
    }
}
