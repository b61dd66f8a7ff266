//! Random descriptions, references, infos and rows; and a chain of definitions, which is not random.
use crate::calls::Info;
use crate::model::{Definition, Row};
use crate::random::Random;

/// What a random description looks like.
#[derive(Clone, Copy)]
pub struct Shape {
    pub definitions: u64,
    /// The most members of a record, tuple or variant.
    pub members: u64,
    /// Fixed lists whose sizes come near 4 GiB.
    pub large: bool,
    /// Each definition that has references refers to the last of these before it.
    pub deep: bool,
}

/// A description that is good but for its sizes and its depth: kinds, counts and references are all in order.
pub fn description(random: &mut Random, shape: Shape) -> Vec<u32> {
    let mut words = Vec::new();
    let mut last_of_chain = None;
    for index in 0..shape.definitions {
        let begin = words.len();
        definition(random, shape, index, &mut words);
        let whole = Definition::read(&words[begin..]).expect("a definition was added");
        let places = whole.places;
        if shape.deep && !places.is_empty() {
            if let Some(last) = last_of_chain {
                let place = random.between(places.start as u64, places.end as u64 - 1);
                words[begin + place as usize] = 64 + last as u32;
            }
            last_of_chain = Some(index);
        }
    }
    words
}

/// So many lists or options, by their kind word, the first of a scalar and each other of the one before.
pub fn chain(kind: u32, scalar: u32, many: u32) -> Vec<u32> {
    let on = |index: u32| match index {
        0 => [kind, scalar],
        _ => [kind, 64 + index - 1],
    };
    (0..many).flat_map(on).collect()
}

fn definition(random: &mut Random, shape: Shape, index: u64, words: &mut Vec<u32>) {
    let kind = random.between(1, 10) as u32;
    words.push(kind);
    match kind {
        1 | 4 => {
            let members = random.below(shape.members + 1);
            words.push(members as u32);
            words.extend((0..members).map(|_| reference(random, index)));
        }
        2 => {
            let cases = match random.once_in(60) {
                true => random.pick(&[255, 256, 257]),
                false => random.between(1, shape.members.max(1)),
            };
            words.push(cases as u32);
            words.extend((0..cases).map(|_| payload(random, index)));
        }
        3 | 8 => words.push(reference(random, index)),
        5 => words.extend([reference(random, index), reference(random, index)]),
        6 => words.push(labels(random)),
        7 => words.push(cases_of_enum(random)),
        9 => words.extend([payload(random, index), payload(random, index)]),
        _ => words.extend([reference(random, index), elements(random, shape.large)]),
    }
}

/// A good reference of definition `index`: often a late one, so that types grow deep.
pub fn reference(random: &mut Random, index: u64) -> u32 {
    if index == 0 || random.once_in(2) {
        return random.below(18) as u32;
    }
    let back = match random.once_in(2) {
        true => random.between(1, index.min(3)),
        false => random.between(1, index),
    };
    (64 + index - back) as u32
}

fn payload(random: &mut Random, index: u64) -> u32 {
    match random.once_in(4) {
        true => u32::MAX,
        false => reference(random, index),
    }
}

/// Flags of 33 to 512 labels, on both sides of where a group of 32 starts, and of up to 32.
fn labels(random: &mut Random) -> u32 {
    let labels = match random.below(4) {
        0 => random.between(33, 512),
        1 => 32 * random.between(1, 15) + random.below(2),
        _ => random.below(33),
    };
    labels as u32
}

fn cases_of_enum(random: &mut Random) -> u32 {
    match random.below(200) {
        0 => random.pick(&[65_535, 65_536, 65_537]),
        1 => random.pick(&[100_000, 16_777_216, 16_777_217, u32::MAX]),
        2..20 => random.pick(&[255, 256, 257]),
        _ => random.between(1, 40) as u32,
    }
}

fn elements(random: &mut Random, large: bool) -> u32 {
    if large && random.once_in(2) {
        let parts = random.pick(&[1, 2, 3, 4, 8, 12, 16, 24]);
        let around = (1_u64 << 32) / parts + random.below(7);
        return around.saturating_sub(3).min(u32::MAX.into()) as u32;
    }
    match random.once_in(20) {
        true => random.below(1 << 20) as u32,
        false => random.below(19) as u32,
    }
}

/// A description with one thing wrong, or up to three.
pub fn damaged(random: &mut Random, words: &[u32]) -> Vec<u32> {
    let mut words = words.to_vec();
    for _ in 0..random.pick(&[1, 1, 1, 2, 3]) {
        damage(random, &mut words);
    }
    words
}

/// One word changed, dropped, added or exchanged with another, or the end cut off.
fn damage(random: &mut Random, words: &mut Vec<u32>) {
    let place = random.below(words.len() as u64 + 1) as usize;
    if place == words.len() {
        words.push(any_word(random));
        return;
    }
    match random.below(7) {
        0 | 1 => words[place] = any_word(random),
        // A near miss: one more, one fewer, or one bit.
        2 => words[place] = words[place].wrapping_add(random.pick(&[1, u32::MAX])),
        3 => words[place] ^= 1 << random.below(32),
        4 => words.insert(place, any_word(random)),
        5 => {
            words.remove(place);
        }
        _ if random.once_in(2) => words.truncate(place),
        _ => {
            let other = random.below(words.len() as u64) as usize;
            words.swap(place, other);
        }
    }
}

/// Words near every boundary, and any at all.
pub fn any_word(random: &mut Random) -> u32 {
    let edges = [
        0, 8, 10, 11, 12, 13, 14, 16, 17, 18, 32, 33, 63, 64, 65, 163, 164, 200, 201, 202, 255,
        256, 257, 512, 513, 1_087, 1_088, 16_382, 16_384, 65_536, 65_537,
    ];
    match random.below(6) {
        0 => random.word(),
        1 => random.pick(&[u32::MAX, u32::MAX - 1, 1 << 31, (1 << 31) - 1, 1 << 28]),
        2 => random.pick(&edges),
        3 => random.between(64, 72) as u32,
        _ => random.below(20) as u32,
    }
}

/// References into a table of n rows, each good but for one in `bad_once_in`.
pub fn references(random: &mut Random, n: u32, count: u64, bad_once_in: u64) -> Vec<u32> {
    let mut list = Vec::with_capacity(count as usize);
    for _ in 0..count {
        let word = match random.once_in(bad_once_in) {
            true => any_word(random),
            false => reference(random, u64::from(n)),
        };
        list.push(word);
    }
    list
}

/// All lists of up to so many words of an alphabet, shorter ones first.
pub fn every_list(alphabet: &[u32], longest: usize) -> Vec<Vec<u32>> {
    let mut lists: Vec<Vec<u32>> = vec![vec![]];
    let mut begin = 0;
    for _ in 0..longest {
        let end = lists.len();
        for list in begin..end {
            let longer = |word: &u32| [&lists[list][..], &[*word]].concat();
            let longer: Vec<_> = alphabet.iter().map(longer).collect();
            lists.extend(longer);
        }
        begin = end;
    }
    lists
}

/// An info: most are well formed, some are large, some break a rule.
pub fn info(random: &mut Random) -> Info {
    let mut info = [0; 5];
    for memory in 0..2 {
        let align = random.pick(&[1, 2, 4, 8]);
        let multiple = match random.below(8) {
            0 => u32::MAX / align - random.below(4) as u32,
            1 => random.word() / align,
            2 => 0,
            _ => random.below(12) as u32,
        };
        info[2 * memory] = align * multiple;
        info[2 * memory + 1] = align;
    }
    info[4] = match random.below(6) {
        0 => random.pick(&[16, 255]),
        _ => random.below(17) as u32,
    };
    if random.once_in(25) {
        let place = random.below(5) as usize;
        info[place] = random.pick(&[
            0,
            1,
            3,
            5,
            6,
            7,
            9,
            12,
            16,
            17,
            18,
            254,
            255,
            256,
            257,
            u32::MAX,
        ]);
    }
    info
}

/// Whether an info keeps 01's rules.
pub fn is_good(info: &Info) -> bool {
    let aligned = |k: usize| [1, 2, 4, 8].contains(&info[k + 1]) && info[k] % info[k + 1] == 0;
    aligned(0) && aligned(2) && (info[4] <= 16 || info[4] == 255)
}

/// A well-formed row that no build need have written.
pub fn row(random: &mut Random) -> Row {
    let info = loop {
        let info = info(random);
        if is_good(&info) {
            break info;
        }
    };
    let mut row = [0; 16];
    row[0] = random.between(1, 10) as u32;
    row[1..6].copy_from_slice(&info);
    for flat in &mut row[6..8] {
        let used = match info[4] {
            0..=15 => (1 << (2 * info[4])) - 1,
            16 => u32::MAX,
            _ => 0,
        };
        *flat = random.word() & used;
    }
    row[8] = random.pick(&[0, 1, 2, 4]);
    for word in &mut row[9..15] {
        *word = random.word();
    }
    row[15] = depth_word(random);
    row
}

/// A good word 15, borrow plus twice the depth: often at an end of what is good.
fn depth_word(random: &mut Random) -> u32 {
    match random.once_in(4) {
        true => random.pick(&[2, 3, 200, 201]),
        false => random.between(2, 201) as u32,
    }
}
