//! The recorded list: a fixed sample of the original's answers, for a test that has no Rust at hand.
//!
//! A file of little-endian u32 words. Word 0 is the format's number (1), word 1 how many entries
//! follow. An entry is its kind, the number of words after these two, and those words:
//!
//! | kind | words |
//! |---|---|
//! | 1 description | w, the w words, n, then n rows of 16 words |
//! | 2 type | reference, size32, align32, size64, align64, flat count or 255, flat32, flat64, borrow |
//! | 3 size_align | memory, reference, size, alignment |
//! | 4 placement | memory, m, the m references, the m offsets, size, alignment |
//! | 5 flatten | memory, maximum, m, the m references, LIST |
//! | 6 lowering, 7 lifting | memory, async, m, the m references, LIST |
//! | 8 async start | lower memory, lower async, lift memory, m, lower's m references, k, lift's k references, parameters LIST, results LIST |
//! | 9 async return | lift memory, lift async, lower memory, lower async, m, lift's m references, k, lower's k references, parameters LIST, results LIST |
//! | 10 contains_borrow | m, the m references, 0 or 1 |
//!
//! Entries 2 to 10 are about the table of the description before them. Memory and async are 0 (32-bit,
//! sync) or 1. LIST is three words: the count (4294967295 for "memory"), then the packed types' low 32
//! bits and the bits above. No entry has an enum or variant of 256 or 65,536 cases in it.
use crate::encode;
use crate::generate::{self, Shape};
use crate::model;
use crate::random::Random;
use crate::reading;
use oracle::component::InterfaceType;
use oracle::{Flat, Original, Side};

const FORMAT: u32 = 1;
const SEED: u64 = 1;
/// The file stays below this many bytes: with what 01 refuses after it, the list that `replay` reads has at
/// most 65,536.
const MOST_BYTES: usize = 61_000;

/// Descriptions that stand in the list whatever the random ones are: 01's, order 4's, some that go deep, and
/// one for each kind.
const CHOSEN: [&[u32]; 28] = [
    &[],
    &[1, 0],
    &[1, 2, 2, 6],
    &[1, 3, 2, 12, 2],
    &[8, 2],
    &[9, 8, 12],
    &[2, 2, 9, 6],
    &[2, 2, 9, 10],
    &[7, 257],
    &[7, 65_537],
    &[6, 0, 6, 8, 6, 9, 6, 17],
    &[6, 33, 6, 512, 1, 2, 64, 65],
    &[10, 6, 16, 10, 6, 17],
    &[10, 4, 2_147_483_647],
    &[10, 2, 4_294_967_294, 8, 64],
    &[3, 2, 1, 4, 4, 4, 6, 64, 8, 65],
    &[5, 2, 8],
    &[5, 12, 14],
    &[10, 8, 0, 1, 2, 2, 64],
    &[10, 6, 17, 10, 64, 0],
    &[9, 4_294_967_295, 4_294_967_295],
    &[4, 3, 13, 14, 15, 3, 64],
    &[2, 3, 4_294_967_295, 10, 12],
    &[1, 16, 6, 6, 6, 6, 6, 6, 6, 6, 6, 6, 6, 6, 6, 6, 6, 6, 8, 64],
    &[10, 12, 268_435_455],
    &[3, 14, 1, 2, 64, 2, 5, 2, 65, 8, 66],
    &[3, 2, 8, 64, 5, 64, 65, 5, 65, 64, 4, 3, 66, 64, 14],
    &[
        6,
        40,
        9,
        4_294_967_295,
        64,
        2,
        3,
        64,
        4_294_967_295,
        65,
        10,
        66,
        0,
    ],
];

pub fn write(file: &str) -> std::io::Result<String> {
    let mut list = List::default();
    let mut random = Random::new(SEED);
    for words in CHOSEN {
        list.add(words, &mut random);
    }
    // As deep as a type may go.
    list.add(&generate::chain(3, 14, 100), &mut random);
    while 4 * list.words.len() < MOST_BYTES {
        let shape = Shape {
            definitions: random.pick(&[1, 1, 1, 2, 2, 3]),
            members: random.pick(&[2, 4, 7]),
            large: random.once_in(6),
            deep: false,
        };
        let before = list.words.len();
        list.add(&generate::description(&mut random, shape), &mut random);
        if 4 * list.words.len() >= MOST_BYTES {
            list.words.truncate(before);
            break;
        }
    }
    let mut words = vec![FORMAT, list.entries()];
    words.extend(&list.words);
    std::fs::write(file, crate::compare::bytes_of(&words))?;
    Ok(format!(
        "{file}: {} descriptions and {} questions, {} bytes",
        list.descriptions(),
        list.entries() - list.descriptions(),
        4 * words.len()
    ))
}

#[derive(Default)]
struct List {
    words: Vec<u32>,
}

impl List {
    /// A description and a question or two about it; nothing if 01 refuses it or it holds a suspect
    /// count.
    fn add(&mut self, words: &[u32], random: &mut Random) {
        let table = &mut vec![0; model::ROW * model::MOST_ROWS];
        let Ok(answer) = model::build(words, table) else {
            return;
        };
        let n = encode::low(answer);
        let definitions = reading::definitions(words, n as usize);
        if reading::suspects(&definitions).contains(&true) {
            return;
        }
        let mut original = Original::new();
        let built = original.build(words, usize::MAX);
        assert_eq!(built, Ok(n as usize), "the original converts {words:?}");
        let mut entry = vec![words.len() as u32];
        entry.extend(words);
        entry.push(n as u32);
        for index in 0..n as usize {
            entry.extend(original.row(index));
        }
        self.push(1, entry);
        let kind = random.between(2, 10) as u32;
        self.question(kind, n as u32, &mut original, random);
    }

    fn question(&mut self, kind: u32, n: u32, original: &mut Original, random: &mut Random) {
        let (memory, asynchronous) = (random.below(2) as u32, random.below(2) as u32);
        let this = side(memory, asynchronous);
        let count = if kind < 4 { 1 } else { random.below(5) };
        let (first, types) = references(original, n, count, random);
        let listed = |head: &[u32]| {
            let mut entry = head.to_vec();
            entry.push(first.len() as u32);
            entry.extend(&first);
            entry
        };
        let entry = match kind {
            2 => {
                let mut entry = vec![first[0]];
                entry.extend(original.numbers(&types[0]));
                entry
            }
            3 => {
                let (size, align) = original.size_align(memory == 1, &types[0]);
                vec![memory, first[0], size, align]
            }
            4 => match original.placement(memory == 1, &types) {
                Some(placed) => {
                    let mut entry = listed(&[memory]);
                    entry.extend(placed.offsets);
                    entry.extend([placed.size, placed.align]);
                    entry
                }
                None => return,
            },
            5 => {
                let max = random.pick(&[0, 1, 2, 4, 8, 16]);
                let mut entry = listed(&[memory, max]);
                entry.extend(list(original.flatten(memory == 1, max as usize, &types)));
                entry
            }
            6 | 7 => {
                let flat = match kind {
                    6 => original.lowering(this, &types),
                    _ => original.lifting(this, &types),
                };
                let mut entry = listed(&[memory, asynchronous]);
                entry.extend(list(flat));
                entry
            }
            8 | 9 => {
                let (other_memory, other_async) = (random.below(2) as u32, random.below(2) as u32);
                let other = side(other_memory, other_async);
                let count = random.below(4);
                let (second, other_types) = references(original, n, count, random);
                let (mut entry, signature) = match kind {
                    8 => (
                        listed(&[memory, asynchronous, other_memory]),
                        original.async_start((this, &types), (other, &other_types)),
                    ),
                    _ => (
                        listed(&[memory, asynchronous, other_memory, other_async]),
                        original.async_return((this, &types), (other, &other_types)),
                    ),
                };
                entry.push(second.len() as u32);
                entry.extend(second);
                entry.extend(signature.into_iter().flat_map(|flat| list(Some(flat))));
                entry
            }
            _ => {
                let Some(borrow) = original.contains_borrow(&types, &[]) else {
                    return;
                };
                let mut entry = listed(&[]);
                entry.push(u32::from(borrow));
                entry
            }
        };
        self.push(kind, entry);
    }

    fn push(&mut self, kind: u32, entry: Vec<u32>) {
        self.words.extend([kind, entry.len() as u32]);
        self.words.extend(entry);
    }

    fn kinds(&self) -> Vec<u32> {
        let mut kinds = Vec::new();
        let mut place = 0;
        while place < self.words.len() {
            kinds.push(self.words[place]);
            place += 2 + self.words[place + 1] as usize;
        }
        kinds
    }

    fn entries(&self) -> u32 {
        self.kinds().len() as u32
    }

    fn descriptions(&self) -> u32 {
        self.kinds().iter().filter(|kind| **kind == 1).count() as u32
    }
}

fn side(memory: u32, asynchronous: u32) -> Side {
    Side {
        memory64: memory == 1,
        asynchronous: asynchronous == 1,
    }
}

/// Good references, and the original's types of them.
fn references(
    original: &mut Original,
    n: u32,
    count: u64,
    random: &mut Random,
) -> (Vec<u32>, Vec<InterfaceType>) {
    let words: Vec<u32> = (0..count)
        .map(|_| generate::reference(random, u64::from(n)))
        .collect();
    let types = words
        .iter()
        .map(|word| original.reference(*word).expect("a good reference"));
    let types = types.collect();
    (words, types)
}

fn list(flat: Option<Flat>) -> [u32; 3] {
    match flat {
        Some(flat) => [flat.count, flat.packed as u32, (flat.packed >> 32) as u32],
        None => [u32::MAX, 0, 0],
    }
}
