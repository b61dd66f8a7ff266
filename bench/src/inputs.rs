//! What is built: good descriptions of every kind, the same in every run.

/// Definitions of all ten kinds in turn, over scalars and the definitions shortly before.
pub fn mixed(definitions: u32) -> Vec<u32> {
    let mut words = Vec::new();
    for index in 0..definitions {
        // A definition shortly before; none of these grows without bound, since every tenth starts
        // anew and lists and maps are pointers.
        let near = match index % 10 {
            0 => 6,
            _ => 64 + index - 1,
        };
        match index % 10 {
            0 => words.extend([1, 4, 2, 8, 12, 6]),
            1 => words.extend([2, 3, near, u32::MAX, 10]),
            2 => words.extend([3, near]),
            3 => words.extend([4, 3, near, 9, 14]),
            4 => words.extend([5, 12, near]),
            5 => words.extend([6, 1 + index % 32]),
            6 => words.extend([7, 2 + index % 200]),
            7 => words.extend([8, near]),
            8 => words.extend([9, near, 12]),
            _ => words.extend([10, near, 3]),
        }
    }
    words
}

/// Definitions of random kinds over random scalars and the definitions shortly before, another description for each
/// seed: a processor that has met one does not know the next by heart.
pub fn random(definitions: u32, seed: u64) -> Vec<u32> {
    let mut random = Random(0x9E37_79B9_7F4A_7C15 ^ seed);
    let mut words = Vec::new();
    for index in 0..definitions {
        let kind = 1 + random.below(10);
        words.push(kind);
        match kind {
            // Scalars alone, so that no size grows without bound.
            1 | 4 => {
                let members = random.below(6);
                words.push(members);
                words.extend((0..members).map(|_| random.below(18)));
            }
            2 => {
                let cases = 1 + random.below(5);
                words.push(cases);
                words.extend((0..cases).map(|_| match random.below(3) {
                    0 => u32::MAX,
                    _ => random.reference(index),
                }));
            }
            3 | 8 => words.push(random.reference(index)),
            5 | 9 => words.extend([random.reference(index), random.reference(index)]),
            6 => words.push(random.below(33)),
            7 => words.push(1 + random.below(300)),
            _ => {
                let count = random.below(4);
                words.extend([random.below(18), count]);
            }
        }
    }
    words
}

/// Repeatable random numbers (xorshift).
struct Random(u64);

impl Random {
    fn below(&mut self, bound: u32) -> u32 {
        self.0 ^= self.0 << 13;
        self.0 ^= self.0 >> 7;
        self.0 ^= self.0 << 17;
        ((self.0 >> 20) % u64::from(bound)) as u32
    }

    /// A scalar, or one of the eight definitions before this one.
    fn reference(&mut self, index: u32) -> u32 {
        if index > 0 && self.below(2) == 0 {
            64 + index - 1 - self.below(8).min(index - 1)
        } else {
            self.below(18)
        }
    }
}

/// Records of fourteen scalars, no two alike: the original looks a record that it has seen before up.
pub fn records(definitions: u32) -> Vec<u32> {
    let mut words = Vec::new();
    for index in 0..definitions {
        words.extend([1, 14, index % 18, index / 18 % 18, index / 324]);
        words.extend((3..14).map(|member| (index + 5 * member) % 18));
    }
    words
}

/// References to place or flatten: scalars and definitions in turn.
pub fn references(many: usize, definitions: u32) -> Vec<u32> {
    let of = |place: usize| match place % 3 {
        0 => (place % 18) as u32,
        _ => 64 + (place as u32 * 7) % definitions,
    };
    (0..many).map(of).collect()
}

/// A list of U8, a record of four members and an option of that record; and eight references into its table.
pub const SMALL: [u32; 10] = [3, 2, 1, 4, 4, 4, 6, 64, 8, 65];
pub const SMALL_REFERENCES: [u32; 8] = [2, 6, 65, 66, 12, 2, 8, 64];

/// References into the mixed definitions that flatten to exactly sixteen types: two records, a list,
/// flags, an enum and a String.
pub fn flat_references() -> Vec<u32> {
    vec![64, 66, 69, 70, 74, 12]
}
