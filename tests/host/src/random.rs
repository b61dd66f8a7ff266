//! Repeatable random numbers (splitmix64): a seed gives the same run on every machine.

pub struct Random(u64);

impl Random {
    pub fn new(seed: u64) -> Random {
        Random(seed)
    }

    pub fn next(&mut self) -> u64 {
        self.0 = self.0.wrapping_add(0x9E37_79B9_7F4A_7C15);
        let mut z = self.0;
        z = (z ^ z >> 30).wrapping_mul(0xBF58_476D_1CE4_E5B9);
        z = (z ^ z >> 27).wrapping_mul(0x94D0_49BB_1331_11EB);
        z ^ z >> 31
    }

    pub fn word(&mut self) -> u32 {
        self.next() as u32
    }

    /// A number below `bound`, which is not 0.
    pub fn below(&mut self, bound: u64) -> u64 {
        self.next() % bound
    }

    pub fn between(&mut self, low: u64, high: u64) -> u64 {
        low + self.below(high - low + 1)
    }

    /// True once in `times`.
    pub fn once_in(&mut self, times: u64) -> bool {
        self.below(times) == 0
    }

    pub fn pick<T: Copy>(&mut self, from: &[T]) -> T {
        from[self.below(from.len() as u64) as usize]
    }

    /// One of the boundary's two meanings of a number: 0, or any other.
    pub fn choice(&mut self) -> u32 {
        self.pick(&[0, 0, 0, 1, 1, 2, 64, u32::MAX])
    }

    /// A number with the second of these meanings.
    pub fn yes(&mut self) -> u32 {
        self.pick(&[1, 1, 2, 64, u32::MAX])
    }

    /// A k that chooses the results of a signature: 1, or a number above it.
    pub fn of_results(&mut self) -> u32 {
        self.pick(&[1, 1, 1, 2, u32::MAX])
    }
}
