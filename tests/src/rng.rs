//! SplitMix64, so that the same seed gives the same cases everywhere.

pub struct Rng(u64);

impl Rng {
    pub fn new(seed: u64) -> Rng {
        Rng(seed)
    }

    pub fn next(&mut self) -> u64 {
        self.0 = self.0.wrapping_add(0x9E37_79B9_7F4A_7C15);
        let mut z = self.0;
        z = (z ^ (z >> 30)).wrapping_mul(0xBF58_476D_1CE4_E5B9);
        z = (z ^ (z >> 27)).wrapping_mul(0x94D0_49BB_1331_11EB);
        z ^ (z >> 31)
    }

    /// A number below n, or 0 where n is 0.
    pub fn below(&mut self, n: usize) -> usize {
        ((self.next() as u128 * n as u128) >> 64) as usize
    }

    /// A number from a to b.
    pub fn within(&mut self, a: usize, b: usize) -> usize {
        a + self.below(b + 1 - a)
    }

    /// True in so many of a hundred.
    pub fn chance(&mut self, percent: usize) -> bool {
        self.below(100) < percent
    }

    pub fn pick<T: Copy>(&mut self, from: &[T]) -> T {
        from[self.below(from.len())]
    }

    pub fn byte(&mut self) -> u8 {
        self.below(256) as u8
    }

    pub fn shuffle<T>(&mut self, items: &mut [T]) {
        for i in (1..items.len()).rev() {
            items.swap(i, self.below(i + 1));
        }
    }
}

/// How many cases a test runs: its default times the variable BUDGIELEAF_CASES, which is 1 where it is not set.
pub fn cases(default: usize) -> usize {
    let times = match std::env::var("BUDGIELEAF_CASES") {
        Ok(text) => text.parse().expect("BUDGIELEAF_CASES is a number of times"),
        Err(_) => 1,
    };
    default * times
}
