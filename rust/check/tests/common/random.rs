//! Random numbers that are the same in each run.

/// A generator of random numbers: SplitMix64.
pub struct Random(u64);

impl Random {
    pub fn new(seed: u64) -> Random {
        Random(seed)
    }

    pub fn draw(&mut self) -> u64 {
        self.0 = self.0.wrapping_add(0x9E37_79B9_7F4A_7C15);
        let mut mixed = self.0;
        mixed = (mixed ^ (mixed >> 30)).wrapping_mul(0xBF58_476D_1CE4_E5B9);
        mixed = (mixed ^ (mixed >> 27)).wrapping_mul(0x94D0_49BB_1331_11EB);
        mixed ^ (mixed >> 31)
    }

    /// A number below the bound.
    pub fn below(&mut self, bound: usize) -> usize {
        (self.draw() % bound as u64) as usize
    }

    /// Whether one of so many cases is there.
    pub fn one_of(&mut self, cases: usize) -> bool {
        self.below(cases) == 0
    }

    /// One of the items. There must be one.
    pub fn pick<'a, T>(&mut self, items: &'a [T]) -> &'a T {
        &items[self.below(items.len())]
    }

    /// Some of the items in random order, perhaps one of them twice.
    pub fn some<T: Copy>(&mut self, items: &[T], most: usize) -> Vec<T> {
        if items.is_empty() {
            return Vec::new();
        }
        let count = self.below(most + 1);
        (0..count).map(|_| *self.pick(items)).collect()
    }
}
