//! Numbers that look random, the same as in the model.

/// Numbers that look random: those of a linear congruence.
pub struct Random {
    state: u64,
}

impl Random {
    /// The numbers of a seed.
    pub fn new(seed: u64) -> Random {
        Random { state: seed }
    }

    /// The next number, below 2^31.
    pub fn draw(&mut self) -> u64 {
        self.state = self.state.wrapping_mul(6364136223846793005).wrapping_add(1442695040888963407);
        self.state >> 33
    }

    /// One of these items. There must be one.
    pub fn pick<T: Copy>(&mut self, items: &[T]) -> T {
        items[self.draw() as usize % items.len()]
    }
}
