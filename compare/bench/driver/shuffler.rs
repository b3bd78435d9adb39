//! An order by chance that is the same on both sides.

/// Marsaglia's xorshift64.
pub struct Shuffler {
    state: u64,
}

impl Shuffler {
    pub fn new() -> Shuffler {
        Shuffler { state: 88172645463325252 }
    }

    pub fn next(&mut self) -> u64 {
        self.state ^= self.state << 13;
        self.state ^= self.state >> 7;
        self.state ^= self.state << 17;
        self.state
    }

    /// A number below a length, or 0.
    pub fn below(&mut self, len: usize) -> usize {
        let high = self.next() >> 32;
        let at = (high.wrapping_mul(len as u64) >> 32) as usize;
        if at < len { at } else { 0 }
    }

    pub fn shuffle<T>(&mut self, items: &mut [T]) {
        for left in (1..items.len()).rev() {
            let i = (self.next() % (left as u64 + 1)) as usize;
            items.swap(i, left);
        }
    }
}
