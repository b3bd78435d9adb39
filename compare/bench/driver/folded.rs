//! A hasher like the port's default, for the Rust crate's sparse map: a folded product.

use std::hash::{BuildHasherDefault, Hasher};

#[derive(Default, Clone)]
pub struct Folded {
    state: u64,
}

pub type BuildFolded = BuildHasherDefault<Folded>;

impl Hasher for Folded {
    fn finish(&self) -> u64 {
        self.state
    }

    fn write(&mut self, bytes: &[u8]) {
        for byte in bytes {
            self.write_u64(u64::from(*byte));
        }
    }

    fn write_u32(&mut self, number: u32) {
        self.write_u64(u64::from(number));
    }

    fn write_u64(&mut self, number: u64) {
        let mixed = self.state ^ number ^ 0x243f_6a88_85a3_08d3;
        let product = u128::from(mixed) * u128::from(0x9e37_79b9_7f4a_7c15_u64);
        self.state = (product as u64) ^ ((product >> 64) as u64);
    }
}
