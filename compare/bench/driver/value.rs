//! The values of the crate's maps, and what both families of maps need.

#[cfg(maps)]
use slotmap::{DefaultKey, Key};

/// A number of 64 bits. Each operation has a type of its own, `AT`, so the crate's code is compiled for it alone, and
/// the compiler may inline each call as in a program that makes it once.
#[derive(Clone, Copy, PartialEq)]
pub struct Value<const AT: u32>(pub u64);

impl<const AT: u32> Value<AT> {
    pub fn bump(&mut self) -> u64 {
        self.0 = self.0.wrapping_add(1);
        self.0
    }
}

#[cfg(maps)]
pub fn number(key: DefaultKey) -> u64 {
    key.data().as_ffi()
}

/// A sum that wraps around.
#[derive(Default)]
pub struct Sum(pub u64);

impl Sum {
    pub fn add(&mut self, number: u64) {
        self.0 = self.0.wrapping_add(number);
    }
}
