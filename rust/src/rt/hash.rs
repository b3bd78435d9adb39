//! Hashers of Rattle that are not Rust's.

pub use ::core::hash::{BuildHasher, Hash, Hasher};
use ::core::marker::PhantomData;

/// The hasher of a map that names no other. Its seed is fixed.
///
/// It doesn't return the numbers of Rattle's, so a map is walked in another order. No contract speaks of that order, nor of the
/// numbers: only that equal keys have equal ones. Each word is mixed in by a product whose halves are folded into one.
#[derive(Clone, Copy, Debug, Default)]
pub struct FoldHasher(u64);

impl Hasher for FoldHasher {
    fn finish(&self) -> u64 {
        self.0
    }

    fn write(&mut self, bytes: &[u8]) {
        for byte in bytes {
            self.write_u64(u64::from(*byte));
        }
    }

    #[inline(always)]
    fn write_u32(&mut self, value: u32) {
        self.write_u64(u64::from(value));
    }

    #[inline(always)]
    fn write_u64(&mut self, value: u64) {
        // A product of two numbers of 64 bits has 128.
        let wide = u128::from(self.0.rotate_left(5) ^ value) * 0x9E37_79B9_7F4A_7C15;
        self.0 = wide as u64 ^ (wide >> 64) as u64;
    }
}

/// Makes hashers of one type in their first state, as Rust's of this name. In Rattle it is `Copy` too, which Rust's isn't.
pub struct BuildHasherDefault<H>(PhantomData<fn() -> H>);

impl<H> BuildHasherDefault<H> {
    /// The one value of this type.
    pub const fn new() -> Self {
        BuildHasherDefault(PhantomData)
    }
}

impl<H> Clone for BuildHasherDefault<H> {
    fn clone(&self) -> Self {
        *self
    }
}

impl<H> Copy for BuildHasherDefault<H> {}

impl<H> Default for BuildHasherDefault<H> {
    fn default() -> Self {
        BuildHasherDefault::new()
    }
}

impl<H> ::core::fmt::Debug for BuildHasherDefault<H> {
    fn fmt(&self, f: &mut ::core::fmt::Formatter<'_>) -> ::core::fmt::Result {
        f.write_str("BuildHasherDefault")
    }
}

impl<H: Default + Hasher> BuildHasher for BuildHasherDefault<H> {
    type Hasher = H;

    #[inline(always)]
    fn build_hasher(&self) -> H {
        H::default()
    }
}
