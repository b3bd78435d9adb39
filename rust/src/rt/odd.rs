//! An odd number, which is never 0: so an option of a key takes no more bytes than a key.

use ::core::num::NonZeroU32;

/// The version of a key. In Rattle it is a plain `u32`, which the contracts of `KeyData` say is odd.
#[derive(Clone, Copy, PartialEq, Eq, PartialOrd, Ord)]
pub struct Odd(NonZeroU32);

impl Odd {
    /// The odd number. For an even one, which no caller passes, the next one.
    #[inline(always)]
    pub fn new(version: u32) -> Self {
        match NonZeroU32::new(version | 1) {
            Some(version) => Odd(version),
            // The lowest bit is set, so the compiler leaves this out.
            None => unreachable!(),
        }
    }

    /// The number.
    #[inline(always)]
    pub fn get(self) -> u32 {
        self.0.get()
    }
}
