//! The functions of `c/slotmap.h` over the crate slotmap-proved.
//!
//! Each call goes to a proved one. This layer isn't proved: it finds the map behind a handle, turns results into statuses, and fills
//! arrays. Which key is live, it decides nowhere. Its files are those of `crates/slotmap_c`, whose exports are proved.
//!
//! Parameters are references where slotmap.h has pointers. What the head of the header asks of its caller is what Rust asks of these:
//! none is null, none leads to a variable without a value, and no two overlap. A handle that is `const` there is shared here.
#![cfg_attr(not(feature = "std"), no_std)]
#![deny(unsafe_op_in_unsafe_fn)]
#![warn(missing_docs, clippy::undocumented_unsafe_blocks)]

extern crate alloc;

mod handle;
mod keys;
mod map;
mod side;
mod status;
#[cfg(not(feature = "std"))]
mod without_std;

use slotmap_proved::{DefaultKey, Key, KeyData};

/// Returns the number that slotmap.h names `SLOTMAP_VERSION_NUMBER`.
#[no_mangle]
pub extern "C" fn slotmap_version_number() -> u32 {
    700
}

/// Returns the key that a number stands for.
fn key(number: u64) -> DefaultKey {
    DefaultKey::from(KeyData::from_ffi(number))
}

/// Returns the number of a key.
fn number(key: DefaultKey) -> u64 {
    key.data().as_ffi()
}

/// Returns the key after which a search goes on: that of the number, or one of the greatest index that a `usize` has room for. On 32 bits
/// `next_after` counts past the end from the last eight indices on. No map has a greater index there, so nothing comes after either key.
fn start(number: u64) -> DefaultKey {
    let index = (number as u32).min(isize::MAX as u32);
    key(number >> 32 << 32 | u64::from(index))
}

/// Writes a value that was found.
fn found(value: Option<u64>, out: &mut u64) -> u32 {
    match value {
        Some(value) => {
            *out = value;
            status::OK
        }
        None => status::NOT_LIVE,
    }
}

/// Writes keys and values as far as both arrays go, and returns how many it wrote.
fn list(pairs: impl Iterator<Item = (u64, u64)>, keys: &mut [u64], values: &mut [u64]) -> usize {
    let mut count = 0;
    for ((key_out, value_out), (key, value)) in keys.iter_mut().zip(values).zip(pairs) {
        *key_out = key;
        *value_out = value;
        count += 1;
    }
    count
}

/// Lends an array of C.
///
/// # Safety
///
/// As `slice::from_raw_parts_mut`: slotmap.h asks the same of an array and the number after it.
unsafe fn array<'a>(at: *mut u64, len: usize) -> &'a mut [u64] {
    // SAFETY: the caller keeps to what `from_raw_parts_mut` asks for.
    unsafe { core::slice::from_raw_parts_mut(at, len) }
}
