//! The calls of slotmap.h: keys and values are `u64`.
//!
//! What the calls do is proved; this module, which declares them, isn't. The proof presumes that one call at a time uses a handle, so all
//! borrow mutably.

use std::error::Error;
use std::fmt;

pub(crate) mod ffi {
    use std::ffi::c_void;

    #[repr(C)]
    #[derive(Debug)]
    pub struct Handle {
        at: *mut c_void,
    }

    impl Handle {
        pub const CLOSED: Handle = Handle { at: std::ptr::null_mut() };
    }

    // The handles of a map, of a side table and of a map of keys are alike.
    #[allow(dead_code)]
    extern "C" {
        pub fn slotmap_side_new(side: &mut Handle) -> u32;
        pub fn slotmap_side_free(side: &mut Handle);
        pub fn slotmap_side_clone(side: &mut Handle, copy: &mut Handle) -> u32;
        pub fn slotmap_side_len(side: &mut Handle) -> usize;
        pub fn slotmap_side_capacity(side: &mut Handle) -> usize;
        pub fn slotmap_side_reserve(side: &mut Handle, capacity: usize) -> u32;
        pub fn slotmap_side_clear(side: &mut Handle);
        pub fn slotmap_side_put(side: &mut Handle, key: u64, value: u64) -> u32;
        pub fn slotmap_side_exchange(side: &mut Handle, key: u64, value: u64, stood: &mut u64, old: &mut u64) -> u32;
        pub fn slotmap_side_contains(side: &mut Handle, key: u64) -> bool;
        pub fn slotmap_side_get(side: &mut Handle, key: u64, value: &mut u64) -> u32;
        pub fn slotmap_side_remove(side: &mut Handle, key: u64, value: &mut u64) -> u32;
        pub fn slotmap_side_list(side: &mut Handle, keys: *mut u64, keys_len: usize, values: *mut u64, values_len: usize) -> usize;

        pub fn slotmap_keys_open(map: &mut Handle) -> u32;
        pub fn slotmap_keys_free(map: &mut Handle);
        pub fn slotmap_keys_clone(map: &mut Handle, copy: &mut Handle) -> u32;
        pub fn slotmap_keys_len(map: &mut Handle) -> usize;
        pub fn slotmap_keys_capacity(map: &mut Handle) -> usize;
        pub fn slotmap_keys_reserve(map: &mut Handle, additional: usize) -> u32;
        pub fn slotmap_keys_clear(map: &mut Handle);
        pub fn slotmap_keys_insert(map: &mut Handle, key: &mut u64) -> u32;
        pub fn slotmap_keys_contains(map: &mut Handle, key: u64) -> bool;
        pub fn slotmap_keys_remove(map: &mut Handle, key: u64) -> u32;
        pub fn slotmap_keys_detach(map: &mut Handle, key: u64) -> u32;
        pub fn slotmap_keys_reattach(map: &mut Handle, key: u64) -> u32;
        pub fn slotmap_keys_next(map: &mut Handle, key: u64, next: &mut u64) -> u32;
        pub fn slotmap_keys_list_after(map: &mut Handle, key: u64, keys: *mut u64, keys_len: usize) -> usize;

        pub fn slotmap_new(map: &mut Handle) -> u32;
        pub fn slotmap_free(map: &mut Handle);
        pub fn slotmap_clone(map: &mut Handle, copy: &mut Handle) -> u32;
        pub fn slotmap_len(map: &mut Handle) -> usize;
        pub fn slotmap_capacity(map: &mut Handle) -> usize;
        pub fn slotmap_reserve(map: &mut Handle, additional: usize) -> u32;
        pub fn slotmap_clear(map: &mut Handle);
        pub fn slotmap_insert(map: &mut Handle, value: u64, key: &mut u64) -> u32;
        pub fn slotmap_contains(map: &mut Handle, key: u64) -> bool;
        pub fn slotmap_get(map: &mut Handle, key: u64, value: &mut u64) -> u32;
        pub fn slotmap_set(map: &mut Handle, key: u64, value: u64, old: &mut u64) -> u32;
        pub fn slotmap_remove(map: &mut Handle, key: u64, value: &mut u64) -> u32;
        pub fn slotmap_delete(map: &mut Handle, key: u64) -> u32;
        pub fn slotmap_detach(map: &mut Handle, key: u64, value: &mut u64) -> u32;
        pub fn slotmap_reattach(map: &mut Handle, key: u64, value: u64) -> u32;
        pub fn slotmap_next(map: &mut Handle, key: u64, next: &mut u64, value: &mut u64) -> u32;
        pub fn slotmap_list(map: &mut Handle, keys: *mut u64, keys_len: usize, values: *mut u64, values_len: usize) -> usize;
        pub fn slotmap_list_after(map: &mut Handle, key: u64, keys: *mut u64, keys_len: usize, values: *mut u64, values_len: usize)
        -> usize;
    }
}

/// A status other than `SLOTMAP_OK`, by its number in slotmap.h.
#[derive(Clone, Copy, PartialEq, Eq, Hash)]
pub struct Status(pub u32);

#[allow(dead_code)]
impl Status {
    /// So many keys are over the limit of 4294967294.
    pub const FULL: Status = Status(1);
    /// Memory ran out.
    pub const NO_MEMORY: Status = Status(2);
    /// The handle is closed.
    pub const CLOSED: Status = Status(3);
    /// The handle is open already.
    pub const OPEN: Status = Status(4);
    /// The key isn't live, or isn't in the side table.
    pub const NOT_LIVE: Status = Status(5);
    /// The key isn't detached.
    pub const NOT_DETACHED: Status = Status(6);
    /// No live key comes later.
    pub const NO_MORE: Status = Status(7);
    /// The key is null, or older than the one at its index of a side table.
    pub const NO_ENTRY: Status = Status(8);
}

impl fmt::Display for Status {
    fn fmt(&self, f: &mut fmt::Formatter<'_>) -> fmt::Result {
        f.write_str(match *self {
            Status::FULL => "over the limit of 4294967294 keys",
            Status::NO_MEMORY => "out of memory",
            Status::CLOSED => "the handle is closed",
            Status::OPEN => "the handle is open already",
            Status::NOT_LIVE => "the key isn't live",
            Status::NOT_DETACHED => "the key isn't detached",
            Status::NO_MORE => "no live key comes later",
            Status::NO_ENTRY => "the key is null, or older than the one at its index",
            Status(_) => "no status of slotmap.h",
        })
    }
}

/// Prints the number with its meaning: who unwraps an error reads that.
impl fmt::Debug for Status {
    fn fmt(&self, f: &mut fmt::Formatter<'_>) -> fmt::Result {
        write!(f, "Status({}: {self})", self.0)
    }
}

impl Error for Status {}

#[inline]
pub(crate) fn checked(status: u32) -> Result<(), Status> {
    if status == 0 { Ok(()) } else { Err(Status(status)) }
}

/// A map from keys to numbers. Each call borrows it mutably, so threads share it by a `Mutex`.
#[derive(Debug)]
pub struct SlotMap(ffi::Handle);

// SAFETY: it is proved that the handle may go to another thread.
unsafe impl Send for SlotMap {}

#[allow(dead_code)]
impl SlotMap {
    /// Makes an empty map.
    #[inline]
    pub fn new() -> Result<SlotMap, Status> {
        let mut map = SlotMap(ffi::Handle::CLOSED);
        // SAFETY: the handle is closed, and nothing else writes to it.
        checked(unsafe { ffi::slotmap_new(&mut map.0) })?;
        Ok(map)
    }

    /// Makes a copy, which has the same keys and values and will return the same new keys.
    #[inline]
    pub fn try_clone(&mut self) -> Result<SlotMap, Status> {
        let mut copy = SlotMap(ffi::Handle::CLOSED);
        // SAFETY: the two handles are different, and nothing else writes to them.
        checked(unsafe { ffi::slotmap_clone(&mut self.0, &mut copy.0) })?;
        Ok(copy)
    }

    /// Returns the number of live keys.
    #[inline]
    pub fn len(&mut self) -> usize {
        // SAFETY: nothing else writes to the handle.
        unsafe { ffi::slotmap_len(&mut self.0) }
    }

    /// Returns whether no key is live.
    #[inline]
    pub fn is_empty(&mut self) -> bool {
        self.len() == 0
    }

    /// Returns the number of slots for which memory is allocated. No key's index is greater.
    #[inline]
    pub fn capacity(&mut self) -> usize {
        // SAFETY: nothing else writes to the handle.
        unsafe { ffi::slotmap_capacity(&mut self.0) }
    }

    /// Makes room for so many more keys.
    #[inline]
    pub fn reserve(&mut self, additional: usize) -> Result<(), Status> {
        // SAFETY: nothing else writes to the handle.
        checked(unsafe { ffi::slotmap_reserve(&mut self.0, additional) })
    }

    /// Removes every live key.
    #[inline]
    pub fn clear(&mut self) {
        // SAFETY: nothing else writes to the handle.
        unsafe { ffi::slotmap_clear(&mut self.0) }
    }

    /// Inserts a value, and returns its new key.
    #[inline]
    pub fn insert(&mut self, value: u64) -> Result<u64, Status> {
        let mut key = 0;
        // SAFETY: nothing else writes to the handle.
        checked(unsafe { ffi::slotmap_insert(&mut self.0, value, &mut key) })?;
        Ok(key)
    }

    /// Returns whether a key is live.
    #[inline]
    pub fn contains(&mut self, key: u64) -> bool {
        // SAFETY: nothing else writes to the handle.
        unsafe { ffi::slotmap_contains(&mut self.0, key) }
    }

    /// Returns the value of a live key.
    #[inline]
    pub fn get(&mut self, key: u64) -> Option<u64> {
        let mut value = 0;
        // SAFETY: nothing else writes to the handle.
        checked(unsafe { ffi::slotmap_get(&mut self.0, key, &mut value) }).ok()?;
        Some(value)
    }

    /// Sets the value of a live key, and returns the value that it had.
    #[inline]
    pub fn set(&mut self, key: u64, value: u64) -> Option<u64> {
        let mut old = 0;
        // SAFETY: nothing else writes to the handle.
        checked(unsafe { ffi::slotmap_set(&mut self.0, key, value, &mut old) }).ok()?;
        Some(old)
    }

    /// Removes a live key, and returns its value.
    #[inline]
    pub fn remove(&mut self, key: u64) -> Option<u64> {
        let mut value = 0;
        // SAFETY: nothing else writes to the handle.
        checked(unsafe { ffi::slotmap_remove(&mut self.0, key, &mut value) }).ok()?;
        Some(value)
    }

    /// Removes a live key, and returns whether it was live.
    #[inline]
    pub fn delete(&mut self, key: u64) -> bool {
        // SAFETY: nothing else writes to the handle.
        unsafe { ffi::slotmap_delete(&mut self.0, key) == 0 }
    }

    /// Takes the value of a live key out, and keeps the slot for the key.
    #[inline]
    pub fn detach(&mut self, key: u64) -> Option<u64> {
        let mut value = 0;
        // SAFETY: nothing else writes to the handle.
        checked(unsafe { ffi::slotmap_detach(&mut self.0, key, &mut value) }).ok()?;
        Some(value)
    }

    /// Binds a detached key to a value again.
    #[inline]
    pub fn reattach(&mut self, key: u64, value: u64) -> Result<(), Status> {
        // SAFETY: nothing else writes to the handle.
        checked(unsafe { ffi::slotmap_reattach(&mut self.0, key, value) })
    }

    /// Returns the live key with the least index above that of `key`, with its value; 0 begins.
    #[inline]
    pub fn next_after(&mut self, key: u64) -> Option<(u64, u64)> {
        let (mut next, mut value) = (0, 0);
        // SAFETY: nothing else writes to the handle.
        checked(unsafe { ffi::slotmap_next(&mut self.0, key, &mut next, &mut value) }).ok()?;
        Some((next, value))
    }

    /// Writes the first live keys and their values, as far as both slices go. Returns how many it wrote.
    #[inline]
    pub fn list(&mut self, keys: &mut [u64], values: &mut [u64]) -> usize {
        let (keys_len, values_len) = (keys.len(), values.len());
        // SAFETY: each slice has as many elements as its length says, and nothing else writes to the handle.
        unsafe { ffi::slotmap_list(&mut self.0, keys.as_mut_ptr(), keys_len, values.as_mut_ptr(), values_len) }
    }

    /// The same of the live keys whose index is above that of `key`.
    #[inline]
    pub fn list_after(&mut self, key: u64, keys: &mut [u64], values: &mut [u64]) -> usize {
        let (keys_len, values_len) = (keys.len(), values.len());
        // SAFETY: each slice has as many elements as its length says, and nothing else writes to the handle.
        unsafe { ffi::slotmap_list_after(&mut self.0, key, keys.as_mut_ptr(), keys_len, values.as_mut_ptr(), values_len) }
    }
}

impl Drop for SlotMap {
    fn drop(&mut self) {
        // SAFETY: nobody uses the handle afterwards.
        unsafe { ffi::slotmap_free(&mut self.0) }
    }
}

/// A side table: numbers under the keys of a map.
#[derive(Debug)]
pub struct Side(ffi::Handle);

// SAFETY: it is proved that the handle may go to another thread.
unsafe impl Send for Side {}

#[allow(dead_code)]
impl Side {
    /// A table without memory, which reads as an empty one. A put returns `Status::CLOSED` until it is opened.
    pub(crate) const CLOSED: Side = Side(ffi::Handle::CLOSED);

    // Opens a closed table. An open one stays as it is.
    #[cold]
    pub(crate) fn open(&mut self) -> Result<(), Status> {
        // SAFETY: nothing else writes to the handle.
        match checked(unsafe { ffi::slotmap_side_new(&mut self.0) }) {
            Err(Status::OPEN) => Ok(()),
            result => result,
        }
    }

    /// Makes an empty table.
    #[inline]
    pub fn new() -> Result<Side, Status> {
        let mut side = Side::CLOSED;
        side.open()?;
        Ok(side)
    }

    /// Makes a copy.
    #[inline]
    pub fn try_clone(&mut self) -> Result<Side, Status> {
        let mut copy = Side(ffi::Handle::CLOSED);
        // SAFETY: the two handles are different, and nothing else writes to them.
        checked(unsafe { ffi::slotmap_side_clone(&mut self.0, &mut copy.0) })?;
        Ok(copy)
    }

    /// Returns the number of keys.
    #[inline]
    pub fn len(&mut self) -> usize {
        // SAFETY: nothing else writes to the handle.
        unsafe { ffi::slotmap_side_len(&mut self.0) }
    }

    /// Returns whether there is no key.
    #[inline]
    pub fn is_empty(&mut self) -> bool {
        self.len() == 0
    }

    /// Returns the largest index for which memory is allocated.
    #[inline]
    pub fn capacity(&mut self) -> usize {
        // SAFETY: nothing else writes to the handle.
        unsafe { ffi::slotmap_side_capacity(&mut self.0) }
    }

    /// Allocates memory for each index up to `capacity`.
    #[inline]
    pub fn reserve(&mut self, capacity: usize) -> Result<(), Status> {
        // SAFETY: nothing else writes to the handle.
        checked(unsafe { ffi::slotmap_side_reserve(&mut self.0, capacity) })
    }

    /// Removes all keys.
    #[inline]
    pub fn clear(&mut self) {
        // SAFETY: nothing else writes to the handle.
        unsafe { ffi::slotmap_side_clear(&mut self.0) }
    }

    /// Puts a value under a key, in place of that of this key or of an older one at its index.
    #[inline]
    pub fn put(&mut self, key: u64, value: u64) -> Result<(), Status> {
        // SAFETY: nothing else writes to the handle.
        checked(unsafe { ffi::slotmap_side_put(&mut self.0, key, value) })
    }

    /// The same, and returns the key that stood at this index, with its value.
    #[inline]
    pub fn exchange(&mut self, key: u64, value: u64) -> Result<Option<(u64, u64)>, Status> {
        let (mut stood, mut old) = (0, 0);
        // SAFETY: nothing else writes to the handle.
        checked(unsafe { ffi::slotmap_side_exchange(&mut self.0, key, value, &mut stood, &mut old) })?;
        Ok(if stood == 0 { None } else { Some((stood, old)) })
    }

    /// Returns whether a key has a value.
    #[inline]
    pub fn contains(&mut self, key: u64) -> bool {
        // SAFETY: nothing else writes to the handle.
        unsafe { ffi::slotmap_side_contains(&mut self.0, key) }
    }

    /// Returns the value of a key.
    #[inline]
    pub fn get(&mut self, key: u64) -> Option<u64> {
        let mut value = 0;
        // SAFETY: nothing else writes to the handle.
        checked(unsafe { ffi::slotmap_side_get(&mut self.0, key, &mut value) }).ok()?;
        Some(value)
    }

    /// Removes a key, and returns its value.
    #[inline]
    pub fn remove(&mut self, key: u64) -> Option<u64> {
        let mut value = 0;
        // SAFETY: nothing else writes to the handle.
        checked(unsafe { ffi::slotmap_side_remove(&mut self.0, key, &mut value) }).ok()?;
        Some(value)
    }

    /// Writes the keys and their values, by ascending index, as far as both slices go. Returns how many it wrote.
    #[inline]
    pub fn list(&mut self, keys: &mut [u64], values: &mut [u64]) -> usize {
        let (keys_len, values_len) = (keys.len(), values.len());
        // SAFETY: each slice has as many elements as its length says, and nothing else writes to the handle.
        unsafe { ffi::slotmap_side_list(&mut self.0, keys.as_mut_ptr(), keys_len, values.as_mut_ptr(), values_len) }
    }
}

impl Drop for Side {
    fn drop(&mut self) {
        // SAFETY: nobody uses the handle afterwards.
        unsafe { ffi::slotmap_side_free(&mut self.0) }
    }
}
