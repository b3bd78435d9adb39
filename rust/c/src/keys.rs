//! The calls of a map of keys alone: those of `SlotMap<DefaultKey, ()>`.

use crate::handle::Handle;
use crate::status::{inserted, reserved, CLOSED, NOT_DETACHED, NOT_LIVE, NO_MORE, OK};
use crate::{array, key, number, start};
use slotmap_proved::fallible::SlotMap;
use slotmap_proved::{DefaultKey, Global};

type Keys = SlotMap<DefaultKey, ()>;

/// Opens a closed handle with an empty map.
#[no_mangle]
pub extern "C" fn slotmap_keys_open(this: &mut Handle<Keys>) -> u32 {
    this.open(|| Keys::new(Global))
}

/// Frees the map and closes the handle.
#[no_mangle]
pub extern "C" fn slotmap_keys_free(this: &mut Handle<Keys>) {
    this.free();
}

/// Opens a closed handle with a copy of the map of another.
#[no_mangle]
pub extern "C" fn slotmap_keys_clone(this: &Handle<Keys>, copy: &mut Handle<Keys>) -> u32 {
    this.open_copy(copy, Keys::clone)
}

/// Returns the number of live keys.
#[no_mangle]
pub extern "C" fn slotmap_keys_len(this: &Handle<Keys>) -> usize {
    this.inside().map_or(0, Keys::len)
}

/// Returns the number of slots for which memory is allocated.
#[no_mangle]
pub extern "C" fn slotmap_keys_capacity(this: &Handle<Keys>) -> usize {
    this.inside().map_or(0, Keys::capacity)
}

/// Reserves room for `additional` more keys.
#[no_mangle]
pub extern "C" fn slotmap_keys_reserve(this: &mut Handle<Keys>, additional: usize) -> u32 {
    this.inside_mut().map_or(CLOSED, |map| reserved(map.reserve(additional)))
}

/// Removes every live key.
#[no_mangle]
pub extern "C" fn slotmap_keys_clear(this: &mut Handle<Keys>) {
    if let Some(map) = this.inside_mut() {
        map.clear();
    }
}

/// Inserts a new key, and writes it.
#[no_mangle]
pub extern "C" fn slotmap_keys_insert(this: &mut Handle<Keys>, key_out: &mut u64) -> u32 {
    this.inside_mut().map_or(CLOSED, |map| inserted(map.insert(()), key_out))
}

/// Returns whether a key is live.
#[no_mangle]
pub extern "C" fn slotmap_keys_contains(this: &Handle<Keys>, number: u64) -> bool {
    this.inside().map_or(false, |map| map.contains_key(key(number)))
}

/// Removes a live key.
#[no_mangle]
pub extern "C" fn slotmap_keys_remove(this: &mut Handle<Keys>, number: u64) -> u32 {
    match this.inside_mut().and_then(|map| map.remove(key(number))) {
        Some(()) => OK,
        None => NOT_LIVE,
    }
}

/// Detaches a live key, whose slot is kept.
#[no_mangle]
pub extern "C" fn slotmap_keys_detach(this: &mut Handle<Keys>, number: u64) -> u32 {
    match this.inside_mut().and_then(|map| map.detach(key(number))) {
        Some(()) => OK,
        None => NOT_LIVE,
    }
}

/// Makes a detached key live again.
#[no_mangle]
pub extern "C" fn slotmap_keys_reattach(this: &mut Handle<Keys>, number: u64) -> u32 {
    match this.inside_mut().map(|map| map.reattach(key(number), ())) {
        Some(Ok(())) => OK,
        _ => NOT_DETACHED,
    }
}

/// Writes the live key with the least index above that of a key.
#[no_mangle]
pub extern "C" fn slotmap_keys_next(this: &Handle<Keys>, after: u64, key_out: &mut u64) -> u32 {
    match this.inside().and_then(|map| map.next_after(Some(start(after)))) {
        Some((next, ())) => {
            *key_out = number(next);
            OK
        }
        None => NO_MORE,
    }
}

/// Writes the live keys of an index above that of a key, and returns how many it wrote.
///
/// # Safety
///
/// The array is as slotmap.h asks.
#[no_mangle]
pub unsafe extern "C" fn slotmap_keys_list_after(this: &Handle<Keys>, after: u64, keys: *mut u64, keys_len: usize) -> usize {
    // SAFETY: of the array the caller owes this by slotmap.h.
    let keys = unsafe { array(keys, keys_len) };
    let mut last = start(after);
    let mut count = 0;
    for key_out in keys {
        match this.inside().and_then(|map| map.next_after(Some(last))) {
            Some((next, ())) => last = next,
            None => break,
        }
        *key_out = number(last);
        count += 1;
    }
    count
}
