//! The calls of a map: those of `SlotMap<DefaultKey, u64>`.

use crate::handle::Handle;
use crate::status::{inserted, reserved, CLOSED, NOT_DETACHED, NO_MORE, OK};
use crate::{array, found, key, list, number, start};
use slotmap_proved::fallible::SlotMap;
use slotmap_proved::{DefaultKey, Global};

type Map = SlotMap<DefaultKey, u64>;

/// Opens a closed handle with an empty map.
#[no_mangle]
pub extern "C" fn slotmap_new(this: &mut Handle<Map>) -> u32 {
    this.open(|| Map::new(Global))
}

/// Frees the map and closes the handle.
#[no_mangle]
pub extern "C" fn slotmap_free(this: &mut Handle<Map>) {
    this.free();
}

/// Opens a closed handle with a copy of the map of another.
#[no_mangle]
pub extern "C" fn slotmap_clone(this: &Handle<Map>, copy: &mut Handle<Map>) -> u32 {
    this.open_copy(copy, Map::clone)
}

/// Returns the number of live keys.
#[no_mangle]
pub extern "C" fn slotmap_len(this: &Handle<Map>) -> usize {
    this.inside().map_or(0, Map::len)
}

/// Returns the number of slots for which memory is allocated.
#[no_mangle]
pub extern "C" fn slotmap_capacity(this: &Handle<Map>) -> usize {
    this.inside().map_or(0, Map::capacity)
}

/// Reserves room for `additional` more keys.
#[no_mangle]
pub extern "C" fn slotmap_reserve(this: &mut Handle<Map>, additional: usize) -> u32 {
    this.inside_mut().map_or(CLOSED, |map| reserved(map.reserve(additional)))
}

/// Removes every live key.
#[no_mangle]
pub extern "C" fn slotmap_clear(this: &mut Handle<Map>) {
    if let Some(map) = this.inside_mut() {
        map.clear();
    }
}

/// Inserts a value, and writes its new key.
#[no_mangle]
pub extern "C" fn slotmap_insert(this: &mut Handle<Map>, value: u64, key_out: &mut u64) -> u32 {
    this.inside_mut().map_or(CLOSED, |map| inserted(map.insert(value), key_out))
}

/// Returns whether a key is live.
#[no_mangle]
pub extern "C" fn slotmap_contains(this: &Handle<Map>, number: u64) -> bool {
    this.inside().map_or(false, |map| map.contains_key(key(number)))
}

/// Writes the value of a live key.
#[no_mangle]
pub extern "C" fn slotmap_get(this: &Handle<Map>, number: u64, value_out: &mut u64) -> u32 {
    found(this.inside().and_then(|map| map.get(key(number)).copied()), value_out)
}

/// Sets the value of a live key, and writes the value that it had.
#[no_mangle]
pub extern "C" fn slotmap_set(this: &mut Handle<Map>, number: u64, value: u64, old_out: &mut u64) -> u32 {
    found(this.inside_mut().and_then(|map| map.replace(key(number), value).ok()), old_out)
}

/// Removes a live key, and writes its value.
#[no_mangle]
pub extern "C" fn slotmap_remove(this: &mut Handle<Map>, number: u64, value_out: &mut u64) -> u32 {
    found(this.inside_mut().and_then(|map| map.remove(key(number))), value_out)
}

/// Removes a live key, and drops its value.
#[no_mangle]
pub extern "C" fn slotmap_delete(this: &mut Handle<Map>, number: u64) -> u32 {
    slotmap_remove(this, number, &mut 0)
}

/// Takes out the value of a live key, whose slot is kept, and writes it.
#[no_mangle]
pub extern "C" fn slotmap_detach(this: &mut Handle<Map>, number: u64, value_out: &mut u64) -> u32 {
    found(this.inside_mut().and_then(|map| map.detach(key(number))), value_out)
}

/// Binds a detached key to a value again.
#[no_mangle]
pub extern "C" fn slotmap_reattach(this: &mut Handle<Map>, number: u64, value: u64) -> u32 {
    match this.inside_mut().map(|map| map.reattach(key(number), value)) {
        Some(Ok(())) => OK,
        _ => NOT_DETACHED,
    }
}

/// Writes the live key with the least index above that of a key, and its value.
#[no_mangle]
pub extern "C" fn slotmap_next(this: &Handle<Map>, after: u64, key_out: &mut u64, value_out: &mut u64) -> u32 {
    match this.inside().and_then(|map| map.next_after(Some(start(after)))) {
        Some((next, value)) => {
            *key_out = number(next);
            *value_out = *value;
            OK
        }
        None => NO_MORE,
    }
}

/// Writes the first live keys and their values, and returns how many it wrote.
///
/// # Safety
///
/// The arrays are as slotmap.h asks.
#[no_mangle]
pub unsafe extern "C" fn slotmap_list(this: &Handle<Map>, keys: *mut u64, keys_len: usize, values: *mut u64, values_len: usize) -> usize {
    // SAFETY: of the arrays the caller owes this by slotmap.h.
    let (keys, values) = unsafe { (array(keys, keys_len), array(values, values_len)) };
    let pairs = this.inside().into_iter().flat_map(|map| map.iter());
    list(pairs.map(|(key, value)| (number(key), *value)), keys, values)
}

/// Writes the live keys of an index above that of a key and their values, and returns how many it wrote.
///
/// # Safety
///
/// The arrays are as slotmap.h asks.
#[no_mangle]
pub unsafe extern "C" fn slotmap_list_after(
    this: &Handle<Map>,
    after: u64,
    keys: *mut u64,
    keys_len: usize,
    values: *mut u64,
    values_len: usize,
) -> usize {
    // SAFETY: of the arrays the caller owes this by slotmap.h.
    let (keys, values) = unsafe { (array(keys, keys_len), array(values, values_len)) };
    let mut last = start(after);
    let next = || {
        let (next, value) = this.inside()?.next_after(Some(last))?;
        last = next;
        Some((number(next), *value))
    };
    list(core::iter::from_fn(next), keys, values)
}
