//! The calls of a side table: those of `SecondaryMap<DefaultKey, u64>`.

use crate::handle::Handle;
use crate::status::{reserved, CLOSED, NO_ENTRY, NO_MEMORY, OK};
use crate::{array, found, key, list, number};
use slotmap_proved::fallible::SecondaryMap;
use slotmap_proved::{DefaultKey, Global, Key};

type Side = SecondaryMap<DefaultKey, u64>;

/// Opens a closed handle with an empty table.
#[no_mangle]
pub extern "C" fn slotmap_side_new(this: &mut Handle<Side>) -> u32 {
    this.open(|| Side::new(Global))
}

/// Frees the table and closes the handle.
#[no_mangle]
pub extern "C" fn slotmap_side_free(this: &mut Handle<Side>) {
    this.free();
}

/// Opens a closed handle with a copy of the table of another.
#[no_mangle]
pub extern "C" fn slotmap_side_clone(this: &Handle<Side>, copy: &mut Handle<Side>) -> u32 {
    this.open_copy(copy, Side::clone)
}

/// Returns the number of keys.
#[no_mangle]
pub extern "C" fn slotmap_side_len(this: &Handle<Side>) -> usize {
    this.inside().map_or(0, Side::len)
}

/// Returns the largest index for which memory is allocated.
#[no_mangle]
pub extern "C" fn slotmap_side_capacity(this: &Handle<Side>) -> usize {
    this.inside().map_or(0, Side::capacity)
}

/// Allocates memory for each index up to `capacity`.
#[no_mangle]
pub extern "C" fn slotmap_side_reserve(this: &mut Handle<Side>, capacity: usize) -> u32 {
    this.inside_mut().map_or(CLOSED, |side| reserved(side.set_capacity(capacity)))
}

/// Removes all keys.
#[no_mangle]
pub extern "C" fn slotmap_side_clear(this: &mut Handle<Side>) {
    if let Some(side) = this.inside_mut() {
        side.clear();
    }
}

/// Puts a value under a key, unless the key has no entry.
fn put(side: &mut Side, key: DefaultKey, value: u64) -> u32 {
    match side.insert(key, value) {
        Ok(_) if side.contains_key(key) => OK,
        Ok(_) => NO_ENTRY,
        Err(_) => NO_MEMORY,
    }
}

/// Puts a value under a key, in place of the value of this key or of an older one at its index.
#[no_mangle]
pub extern "C" fn slotmap_side_put(this: &mut Handle<Side>, number: u64, value: u64) -> u32 {
    this.inside_mut().map_or(CLOSED, |side| put(side, key(number), value))
}

/// The same, and writes the key that stood at its index, with its value; or the key 0 if none stood there.
#[no_mangle]
pub extern "C" fn slotmap_side_exchange(this: &mut Handle<Side>, number_put: u64, value: u64, key_out: &mut u64, value_out: &mut u64) -> u32 {
    let Some(side) = this.inside_mut() else {
        return CLOSED;
    };
    let key = key(number_put);
    let stood = side.key_at(key.data().idx() as usize);
    let stood = stood.and_then(|key| Some((number(key), *side.get(key)?)));
    let status = put(side, key, value);
    if status == OK {
        match stood {
            Some((old, value)) => {
                *key_out = old;
                *value_out = value;
            }
            None => *key_out = 0,
        }
    }
    status
}

/// Returns whether a key has a value.
#[no_mangle]
pub extern "C" fn slotmap_side_contains(this: &Handle<Side>, number: u64) -> bool {
    this.inside().map_or(false, |side| side.contains_key(key(number)))
}

/// Writes the value of a key.
#[no_mangle]
pub extern "C" fn slotmap_side_get(this: &Handle<Side>, number: u64, value_out: &mut u64) -> u32 {
    found(this.inside().and_then(|side| side.get(key(number)).copied()), value_out)
}

/// Removes a key, and writes its value.
#[no_mangle]
pub extern "C" fn slotmap_side_remove(this: &mut Handle<Side>, number: u64, value_out: &mut u64) -> u32 {
    found(this.inside_mut().and_then(|side| side.remove(key(number))), value_out)
}

/// Writes the first keys and their values, and returns how many it wrote.
///
/// # Safety
///
/// The arrays are as slotmap.h asks.
#[no_mangle]
pub unsafe extern "C" fn slotmap_side_list(this: &Handle<Side>, keys: *mut u64, keys_len: usize, values: *mut u64, values_len: usize) -> usize {
    // SAFETY: of the arrays the caller owes this by slotmap.h.
    let (keys, values) = unsafe { (array(keys, keys_len), array(values, values_len)) };
    let pairs = this.inside().into_iter().flat_map(|side| side.iter());
    list(pairs.map(|(key, value)| (number(key), *value)), keys, values)
}
