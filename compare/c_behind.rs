//! The Rust crate behind the calls of slotmap.h that c_speed.rs makes on both: what a call costs, beside what inlining saves. See
//! c-speed.sh.

use slotmap::{DefaultKey, Key, KeyData, SecondaryMap, SlotMap};

type Map = SlotMap<DefaultKey, u64>;
type Side = SecondaryMap<DefaultKey, u64>;

#[repr(C)]
pub struct Handle<T> {
    at: Option<Box<T>>,
}

fn key(number: u64) -> DefaultKey {
    DefaultKey::from(KeyData::from_ffi(number))
}

fn found(value: Option<u64>, out: &mut u64) -> u32 {
    match value {
        Some(value) => {
            *out = value;
            0
        }
        None => 5,
    }
}

#[no_mangle]
pub extern "C" fn slotmap_new(map: &mut Handle<Map>) -> u32 {
    map.at = Some(Box::new(SlotMap::new()));
    0
}

#[no_mangle]
pub extern "C" fn slotmap_free(map: &mut Handle<Map>) {
    map.at = None;
}

#[no_mangle]
pub extern "C" fn slotmap_insert(map: &mut Handle<Map>, value: u64, out: &mut u64) -> u32 {
    let Some(map) = &mut map.at else { return 3 };
    *out = map.insert(value).data().as_ffi();
    0
}

#[no_mangle]
pub extern "C" fn slotmap_get(map: &mut Handle<Map>, number: u64, out: &mut u64) -> u32 {
    let Some(map) = &map.at else { return 5 };
    found(map.get(key(number)).copied(), out)
}

#[no_mangle]
pub extern "C" fn slotmap_set(map: &mut Handle<Map>, number: u64, value: u64, out: &mut u64) -> u32 {
    let Some(map) = &mut map.at else { return 5 };
    found(map.get_mut(key(number)).map(|at| std::mem::replace(at, value)), out)
}

#[no_mangle]
pub extern "C" fn slotmap_remove(map: &mut Handle<Map>, number: u64, out: &mut u64) -> u32 {
    let Some(map) = &mut map.at else { return 5 };
    found(map.remove(key(number)), out)
}

// A walk, which the crate has no call for, isn't measured behind calls.
#[no_mangle]
pub extern "C" fn slotmap_next(_: &mut Handle<Map>, _: u64, _: &mut u64, _: &mut u64) -> u32 {
    7
}

#[no_mangle]
pub extern "C" fn slotmap_list_after(_: &mut Handle<Map>, _: u64, _: *mut u64, _: usize, _: *mut u64, _: usize) -> usize {
    0
}

#[no_mangle]
pub extern "C" fn slotmap_side_new(side: &mut Handle<Side>) -> u32 {
    side.at = Some(Box::new(SecondaryMap::new()));
    0
}

#[no_mangle]
pub extern "C" fn slotmap_side_free(side: &mut Handle<Side>) {
    side.at = None;
}

#[no_mangle]
pub extern "C" fn slotmap_side_put(side: &mut Handle<Side>, number: u64, value: u64) -> u32 {
    let Some(side) = &mut side.at else { return 3 };
    let key = key(number);
    side.insert(key, value);
    if side.contains_key(key) { 0 } else { 8 }
}

#[no_mangle]
pub extern "C" fn slotmap_side_get(side: &mut Handle<Side>, number: u64, out: &mut u64) -> u32 {
    let Some(side) = &side.at else { return 5 };
    found(side.get(key(number)).copied(), out)
}
