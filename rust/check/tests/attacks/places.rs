//! A panic names the line of the caller, and a reason.

use super::{key, reason};
use slotmap_proved::{DefaultKey, DenseSlotMap, HopSlotMap, SecondaryMap, SlotMap, SparseSecondaryMap};
use std::cell::RefCell;
use std::panic;

thread_local! {
    /// Where the last panic of this thread was.
    static PLACE: RefCell<String> = const { RefCell::new(String::new()) };
}

/// Whether a call panics with this reason, at a place in this file.
fn is_here<R>(expected: &str, call: impl FnOnce() -> R) {
    let said = reason(call);
    assert_eq!(said.as_deref(), Some(expected));
    PLACE.with(|place| assert!(place.borrow().ends_with("places.rs"), "{expected}: {}", place.borrow()));
}

#[test]
fn each_panic_names_the_callers_line() {
    let before = panic::take_hook();
    panic::set_hook(Box::new(move |said| {
        PLACE.with(|place| *place.borrow_mut() = said.location().map_or(String::new(), |place| place.file().to_string()));
        before(said);
    }));
    let stale = key(9, 1);
    macro_rules! all {
        ($map:ident, $name:literal) => {
            let mut map: $map<DefaultKey, u8> = $map::default();
            is_here(concat!("invalid ", $name, " key used"), || map[stale]);
            is_here(concat!("invalid ", $name, " key used"), || map[stale] = 1);
            is_here(concat!("invalid ", $name, " key used"), || *map.get_unchecked(stale));
            is_here(concat!("invalid ", $name, " key used"), || *map.get_unchecked_mut(stale));
            is_here(concat!("invalid ", $name, " key used, or one used twice"), || drop(map.get_disjoint_unchecked_mut([stale])));
        };
    }
    all!(SlotMap, "SlotMap");
    all!(DenseSlotMap, "DenseSlotMap");
    all!(HopSlotMap, "HopSlotMap");
    all!(SecondaryMap, "SecondaryMap");
    all!(SparseSecondaryMap, "SparseSecondaryMap");
    macro_rules! primary {
        ($map:ident) => {
            is_here("capacity overflow", || $map::<DefaultKey, u8>::with_capacity(usize::MAX));
            is_here("capacity overflow", || $map::<DefaultKey, u8>::with_capacity_and_key(usize::MAX));
            is_here("capacity overflow", || $map::<DefaultKey, u8>::with_key().reserve(usize::MAX));
        };
    }
    primary!(SlotMap);
    primary!(DenseSlotMap);
    primary!(HopSlotMap);
    is_here("key is not detached", || SlotMap::new().reattach(stale, 1));
    is_here("key is not detached", || DenseSlotMap::new().reattach(stale, 1));
    is_here("capacity overflow", || SecondaryMap::<DefaultKey, u8>::with_capacity(usize::MAX));
    is_here("capacity overflow", || SecondaryMap::<DefaultKey, u8>::new().set_capacity(usize::MAX));
    is_here("capacity overflow", || SparseSecondaryMap::<DefaultKey, u8>::with_capacity(usize::MAX));
    is_here("capacity overflow", || SparseSecondaryMap::<DefaultKey, u8>::new().reserve(usize::MAX));
    // Memory runs out: no machine has room for these.
    type Great = [u64; 1 << 24];
    let far = key(u32::MAX - 1, 1);
    is_here("out of memory", || drop(SecondaryMap::<DefaultKey, Great>::new().entry(far)));
    is_here("out of memory", || SecondaryMap::<DefaultKey, Great>::new().set_capacity(1 << 31));
    is_here("out of memory", || SlotMap::<DefaultKey, Great>::with_key().reserve(1 << 31));
    is_here("out of memory", || SlotMap::<DefaultKey, Great>::with_capacity(1 << 31));
}
