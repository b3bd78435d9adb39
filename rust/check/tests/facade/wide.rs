//! Memory that no process has: 4294967294 values of 1 MiB take more bytes than it can address. So a call that reserves room for them
//! is refused, whatever the system promises.

use slotmap_proved::errors::ReserveError;
use slotmap_proved::fallible::{DenseSlotMap, HopSlotMap, SecondaryMap, SlotMap, SparseSecondaryMap};
use slotmap_proved::runs::Primary;
use slotmap_proved::{DefaultKey, Global};

const ALL: usize = 4294967294;

/// A value of 1 MiB.
type Wide = [u64; 131072];

fn lacks_memory<T>(made: Result<T, ReserveError>) -> bool {
    matches!(made, Err(ReserveError::Memory))
}

/// A primary map is refused room for all keys, and reserves it for three.
fn assert_refuses_all<M: Primary<DefaultKey, Wide>>() {
    assert!(lacks_memory(M::with_capacity_and_key(Global, ALL)));
    let mut map = M::with_capacity_and_key(Global, 3).expect("memory");
    assert!(lacks_memory(map.reserve(ALL)) && lacks_memory(map.try_reserve(ALL)));
    map.reserve(3).expect("memory");
    assert!(map.is_empty() && map.capacity() >= 3);
}

#[test]
fn primary_maps_are_refused_memory() {
    assert_refuses_all::<SlotMap<DefaultKey, Wide>>();
    assert_refuses_all::<DenseSlotMap<DefaultKey, Wide>>();
    assert_refuses_all::<HopSlotMap<DefaultKey, Wide>>();
}

#[test]
fn secondary_maps_are_refused_memory() {
    assert!(lacks_memory(SecondaryMap::<DefaultKey, Wide>::with_capacity(Global, ALL)));
    let mut map = SecondaryMap::<DefaultKey, Wide>::with_capacity(Global, 3).expect("memory");
    assert!(lacks_memory(map.set_capacity(ALL)) && lacks_memory(map.try_set_capacity(ALL)));
    map.set_capacity(3).expect("memory");
    assert!(map.is_empty() && map.capacity() >= 3);
}

/// Its hash map can't hold as many keys, and says so in the same way.
#[test]
fn sparse_maps_are_refused_memory() {
    assert!(lacks_memory(SparseSecondaryMap::<DefaultKey, Wide>::with_capacity(Global, ALL)));
    let mut map = SparseSecondaryMap::<DefaultKey, Wide>::with_capacity(Global, 3).expect("memory");
    assert!(lacks_memory(map.reserve(ALL)) && lacks_memory(map.try_reserve(ALL)));
    map.reserve(3).expect("memory");
    assert!(map.is_empty() && map.capacity() >= 3);
}
