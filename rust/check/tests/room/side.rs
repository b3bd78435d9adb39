//! SecondaryMap and SparseSecondaryMap, under slotmap's names and as they are proved.

use super::common::keys::key_of;
use super::table::{assert_all, done, table, Entry, Nowhere};
use slotmap_proved::fallible::{OrPut, Vec as ProvedVec};
use slotmap_proved::serial::SlotRecord;
use slotmap_proved::{fallible, DefaultKey, Global, SecondaryMap, SparseSecondaryMap};
use std::fmt::Write;
use std::ops::{Index, IndexMut};

/// A map in either layer.
pub trait Side: Sized {
    /// What a list of slots is.
    type List;

    fn with_room(size: usize) -> Self;
    /// Makes room for so many pairs in all, or for all keys up to this index.
    fn make_room(&mut self, size: usize);
    fn put(&mut self, key: DefaultKey);
    fn take(&mut self, key: DefaultKey);
    fn room(&self) -> usize;
    fn count(&self) -> usize;
    fn list(&self) -> Self::List;
}

/// What the rows are made on.
pub struct State<M: Side> {
    pub map: M,
    pub keys: Vec<DefaultKey>,
    /// Another map, and a list of slots, where a call takes it.
    pub other: Option<M>,
    pub list: Option<M::List>,
}

/// The key of this number, of the first version or the second.
pub fn key_at(at: usize, version: u32) -> DefaultKey {
    key_of(at as u32 + 1, version)
}

fn with_keys<M: Side>(size: usize, version: u32) -> State<M> {
    State { map: M::with_room(size), keys: (0..size).map(|at| key_at(at, version)).collect(), other: None, list: None }
}

/// An empty map with room, and the keys for which it has room.
pub fn room<M: Side>(size: usize) -> State<M> {
    with_keys(size, 1)
}

/// A map with some pairs, for which room was made later.
pub fn reserved<M: Side>(size: usize) -> State<M> {
    let mut state = State { map: M::with_room(0), ..room::<M>(size) };
    (0..10).for_each(|at| state.map.put(key_at(at, 1)));
    state.map.make_room(size);
    state
}

/// A map with a value under each of its keys, and no room for more.
pub fn full<M: Side>(size: usize) -> State<M> {
    let mut state = room::<M>(size);
    state.keys.iter().for_each(|key| state.map.put(*key));
    let mut more = size;
    while state.map.count() < state.map.room() {
        state.map.put(key_at(more, 1));
        more += 1;
    }
    state
}

/// A full map, and newer versions of its keys.
pub fn newer<M: Side>(size: usize) -> State<M> {
    State { keys: with_keys::<M>(size, 3).keys, ..full(size) }
}

/// A map of which half is free, and newer versions of its keys.
pub fn newer_with_room<M: Side>(size: usize) -> State<M> {
    let mut state = State { keys: with_keys::<M>(size, 3).keys, ..room::<M>(2 * size) };
    (0..size).for_each(|at| state.map.put(key_at(at, 1)));
    state
}

/// A full map of newer versions, and older ones of its keys.
pub fn older<M: Side>(size: usize) -> State<M> {
    let mut state = full::<M>(size);
    state.keys.iter().for_each(|key| state.map.put(key_of(key_index(*key), 3)));
    state
}

fn key_index(key: DefaultKey) -> u32 {
    super::common::keys::parts(key).0
}

/// A map with a value in one slot of ten.
pub fn holes<M: Side>(size: usize) -> State<M> {
    let mut state = full::<M>(size);
    let map = &mut state.map;
    state.keys.iter().enumerate().filter(|(at, _)| at % 10 != 3).for_each(|(_, key)| map.take(*key));
    state
}

/// A map of which half is free, whose keys were removed. Where pairs go and others come, a hash map sets itself in order now and then: in
/// place, if half of its room is free. So a SparseSecondaryMap has the room of so many new keys where twice as many fit.
pub fn freed<M: Side>(size: usize) -> State<M> {
    let mut state = State { keys: with_keys::<M>(size, 1).keys, ..room::<M>(2 * size) };
    for version in [1, 3] {
        state.keys.iter().for_each(|key| state.map.put(key_of(key_index(*key), version)));
        state.keys.iter().for_each(|key| state.map.take(key_of(key_index(*key), version)));
    }
    state
}

/// A full map, and the list of its slots.
pub fn listed<M: Side>(size: usize) -> State<M> {
    let state = full::<M>(size);
    State { list: Some(state.map.list()), ..state }
}

/// Two maps.
pub fn two<M: Side>(size: usize) -> State<M> {
    State { other: Some(full::<M>(size).map), ..full(size) }
}

macro_rules! layers {
    (both) => {
        fn put(&mut self, key: DefaultKey) {
            done(self.insert(key, 7));
        }
        fn take(&mut self, key: DefaultKey) {
            assert!(self.remove(key).is_some());
        }
        fn room(&self) -> usize {
            self.capacity()
        }
        fn count(&self) -> usize {
            self.len()
        }
        fn list(&self) -> Self::List {
            self.to_slots().expect("memory")
        }
    };
    ($($Map:ident $reserve:ident)*) => {
        $(impl Side for $Map<DefaultKey, u64> {
            type List = Vec<SlotRecord<u64>>;

            fn with_room(size: usize) -> Self {
                $Map::with_capacity(size)
            }
            fn make_room(&mut self, size: usize) {
                done(self.$reserve(size));
            }
            layers!(both);
        }

        impl Side for fallible::$Map<DefaultKey, u64> {
            type List = ProvedVec<SlotRecord<u64>>;

            fn with_room(size: usize) -> Self {
                fallible::$Map::with_capacity(Global, size).expect("memory")
            }
            fn make_room(&mut self, size: usize) {
                done(self.$reserve(size));
            }
            layers!(both);
        })*
    };
}

layers!(SecondaryMap set_capacity SparseSecondaryMap reserve);

/// The rows of both layers.
macro_rules! both {
    ($State:ty) => {
        rows![$State:
            look [full, newer, older] contains_key => |s, at| s.map.contains_key(s.keys[at]);
            look [full, newer, older] get => |s, at| s.map.get(s.keys[at]);
            look [full, newer, older] get_mut => |s, at| s.map.get_mut(s.keys[at]).map(|value| *value += 1);
            look [full] get_unchecked => |s, at| s.map.get_unchecked(s.keys[at]);
            look [full] get_unchecked_mut => |s, at| *s.map.get_unchecked_mut(s.keys[at]) += 1;
            look [full] index => |s, at| s.map.index(s.keys[at]);
            look [full] index_mut => |s, at| *s.map.index_mut(s.keys[at]) += 1;
            each [room, reserved, freed, full, newer, older] insert => |s, at| done(s.map.insert(s.keys[at], 8));
            once [room, freed, full, newer] extend => |s, _| s.map.extend(s.keys.iter().map(|key| (*key, 8)));
            each [room, full, newer, older] entry => |s, at| std::mem::drop(s.map.entry(s.keys[at]));
            each [room, full, newer, older] try_entry => |s, at| s.map.try_entry(s.keys[at]).is_ok();
            each [full, newer, older] remove => |s, at| s.map.remove(s.keys[at]);
            look [room, full, holes] len => |s, _| s.map.len();
            look [room, full, holes] is_empty => |s, _| s.map.is_empty();
            look [room, full, holes] capacity => |s, _| s.map.capacity();
            once [full, holes] clear => |s, _| s.map.clear();
            once [full, holes] retain => |s, _| s.map.retain(|_, value| *value % 2 == 0);
            once [full, holes] drain => |s, _| s.map.drain().take(500).count();
            walk [full, holes] iter => |s, _| s.map.iter().count();
            walk [full, holes] keys => |s, _| s.map.keys().count();
            walk [full, holes] values => |s, _| s.map.values().count();
            once [two] into_iter => |s, _| s.other.take().expect("a map").into_iter().count();
            walk [two] eq => |s, _| assert!(s.map.eq(s.other.as_ref().expect("a map")));
            walk [full, holes] fmt => |s, _| write!(Nowhere, "{:?}", s.map);
            walk [full, holes] to_slots asks 1 "the list" => |s, _| s.map.to_slots();
        ]
    };
}

/// The rows of a map under slotmap's names.
macro_rules! renamed {
    ($Map:ident) => {
        rows![State<$Map<DefaultKey, u64>>:
            walk [full] clone asks 1 "the copy" => |s, _| s.map.clone();
            walk [full] try_clone asks 1 "the copy" => |s, _| s.map.try_clone();
            once [two] clone_from asks 1 "the copy, which is made first" => |s, _| s.map.clone_from(s.other.as_ref().expect("a map"));
            walk [room] from_iter asks up to 20 "the map, which grows"
                => |s, _| $Map::<DefaultKey, u64>::from_iter(s.keys.iter().map(|key| (*key, 8)));
            once [two] from => |s, _| $Map::from(fallible::$Map::from(s.other.take().expect("a map")));
            each [room, freed, full, newer] try_insert => |s, at| done(s.map.try_insert(s.keys[at], 8));
            walk [full, holes] iter_mut => |s, _| s.map.iter_mut().count();
            walk [full, holes] values_mut => |s, _| s.map.values_mut().count();
        ]
    };
}

/// The rows of a map as it is proved.
macro_rules! proved {
    ($Map:ident) => {
        rows![State<fallible::$Map<DefaultKey, u64>>:
            walk [room] with_capacity asks 1 "the room" => |s, _| fallible::$Map::<DefaultKey, u64>::with_capacity(Global, s.keys.len());
            walk [full] clone asks 1 "the copy" => |s, _| s.map.clone();
            once [two] clone_from asks 1 "the copy, which is made first" => |s, _| s.map.clone_from(s.other.as_ref().expect("a map"));
            walk [room] from_iter asks up to 20 "the map, which grows"
                => |s, _| done(fallible::$Map::from_iter(Global, s.keys.iter().map(|key| (*key, 8))));
            once [listed] from_slots asks up to 20 "the map"
                => |s, _| done(fallible::$Map::<DefaultKey, u64>::from_slots(Global, s.list.take().expect("a list")));
            once [two] from => |s, _| fallible::$Map::from($Map::from(s.other.take().expect("a map")));
            once [room, full] extend_refs => |s, _| done(s.map.extend_refs(s.keys.iter().map(|key| (*key, &8))));
            each [room, freed, full, newer] or_put => |s, at| assert!(!matches!(s.map.or_put(s.keys[at], 8), OrPut::Memory(_)));
            look [full, newer] replace_disjoint => |s, at| s.map.replace_disjoint([s.keys[at], s.keys[(at + 1) % s.keys.len()]], [8, 9]);
        ]
    };
}

/// The room of a SecondaryMap, in either layer: for all keys up to an index.
macro_rules! of_secondary {
    (renamed) => {
        rows![State<SecondaryMap<DefaultKey, u64>>:
            walk [room] new asks 1 "slot 0" => |_, _| SecondaryMap::<DefaultKey, u64>::new();
            walk [room] default asks 1 "slot 0" => |_, _| SecondaryMap::<DefaultKey, u64>::default();
            walk [room] with_capacity asks 1 "the room" => |s, _| SecondaryMap::<DefaultKey, u64>::with_capacity(s.keys.len());
            walk [room] try_with_capacity asks 1 "the room" => |s, _| SecondaryMap::<DefaultKey, u64>::try_with_capacity(s.keys.len());
            once [listed] from_slots asks 1 "the map"
                => |s, _| done(SecondaryMap::<DefaultKey, u64>::from_slots(s.list.take().expect("a list")));
            look [full] get_disjoint_mut => |s, at| s.map.get_disjoint_mut([s.keys[at], s.keys[(at + 1) % s.keys.len()]]).is_some();
            look [full] get_disjoint_unchecked_mut => |s, at| s.map.get_disjoint_unchecked_mut([s.keys[at], s.keys[(at + 1) % s.keys.len()]]).len();
        ]
    };
    (proved) => {
        rows![State<fallible::SecondaryMap<DefaultKey, u64>>:
            walk [room] new asks 1 "slot 0" => |_, _| fallible::SecondaryMap::<DefaultKey, u64>::new(Global);
            look [full, holes] key_at => |s, at| s.map.key_at(at);
        ]
    };
    ($State:ty) => {
        rows![$State:
            look [full] set_capacity => |s, at| done(s.map.set_capacity(at));
            look [full] try_set_capacity => |s, at| done(s.map.try_set_capacity(at));
        ]
    };
}

/// A SparseSecondaryMap without memory hashes by std's keys of the thread, which this makes.
fn hashing<M: Side>(size: usize) -> State<M> {
    let _ = std::collections::hash_map::RandomState::new();
    room(size)
}

/// The room of a SparseSecondaryMap, in either layer: for so many more pairs.
macro_rules! of_sparse {
    (renamed) => {
        rows![State<SparseSecondaryMap<DefaultKey, u64>>:
            walk [hashing] new => |_, _| SparseSecondaryMap::<DefaultKey, u64>::new();
            walk [hashing] default => |_, _| SparseSecondaryMap::<DefaultKey, u64>::default();
            walk [hashing] with_hasher => |_, _| SparseSecondaryMap::<DefaultKey, u64>::with_hasher(Default::default());
            walk [room] with_capacity asks 1 "the room" => |s, _| SparseSecondaryMap::<DefaultKey, u64>::with_capacity(s.keys.len());
            walk [room] with_capacity_and_hasher asks 1 "the room"
                => |s, _| SparseSecondaryMap::<DefaultKey, u64>::with_capacity_and_hasher(s.keys.len(), Default::default());
            walk [room] try_with_capacity_and_hasher asks 1 "the room"
                => |s, _| SparseSecondaryMap::<DefaultKey, u64>::try_with_capacity_and_hasher(s.keys.len(), Default::default());
            once [listed] from_slots_with_hasher asks up to 20 "the map, which grows"
                => |s, _| done(SparseSecondaryMap::<DefaultKey, u64>::from_slots_with_hasher(s.list.take().expect("a list"), Default::default()));
            walk [full] get_disjoint_mut => |s, _| s.map.get_disjoint_mut([s.keys[0], s.keys[s.keys.len() - 1]]).is_some();
            walk [full] get_disjoint_unchecked_mut => |s, _| s.map.get_disjoint_unchecked_mut([s.keys[0], s.keys[s.keys.len() - 1]]).len();
        ]
    };
    (proved) => {
        rows![State<fallible::SparseSecondaryMap<DefaultKey, u64>>:
            walk [hashing] new => |_, _| done(Proved::<DefaultKey, u64>::new(Global));
            walk [room] with_hasher => |_, _| done(Proved::<DefaultKey, u64>::with_hasher(Global, Default::default()));
            walk [room] with_capacity_and_hasher asks 1 "the room"
                => |s, _| done(Proved::<DefaultKey, u64>::with_capacity_and_hasher(Global, s.keys.len(), Default::default()));
            once [room] from_iter_with_hasher asks up to 20 "the map, which grows" => |s, _| done(
                Proved::<DefaultKey, u64>::from_iter_with_hasher(Global, s.keys.iter().map(|key| (*key, 8)), Default::default()));
            once [listed] from_slots_with_hasher asks up to 20 "the map, which grows" => |s, _| done(
                Proved::<DefaultKey, u64>::from_slots_with_hasher(Global, s.list.take().expect("a list"), Default::default()));
        ]
    };
    ($State:ty) => {
        rows![$State:
            look [room] reserve => |s, _| done(s.map.reserve(s.map.capacity()));
            look [room] try_reserve => |s, _| done(s.map.try_reserve(s.map.capacity()));
        ]
    };
}

type Proved<K, V> = fallible::SparseSecondaryMap<K, V>;
type Tables = Vec<Vec<Entry>>;

macro_rules! of_both {
    ($Map:ident, $more:ident) => {
        vec![
            table(stringify!($Map), both!(State<$Map<DefaultKey, u64>>)),
            table(stringify!($Map), renamed!($Map)),
            table(stringify!($Map), $more!(State<$Map<DefaultKey, u64>>)),
            table(stringify!($Map), $more!(renamed)),
            table(concat!("fallible::", stringify!($Map)), both!(State<fallible::$Map<DefaultKey, u64>>)),
            table(concat!("fallible::", stringify!($Map)), proved!($Map)),
            table(concat!("fallible::", stringify!($Map)), $more!(State<fallible::$Map<DefaultKey, u64>>)),
            table(concat!("fallible::", stringify!($Map)), $more!(proved)),
        ]
    };
}

fn secondary() -> Tables {
    of_both!(SecondaryMap, of_secondary)
}

fn sparse() -> Tables {
    of_both!(SparseSecondaryMap, of_sparse)
}

pub fn all() -> Tables {
    [secondary(), sparse()].into_iter().flatten().collect()
}

#[test]
fn secondary_map() {
    assert_all(secondary());
}

#[test]
fn sparse_secondary_map() {
    assert_all(sparse());
}
