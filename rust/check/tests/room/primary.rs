//! SlotMap, DenseSlotMap and HopSlotMap, under slotmap's names and as they are proved.

use super::table::{assert_all, done, table, Entry, Nowhere, Row};
use slotmap_proved::fallible::Vec as ProvedVec;
use slotmap_proved::serial::SlotRecord;
use slotmap_proved::{fallible, DefaultKey, DenseSlotMap, Global, HopSlotMap, SlotMap};
use std::fmt::Write;
use std::ops::{Index, IndexMut};

/// A map in either layer.
pub trait Primary: Sized {
    /// What a list of slots is.
    type List;

    fn with_room(size: usize) -> Self;
    fn make_room(&mut self, size: usize);
    /// Puts a value into a map that has room for it.
    fn put(&mut self) -> DefaultKey;
    fn take(&mut self, key: DefaultKey);
    fn room(&self) -> usize;
    fn count(&self) -> usize;
    fn list(&self) -> Self::List;
}

/// What the rows are made on.
pub struct State<M: Primary> {
    pub map: M,
    pub keys: Vec<DefaultKey>,
    /// Another map, and a list of slots, where a call takes it.
    pub other: Option<M>,
    pub list: Option<M::List>,
    pub found: ProvedVec<DefaultKey>,
    pub pairs: ProvedVec<(DefaultKey, u64)>,
}

impl<M: Primary> State<M> {
    fn over(map: M, keys: Vec<DefaultKey>) -> Self {
        State { map, keys, other: None, list: None, found: ProvedVec::new(Global), pairs: ProvedVec::new(Global) }
    }
}

/// An empty map with room.
pub fn room<M: Primary>(size: usize) -> State<M> {
    State::over(M::with_room(size), Vec::new())
}

/// A map that is full: a vector that grew now would ask for memory.
pub fn full<M: Primary>(size: usize) -> State<M> {
    let mut state = room::<M>(size);
    while state.map.count() < state.map.room() {
        state.keys.push(state.map.put());
    }
    assert!(state.keys.len() >= size);
    state
}

/// A map with some keys, for which room was made later.
pub fn reserved<M: Primary>(size: usize) -> State<M> {
    let mut state = State::over(M::with_room(0), Vec::new());
    state.keys.extend((0..10).map(|_| state.map.put()));
    state.map.make_room(size);
    state
}

/// A map that was full, whose slots are all free.
pub fn freed<M: Primary>(size: usize) -> State<M> {
    let mut state = full::<M>(size);
    state.keys.iter().for_each(|key| state.map.take(*key));
    state
}

/// A full map, and the keys that it had before.
pub fn stale<M: Primary>(size: usize) -> State<M> {
    let mut state = freed::<M>(size);
    state.keys.iter().for_each(|_| assert_ne!(state.map.put(), DefaultKey::default()));
    state
}

/// A map with a value in one slot of ten.
pub fn holes<M: Primary>(size: usize) -> State<M> {
    let mut state = full::<M>(size);
    let map = &mut state.map;
    state.keys.iter().enumerate().filter(|(at, _)| at % 10 != 3).for_each(|(_, key)| map.take(*key));
    state
}

/// An empty map with room, and vectors with room for its keys and pairs.
pub fn beside_vectors<M: Primary>(size: usize) -> State<M> {
    let (found, pairs) = (ProvedVec::with_capacity(Global, 2 * size), ProvedVec::with_capacity(Global, 2 * size));
    State { found: found.expect("memory"), pairs: pairs.expect("memory"), ..full(size) }
}

/// A full map, and the list of its slots.
pub fn listed<M: Primary>(size: usize) -> State<M> {
    let state = full::<M>(size);
    State { list: Some(state.map.list()), ..state }
}

/// Two maps.
pub fn two<M: Primary>(size: usize) -> State<M> {
    State { other: Some(full::<M>(size).map), ..full(size) }
}

macro_rules! layers {
    (both) => {
        fn make_room(&mut self, size: usize) {
            done(self.reserve(size));
        }
        fn take(&mut self, key: DefaultKey) {
            assert!(self.remove(key).is_some());
        }
        fn room(&self) -> usize {
            self.capacity()
        }
        fn count(&self) -> usize {
            self.len()
        }
    };
    ($($Map:ident)*) => {
        $(impl Primary for $Map<DefaultKey, u64> {
            type List = Vec<SlotRecord<u64>>;

            fn with_room(size: usize) -> Self {
                $Map::with_capacity(size)
            }
            fn list(&self) -> Self::List {
                self.to_slots().expect("memory")
            }
            fn put(&mut self) -> DefaultKey {
                self.insert(7)
            }
            layers!(both);
        }

        impl Primary for fallible::$Map<DefaultKey, u64> {
            type List = ProvedVec<SlotRecord<u64>>;

            fn with_room(size: usize) -> Self {
                fallible::$Map::with_capacity(Global, size).expect("memory")
            }
            fn list(&self) -> Self::List {
                self.to_slots().expect("memory")
            }
            fn put(&mut self) -> DefaultKey {
                self.insert(7).ok().expect("room")
            }
            layers!(both);
        })*
    };
}

layers!(SlotMap DenseSlotMap HopSlotMap);

/// The rows of both layers.
macro_rules! both {
    ($State:ty) => {
        rows![$State:
            look [full, stale] contains_key => |s, at| s.map.contains_key(s.keys[at]);
            look [full, stale] get => |s, at| s.map.get(s.keys[at]);
            look [full, stale] get_mut => |s, at| s.map.get_mut(s.keys[at]).map(|value| *value += 1);
            look [full] get_unchecked => |s, at| s.map.get_unchecked(s.keys[at]);
            look [full] get_unchecked_mut => |s, at| *s.map.get_unchecked_mut(s.keys[at]) += 1;
            look [full] index => |s, at| s.map.index(s.keys[at]);
            look [full] index_mut => |s, at| *s.map.index_mut(s.keys[at]) += 1;
            each [room, reserved, freed] insert => |s, _| done(s.map.insert(7));
            each [room, reserved, freed] insert_with_key => |s, _| done(s.map.insert_with_key(|_| 7));
            each [room, reserved, freed] try_insert_with_key => |s, at| match at % 2 {
                0 => done(s.map.try_insert_with_key(|_| Ok::<u64, ()>(7))),
                _ => assert!(s.map.try_insert_with_key(|_| Err::<u64, ()>(())).is_err()),
            };
            each [full, stale] remove => |s, at| s.map.remove(s.keys[at]);
            look [room, full, freed, holes] len => |s, _| s.map.len();
            look [room, full, freed, holes] is_empty => |s, _| s.map.is_empty();
            look [room, full, freed, holes] capacity => |s, _| s.map.capacity();
            look [room, full, freed, holes] reserve => |s, _| done(s.map.reserve(s.map.capacity() - s.map.len()));
            look [room, full, freed, holes] try_reserve => |s, _| done(s.map.try_reserve(s.map.capacity() - s.map.len()));
            once [full, holes] clear => |s, _| s.map.clear();
            once [full, holes] retain => |s, _| s.map.retain(|_, value| *value % 2 == 0);
            once [full, holes] drain => |s, _| s.map.drain().count();
            walk [full, holes] iter => |s, _| s.map.iter().count();
            walk [full, holes] keys => |s, _| s.map.keys().count();
            walk [full, holes] values => |s, _| s.map.values().count();
            once [two] into_iter => |s, _| s.other.take().expect("a map").into_iter().count();
            walk [full, holes] fmt => |s, _| write!(Nowhere, "{:?}", s.map);
        ]
    };
}

/// The rows of a map under slotmap's names.
macro_rules! renamed {
    ($Map:ident, $vectors:literal, $slot:literal) => {
        rows![State<$Map<DefaultKey, u64>>:
            walk [room] new asks $slot "slot 0" => |_, _| $Map::<DefaultKey, u64>::new();
            walk [room] with_key asks $slot "slot 0" => |_, _| $Map::<DefaultKey, u64>::with_key();
            walk [room] default asks $slot "slot 0" => |_, _| $Map::<DefaultKey, u64>::default();
            walk [room] with_capacity asks $vectors "the room" => |s, _| $Map::<DefaultKey, u64>::with_capacity(s.map.capacity());
            walk [room] with_capacity_and_key asks $vectors "the room"
                => |s, _| $Map::<DefaultKey, u64>::with_capacity_and_key(s.map.capacity());
            walk [room] try_with_capacity_and_key asks $vectors "the room"
                => |s, _| $Map::<DefaultKey, u64>::try_with_capacity_and_key(s.map.capacity());
            walk [full] clone asks $vectors "the copy" => |s, _| s.map.clone();
            walk [full] try_clone asks $vectors "the copy" => |s, _| s.map.try_clone();
            once [two] clone_from asks $vectors "the copy, which is made first" => |s, _| s.map.clone_from(s.other.as_ref().expect("a map"));
            once [two] from => |s, _| $Map::from(fallible::$Map::from(s.other.take().expect("a map")));
            each [room, reserved, freed] try_insert => |s, _| done(s.map.try_insert(7));
            look [full] get_disjoint_mut => |s, at| s.map.get_disjoint_mut([s.keys[at], s.keys[0], s.keys[s.keys.len() - 1]]).is_some();
            look [full] get_disjoint_unchecked_mut
                => |s, at| s.map.get_disjoint_unchecked_mut([s.keys[at], s.keys[(at + 1) % s.keys.len()]]).len();
            walk [full, holes] iter_mut => |s, _| s.map.iter_mut().count();
            walk [full, holes] values_mut => |s, _| s.map.values_mut().count();
        ]
    };
}

/// The rows of a map as it is proved.
macro_rules! proved {
    ($Map:ident, $vectors:literal, $slot:literal) => {
        rows![State<fallible::$Map<DefaultKey, u64>>:
            walk [room] new asks $slot "slot 0" => |_, _| fallible::$Map::<DefaultKey, u64>::new(Global);
            walk [room] with_key asks $slot "slot 0" => |_, _| fallible::$Map::<DefaultKey, u64>::with_key(Global);
            walk [room] with_capacity asks $vectors "the room"
                => |s, _| fallible::$Map::<DefaultKey, u64>::with_capacity(Global, s.map.capacity());
            walk [room] with_capacity_and_key asks $vectors "the room"
                => |s, _| fallible::$Map::<DefaultKey, u64>::with_capacity_and_key(Global, s.map.capacity());
            walk [full] clone asks $vectors "the copy" => |s, _| s.map.clone();
            once [two] clone_from asks $vectors "the copy, which is made first" => |s, _| s.map.clone_from(s.other.as_ref().expect("a map"));
            once [two] from => |s, _| fallible::$Map::from($Map::from(s.other.take().expect("a map")));
            look [full, stale] replace => |s, at| s.map.replace(s.keys[at], 8);
            look [full, stale] replace_disjoint => |s, at| s.map.replace_disjoint([s.keys[at], s.keys[(at + 1) % s.keys.len()]], [8, 9]);
            once [beside_vectors] keys_into => |s, _| done(s.map.keys_into(&mut s.found));
            once [beside_vectors] drain_into => |s, _| done(s.map.drain_into(&mut s.pairs));
        ]
    };
}

/// Lists of slots, under slotmap's names and of the proved maps. That of a DenseSlotMap needs the place of each value, and its map grows.
macro_rules! lists {
    (dense) => {
        vec![
            table("DenseSlotMap", rows![State<DenseSlotMap<DefaultKey, u64>>:
                walk [full, holes] to_slots asks 2 "the list, and the place of each value" => |s, _| s.map.to_slots();
                once [listed] from_slots asks up to 40 "the map, which grows"
                    => |s, _| done(DenseSlotMap::<DefaultKey, u64>::from_slots(s.list.take().expect("a list")));
            ]),
            table("fallible::DenseSlotMap", rows![State<fallible::DenseSlotMap<DefaultKey, u64>>:
                walk [full, holes] to_slots asks 2 "the list, and the place of each value" => |s, _| s.map.to_slots();
                once [listed] from_slots asks up to 40 "the map, which grows"
                    => |s, _| done(fallible::DenseSlotMap::<DefaultKey, u64>::from_slots(Global, s.list.take().expect("a list")));
            ]),
        ]
    };
    ($Map:ident) => {
        vec![
            table(stringify!($Map), rows![State<$Map<DefaultKey, u64>>:
                walk [full, holes] to_slots asks 1 "the list" => |s, _| s.map.to_slots();
                once [listed] from_slots asks up to 3 "the map" => |s, _| done($Map::<DefaultKey, u64>::from_slots(s.list.take().expect("a list")));
            ]),
            table(concat!("fallible::", stringify!($Map)), rows![State<fallible::$Map<DefaultKey, u64>>:
                walk [full, holes] to_slots asks 1 "the list" => |s, _| s.map.to_slots();
                once [listed] from_slots asks up to 3 "the map"
                    => |s, _| done(fallible::$Map::<DefaultKey, u64>::from_slots(Global, s.list.take().expect("a list")));
            ]),
        ]
    };
}

/// Maps whose keys can be detached: under slotmap's names, and as they are proved.
macro_rules! detaching {
    ($Map:ident, $State:ty) => {
        rows![$State:
            each [full, stale] detach => |s, at| s.map.detach(s.keys[at]);
            each [detached] reattach => |s, at| done(s.map.reattach(s.keys[at], 8));
        ]
    };
    ($Map:ident) => {
        rows![State<$Map<DefaultKey, u64>>:
            each [detached] try_reattach => |s, at| done(s.map.try_reattach(s.keys[at], 8));
        ]
    };
}

/// A map that was full, whose keys are all detached.
fn detached<M: Primary + Detaching>(size: usize) -> State<M> {
    let mut state = full::<M>(size);
    state.keys.iter().for_each(|key| state.map.set_aside(*key));
    state
}

trait Detaching {
    fn set_aside(&mut self, key: DefaultKey);
}

macro_rules! set_aside {
    ($($Map:ty)*) => {
        $(impl Detaching for $Map {
            fn set_aside(&mut self, key: DefaultKey) {
                assert!(self.detach(key).is_some());
            }
        })*
    };
}

set_aside!(SlotMap<DefaultKey, u64> DenseSlotMap<DefaultKey, u64> fallible::SlotMap<DefaultKey, u64> fallible::DenseSlotMap<DefaultKey, u64>);

/// The slices of a DenseSlotMap.
macro_rules! slices {
    ($State:ty) => {
        rows![$State:
            walk [full] keys_as_slice => |s, _| s.map.keys_as_slice().len();
            walk [full] values_as_slice => |s, _| s.map.values_as_slice().len();
            walk [full] values_as_mut_slice => |s, _| s.map.values_as_mut_slice().len();
            walk [full] as_slices => |s, _| s.map.as_slices().0.len();
            walk [full] as_mut_slices => |s, _| s.map.as_mut_slices().1.len();
        ]
    };
}

fn of_slot_map() -> Vec<Row<State<fallible::SlotMap<DefaultKey, u64>>>> {
    rows![State<fallible::SlotMap<DefaultKey, u64>>:
        look [full, holes] key_at => |s, at| s.map.key_at(at as u32 + 1);
        look [full, stale] next_after => |s, at| s.map.next_after(Some(s.keys[at]));
    ]
}

fn of_dense_slot_map() -> Vec<Row<State<fallible::DenseSlotMap<DefaultKey, u64>>>> {
    rows![State<fallible::DenseSlotMap<DefaultKey, u64>>:
        walk [full] can_replace => |s, _| assert!(s.map.can_replace(&s.keys[..10]));
        look [full] get_disjoint_mut => |s, at| s.map.get_disjoint_mut([s.keys[at], s.keys[(at + 1) % s.keys.len()]]).is_some();
        look [full] get_disjoint_unchecked_mut
            => |s, at| *s.map.get_disjoint_unchecked_mut([s.keys[at], s.keys[(at + 1) % s.keys.len()]]).0 += 1;
        walk [full, holes] iter_mut => |s, _| s.map.iter_mut().count();
        walk [full, holes] values_mut => |s, _| s.map.values_mut().count();
    ]
}

type Tables = Vec<Vec<Entry>>;

macro_rules! of_both {
    ($Map:ident, $vectors:literal, $slot:literal) => {
        vec![
            table(stringify!($Map), both!(State<$Map<DefaultKey, u64>>)),
            table(stringify!($Map), renamed!($Map, $vectors, $slot)),
            table(concat!("fallible::", stringify!($Map)), both!(State<fallible::$Map<DefaultKey, u64>>)),
            table(concat!("fallible::", stringify!($Map)), proved!($Map, $vectors, $slot)),
        ]
    };
}

macro_rules! of_detaching {
    ($Map:ident) => {
        vec![
            table(stringify!($Map), detaching!($Map, State<$Map<DefaultKey, u64>>)),
            table(stringify!($Map), detaching!($Map)),
            table(concat!("fallible::", stringify!($Map)), detaching!($Map, State<fallible::$Map<DefaultKey, u64>>)),
        ]
    };
}

fn basic() -> Tables {
    let more = vec![table("fallible::SlotMap", of_slot_map())];
    [of_both!(SlotMap, 3, 3), of_detaching!(SlotMap), lists!(SlotMap), more].into_iter().flatten().collect()
}

fn dense() -> Tables {
    let slices = vec![
        table("DenseSlotMap", slices!(State<DenseSlotMap<DefaultKey, u64>>)),
        table("fallible::DenseSlotMap", slices!(State<fallible::DenseSlotMap<DefaultKey, u64>>)),
        table("fallible::DenseSlotMap", of_dense_slot_map()),
    ];
    [of_both!(DenseSlotMap, 3, 1), of_detaching!(DenseSlotMap), lists!(dense), slices].into_iter().flatten().collect()
}

fn hop() -> Tables {
    [of_both!(HopSlotMap, 1, 1), lists!(HopSlotMap)].into_iter().flatten().collect()
}

pub fn all() -> Tables {
    [basic(), dense(), hop()].into_iter().flatten().collect()
}

#[test]
fn slot_map() {
    assert_all(basic());
}

#[test]
fn dense_slot_map() {
    assert_all(dense());
}

#[test]
fn hop_slot_map() {
    assert_all(hop());
}
