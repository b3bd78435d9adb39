//! A closure, a drop, a clone, a comparison, a hash or an iterator panics in the middle of a call of a map, at each moment in turn. Then the
//! map is used on, and all that holds of every map has to hold of it.

#[path = "panics/fuse.rs"]
mod fuse;

use fuse::{at_each_tick, tick, ticking, Hooked};
use slotmap_proved::{DefaultKey, DenseSlotMap, HopSlotMap, Key, KeyData, SecondaryMap, SlotMap, SparseSecondaryMap};
use std::collections::BTreeMap;
use std::hash::{BuildHasher, Hasher};

/// A hasher that ticks.
#[derive(Clone, Default)]
pub struct Ticking(u64);

impl Hasher for Ticking {
    fn finish(&self) -> u64 {
        self.0
    }

    fn write(&mut self, bytes: &[u8]) {
        tick();
        for byte in bytes {
            self.0 = self.0.wrapping_mul(31).wrapping_add(u64::from(*byte));
        }
    }
}

/// Makes hashers that tick.
#[derive(Clone, Default)]
pub struct MakeTicking;

impl BuildHasher for MakeTicking {
    type Hasher = Ticking;

    fn build_hasher(&self) -> Ticking {
        Ticking(0)
    }
}

fn parts(key: DefaultKey) -> (u32, u32) {
    let number = key.data().as_ffi();
    (number as u32, (number >> 32) as u32)
}

fn key(index: u32, version: u32) -> DefaultKey {
    DefaultKey::from(KeyData::from_ffi(u64::from(version) << 32 | u64::from(index)))
}

macro_rules! primary {
    ($module:ident, $map:ident) => {
        mod $module {
            use super::*;

            type Map = $map<DefaultKey, Hooked>;

            /// A map, and what is known of it before the call.
            pub struct State {
                map: Map,
                live: BTreeMap<DefaultKey, u64>,
                stale: Vec<DefaultKey>,
                detached: Vec<DefaultKey>,
                /// The call may give the map the content of another one.
                anew: bool,
            }

            type Call = (&'static str, fn(&mut State));

            fn make() -> State {
                let mut map = Map::with_key();
                let keys: Vec<_> = (0..12).map(|number| map.insert(Hooked(number))).collect();
                let mut live: BTreeMap<_, _> = keys.iter().copied().zip(0..12).collect();
                let mut stale = vec![];
                for at in [2, 3, 7, 8, 9] {
                    map.remove(keys[at]);
                    live.remove(&keys[at]);
                    stale.push(keys[at]);
                }
                live.insert(map.insert(Hooked(12)), 12);
                State { map, live, stale, detached: vec![], anew: false }
            }

            /// The newest version of each index that was handed out before the call.
            fn newest(state: &State) -> BTreeMap<u32, u32> {
                let mut newest = BTreeMap::new();
                for key in state.live.keys().chain(&state.stale).chain(&state.detached) {
                    let (index, version) = parts(*key);
                    let known = newest.entry(index).or_insert(version);
                    *known = version.max(*known);
                }
                newest
            }

            fn found(map: &Map) -> Vec<(DefaultKey, u64)> {
                map.iter().map(|(key, value)| (key, value.0)).collect()
            }

            /// What the iterators yield is what look-ups find, and it is as much as `len` says.
            fn agrees(map: &Map) {
                let found = found(map);
                assert_eq!((map.len(), map.is_empty()), (found.len(), found.is_empty()));
                assert!(map.keys().eq(found.iter().map(|pair| pair.0)));
                assert!(map.values().map(|value| value.0).eq(found.iter().map(|pair| pair.1)));
                for (key, number) in &found {
                    assert!(map.contains_key(*key) && map.get(*key).map(|value| value.0) == Some(*number));
                }
                let mut indices: Vec<_> = found.iter().map(|pair| parts(pair.0).0).collect();
                indices.sort_unstable();
                indices.dedup();
                assert_eq!(indices.len(), found.len(), "two live keys of one index");
            }

            /// What was live before is live with its value or gone, and a new key is newer than each at its index.
            fn follows(state: &State) {
                let newest = newest(state);
                for (key, number) in found(&state.map) {
                    match state.live.get(&key) {
                        Some(before) => assert!(number == *before || number == before + 1000, "another value"),
                        None => assert!(newest.get(&parts(key).0).map_or(true, |version| *version < parts(key).1), "an older key"),
                    }
                }
                assert!(state.stale.iter().chain(&state.detached).all(|key| !state.map.contains_key(*key) && state.map.get(*key).is_none()));
            }

            /// Keys that are inserted from now on are new, and the map does all that a map does.
            fn goes_on(map: &mut Map, mut newest: BTreeMap<u32, u32>) {
                for (key, _) in found(map) {
                    let (index, version) = parts(key);
                    let known = newest.entry(index).or_insert(version);
                    *known = version.max(*known);
                }
                let before = map.len();
                for number in 100..130 {
                    let (index, version) = parts(map.insert(Hooked(number)));
                    assert!(newest.insert(index, version).map_or(true, |older| older < version), "a key comes twice");
                }
                assert_eq!(map.len(), before + 30);
                agrees(map);
                map.retain(|_, value| value.0 % 2 == 0);
                assert!(map.values().all(|value| value.0 % 2 == 0) && map.values().filter(|value| (100..130).contains(&value.0)).count() == 15);
                agrees(map);
                let copy = map.clone();
                assert_eq!(found(&copy), found(map));
                let all = found(map);
                assert_eq!(map.drain().map(|(key, value)| (key, value.0)).collect::<BTreeMap<_, _>>(), all.into_iter().collect());
                agrees(map);
                let last = map.insert(Hooked(1));
                assert_eq!(map.remove(last).map(|value| value.0), Some(1));
            }

            fn check(mut state: State) {
                agrees(&state.map);
                if !state.anew {
                    follows(&state);
                }
                let newest = if state.anew { BTreeMap::new() } else { newest(&state) };
                goes_on(&mut state.map, newest);
            }

            const CALLS: &[Call] = &[
                ("insert_with_key", |state| {
                    state.map.insert_with_key(|_| {
                        tick();
                        Hooked(50)
                    });
                }),
                ("try_insert_with_key", |state| {
                    let failed = state.map.try_insert_with_key(|_| {
                        tick();
                        Err::<Hooked, Hooked>(Hooked(50))
                    });
                    drop(failed);
                }),
                ("remove", |state| state.live.keys().for_each(|key| drop(state.map.remove(*key)))),
                ("retain", |state| {
                    state.map.retain(|_, value| {
                        tick();
                        value.0 += 1000;
                        value.0 % 3 == 0
                    })
                }),
                ("clear", |state| state.map.clear()),
                ("drain", |state| state.map.drain().for_each(drop)),
                ("drain, dropped early", |state| drop(state.map.drain().next())),
                ("clone", |state| drop(state.map.clone())),
                ("clone_from", |state| {
                    state.anew = true;
                    let mut other = Map::with_key();
                    for number in 0..20 {
                        other.insert(Hooked(number));
                    }
                    state.map.clone_from(&other);
                }),
                ("into_iter", |state| {
                    state.anew = true;
                    std::mem::take(&mut state.map).into_iter().take(3).for_each(drop);
                }),
                ("an assignment, which drops the map", |state| {
                    state.anew = true;
                    state.map = Map::with_key();
                }),
            ];

            #[test]
            fn calls() {
                for (name, call) in CALLS {
                    let panics = at_each_tick(make, call, check);
                    println!("{name}: {panics} panics");
                    assert!(panics > 0, "{name}: nothing in it panics");
                }
            }
        }
    };
}

primary!(basic, SlotMap);
primary!(dense, DenseSlotMap);
primary!(hop, HopSlotMap);

macro_rules! detaching {
    ($module:ident, $map:ident) => {
        /// A detached key stays detached, whatever panics, until it is bound again.
        #[test]
        fn $module() {
            type Map = $map<DefaultKey, Hooked>;
            let make = || {
                let mut map = Map::with_key();
                let keys: Vec<_> = (0..9).map(|number| map.insert(Hooked(number))).collect();
                for at in [1, 4, 5] {
                    map.detach(keys[at]);
                }
                (map, keys)
            };
            let calls: [(&str, fn(&mut (Map, Vec<DefaultKey>))); 7] = [
                ("detach", |(map, keys)| drop(map.detach(keys[0]))),
                ("reattach of a key that isn't detached", |(map, keys)| drop(map.try_reattach(keys[0], Hooked(7)))),
                ("reattach", |(map, keys)| {
                    map.reattach(keys[1], Hooked(70));
                    drop(map.detach(keys[1]));
                }),
                ("clear", |(map, _)| map.clear()),
                ("retain", |(map, _)| map.retain(|_, value| value.0 % 2 == 0)),
                ("drain", |(map, _)| drop(map.drain())),
                ("clone", |(map, _)| drop(map.clone())),
            ];
            for (name, call) in calls {
                let panics = at_each_tick(make, call, |(mut map, keys)| {
                    for at in [1, 4, 5] {
                        assert!(!map.contains_key(keys[at]));
                        assert!(map.try_reattach(keys[at], Hooked(7)).is_ok(), "{name}: no longer detached");
                        assert_eq!(map[keys[at]].0, 7);
                    }
                    assert_eq!(map.iter().count(), map.len());
                    let new: Vec<_> = (0..9).map(|number| map.insert(Hooked(number))).collect();
                    assert!(new.iter().all(|key| !keys.contains(key)));
                });
                assert!(panics > 0, "{name}: nothing in it panics");
            }
        }
    };
}

detaching!(detached_basic, SlotMap);
detaching!(detached_dense, DenseSlotMap);

macro_rules! side {
    ($module:ident, $map:ty, $new:expr, $hashes:expr) => {
        mod $module {
            use super::*;

            type Map = $map;

            pub struct State {
                map: Map,
                before: BTreeMap<DefaultKey, u64>,
                anew: bool,
            }

            type Call = (&'static str, fn(&mut State));

            fn make() -> State {
                let mut map: Map = $new;
                let before: BTreeMap<_, _> = (1..10).map(|index| (key(index * 2, 5), u64::from(index))).collect();
                for (key, number) in &before {
                    map.insert(*key, Hooked(*number));
                }
                State { map, before, anew: false }
            }

            fn found(map: &Map) -> BTreeMap<DefaultKey, u64> {
                map.iter().map(|(key, value)| (key, value.0)).collect()
            }

            fn agrees(map: &Map) {
                let found = found(map);
                assert_eq!((map.len(), map.iter().count(), map.is_empty()), (found.len(), found.len(), found.is_empty()));
                assert!(map.keys().eq(map.iter().map(|pair| pair.0)));
                assert_eq!(map.values().count(), found.len());
                for (key, number) in &found {
                    assert!(map.contains_key(*key) && map.get(*key).map(|value| value.0) == Some(*number));
                    let (index, version) = parts(*key);
                    assert!(!map.contains_key(super::key(index, version + 2)) && !map.contains_key(super::key(index, version ^ 2)));
                }
            }

            /// A pair that was there has its value or is gone; others come from the calls, whose values are from 100 on.
            fn follows(state: &State) {
                for (key, number) in found(&state.map) {
                    assert!(number >= 100 || state.before.get(&key) == Some(&number), "a pair that nobody put");
                }
                let absent = state.before.keys().filter(|key| state.map.get(**key).is_none());
                assert!(absent.into_iter().all(|key| !state.map.contains_key(*key)));
            }

            fn check(mut state: State) {
                agrees(&state.map);
                if !state.anew {
                    follows(&state);
                }
                for index in 1..40 {
                    state.map.insert(key(index, 7), Hooked(200));
                    assert_eq!(state.map[key(index, 7)].0, 200);
                }
                agrees(&state.map);
                state.map.retain(|key, _| parts(key).0 % 2 == 0);
                assert!(state.map.keys().all(|key| parts(key).0 % 2 == 0));
                assert!((1..20).all(|half| state.map.contains_key(key(2 * half, 7))));
                assert_eq!(state.map.remove(key(4, 7)).map(|value| value.0), Some(200));
                assert!(state.map.entry(key(4, 9)).is_some_and(|entry| entry.or_insert(Hooked(3)).0 == 3));
                agrees(&state.map);
                let all = found(&state.map);
                assert_eq!(found(&state.map.clone()), all);
                assert_eq!(state.map.drain().map(|(key, value)| (key, value.0)).collect::<BTreeMap<_, _>>(), all);
                agrees(&state.map);
                assert!(state.map.is_empty());
            }

            const CALLS: &[Call] = &[
                ("insert over a pair", |state| drop(state.map.insert(key(4, 5), Hooked(100)))),
                ("insert over an older pair", |state| drop(state.map.insert(key(4, 7), Hooked(100)))),
                ("insert of an older key", |state| drop(state.map.insert(key(4, 3), Hooked(100)))),
                ("insert over many pairs", |state| (1..10).for_each(|half| drop(state.map.insert(key(2 * half, 7), Hooked(100))))),
                ("remove", |state| state.before.keys().for_each(|key| drop(state.map.remove(*key)))),
                ("retain", |state| {
                    state.map.retain(|_, value| {
                        tick();
                        value.0 % 3 == 0
                    })
                }),
                ("clear", |state| state.map.clear()),
                ("drain", |state| state.map.drain().for_each(drop)),
                ("drain, dropped early", |state| drop(state.map.drain().next())),
                ("clone", |state| drop(state.map.clone())),
                ("clone_from", |state| {
                    state.anew = true;
                    let mut other: Map = $new;
                    (1..30).for_each(|index| drop(other.insert(key(index, 3), Hooked(1))));
                    state.map.clone_from(&other);
                }),
                ("extend", |state| state.map.extend(ticking((1..30).map(|index| (key(index, 7), Hooked(100)))))),
                ("from_iter", |state| {
                    state.anew = true;
                    state.map = ticking((1..30).map(|index| (key(index, 7), Hooked(100)))).collect();
                }),
                ("==", |state| assert!(state.map == state.map)),
                ("entry, or_insert_with", |state| {
                    for index in 1..30 {
                        state.map.entry(key(index, 7)).unwrap().or_insert_with(|| {
                            tick();
                            Hooked(100)
                        });
                    }
                }),
                ("entry, or_default", |state| assert_eq!(state.map.entry(key(3, 7)).unwrap().or_default().0, 100)),
                ("entry, and_modify", |state| {
                    let entry = state.map.entry(key(4, 5)).unwrap().and_modify(|value| {
                        value.0 = 100;
                        tick();
                    });
                    entry.or_insert(Hooked(100)).0 = 100;
                }),
                ("an occupied entry", |state| {
                    use occupied::Entry::Occupied;
                    for (at, key) in state.before.keys().enumerate() {
                        match state.map.entry(*key) {
                            Some(Occupied(mut entry)) if at % 2 == 0 => drop(entry.insert(Hooked(100))),
                            Some(Occupied(entry)) => drop(entry.remove()),
                            _ => panic!("the key is there"),
                        }
                    }
                }),
                ("into_iter", |state| std::mem::replace(&mut state.map, $new).into_iter().take(3).for_each(drop)),
            ];

            /// Calls that run nothing of a caller's but the hasher.
            const HASHING: &[Call] = &[
                ("inserts that grow the map", |state| (20..90).for_each(|index| drop(state.map.insert(key(index, 1), Hooked(100))))),
                ("get", |state| assert!(state.before.iter().all(|(key, number)| state.map.get(*key).map(|value| value.0) == Some(*number)))),
                ("contains_key", |state| assert!(state.before.keys().all(|key| state.map.contains_key(*key)))),
                ("get_mut", |state| assert!(state.before.keys().all(|key| state.map.get_mut(*key).is_some()))),
                ("get_disjoint_mut", |state| assert!(state.map.get_disjoint_mut([key(2, 5), key(4, 5)]).is_some())),
                ("entry", |state| assert!(state.map.entry(key(4, 5)).is_some_and(|entry| entry.key() == key(4, 5)))),
            ];

            #[test]
            fn calls() {
                let hashing = if $hashes { HASHING } else { &[] };
                for (name, call) in CALLS.iter().chain(hashing) {
                    let panics = at_each_tick(make, call, check);
                    println!("{name}: {panics} panics");
                    assert!(panics > 0, "{name}: nothing in it panics");
                }
            }

            use slotmap_proved::$module as occupied;
        }
    };
}

side!(secondary, SecondaryMap<DefaultKey, Hooked>, SecondaryMap::new(), false);
side!(sparse_secondary, SparseSecondaryMap<DefaultKey, Hooked, MakeTicking>, SparseSecondaryMap::with_hasher(MakeTicking), true);
