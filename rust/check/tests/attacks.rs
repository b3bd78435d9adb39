//! Safe Rust that would have a stale key find another value: keys that no map made, drains and entries that are forgotten, keys, hashers
//! and iterators that lie, versions at their end, numbers too great.

#[path = "attacks/liars.rs"]
mod liars;
#[path = "attacks/places.rs"]
mod places;

use slotmap_proved::serial::SlotRecord;
use slotmap_proved::{fallible, DefaultKey, DenseSlotMap, HopSlotMap, Key, KeyData, SecondaryMap, SlotMap, SparseSecondaryMap};
use std::collections::hash_map::RandomState;
use std::collections::{BTreeMap, BTreeSet};
use std::mem;
use std::panic::{catch_unwind, AssertUnwindSafe};

const LAST: u32 = u32::MAX;

fn key(index: u32, version: u32) -> DefaultKey {
    DefaultKey::from(KeyData::from_ffi(u64::from(version) << 32 | u64::from(index)))
}

/// Keys of all shapes: small and great indices and versions, and both null keys of slotmap.
fn made_up() -> impl Iterator<Item = DefaultKey> {
    let indices = [0, 1, 2, 3, 4, 63, 64, 65, 1 << 16, 1 << 31, LAST - 8, LAST - 1, LAST];
    let versions = [0, 1, 2, 3, 4, 5, 7, (1 << 31) - 1, 1 << 31, (1 << 31) + 1, LAST - 2, LAST - 1, LAST];
    indices.into_iter().flat_map(move |index| versions.map(|version| key(index, version)))
}

/// What a call says as it panics.
fn reason<R>(call: impl FnOnce() -> R) -> Option<String> {
    let said = catch_unwind(AssertUnwindSafe(call)).err()?;
    let text = said.downcast_ref::<String>().cloned();
    text.or_else(|| said.downcast_ref::<&str>().map(|text| text.to_string()))
}

/// The calls that look a key up find its value if it is live, and nothing else: not even by a key that nobody made.
macro_rules! check_lookups {
    ($map:expr, $live:expr, $name:literal) => {
        for key in made_up().chain($live.keys().copied().collect::<Vec<_>>()) {
            let mut value = $live.get(&key).copied();
            assert_eq!(($map.get(key).copied(), $map.contains_key(key)), (value, value.is_some()), "{key:?}");
            assert_eq!($map.get_mut(key).copied(), value, "{key:?}");
            assert_eq!($map.get_disjoint_mut([key]), value.as_mut().map(|value| [value]), "{key:?}");
            assert_eq!($map.get_disjoint_mut([key, key]), None, "{key:?}");
            if value.is_none() {
                assert_eq!(reason(|| $map[key]).as_deref(), Some(concat!("invalid ", $name, " key used")), "{key:?}");
                assert_eq!($map.remove(key), None, "{key:?}");
            }
        }
        assert_eq!($map.get_disjoint_mut([]), Some([]));
        let keys: Vec<_> = $live.keys().copied().collect();
        if let [first, .., last] = keys[..] {
            assert_eq!($map.get_disjoint_mut([last, first]).map(|[a, b]| (*a, *b)), Some(($live[&last], $live[&first])));
            for stale in made_up().filter(|key| !$live.contains_key(key)) {
                assert_eq!($map.get_disjoint_mut([first, stale, last]), None, "{stale:?}");
            }
        }
        assert_eq!($map.iter().map(|(key, value)| (key, *value)).collect::<BTreeMap<_, _>>(), $live);
        assert_eq!(($map.len(), $map.iter_mut().len(), $map.values_mut().count()), ($live.len(), $live.len(), $live.len()));
    };
}

macro_rules! primary {
    ($module:ident, $map:ident, $name:literal) => {
        mod $module {
            use super::*;

            type Map = $map<DefaultKey, u64>;

            /// Inserts and removes for a while. No key comes twice, and no removed one finds a value.
            fn use_on(map: &mut Map, live: &mut BTreeMap<DefaultKey, u64>, gone: &mut BTreeSet<DefaultKey>) {
                for round in 0..6 {
                    for value in 0..4 {
                        let key = map.insert(100 * round + value);
                        assert!(!gone.contains(&key) && live.insert(key, 100 * round + value).is_none(), "{key:?} comes twice");
                    }
                    for key in live.keys().copied().step_by(2).collect::<Vec<_>>() {
                        assert_eq!((map.remove(key), map.remove(key)), (live.remove(&key), None));
                        gone.insert(key);
                    }
                    assert!(gone.iter().all(|key| map.get(*key).is_none() && !map.contains_key(*key)));
                    check_lookups!(map, *live, $name);
                }
            }

            #[test]
            fn made_up_keys() {
                let (mut map, mut live, mut gone) = (Map::with_key(), BTreeMap::new(), BTreeSet::new());
                check_lookups!(map, live, $name);
                use_on(&mut map, &mut live, &mut gone);
            }

            /// Lists of slots whose versions are at their end, through the proved map and back.
            #[test]
            fn versions_at_their_end() {
                let ends = [0, 1, 2, LAST - 3, LAST - 2, LAST - 1, LAST];
                for (at, second) in ends.into_iter().flat_map(|first| ends.map(|second| (first, second))).enumerate() {
                    let versions = [0, second.0, second.1, ends[at % 7]];
                    let list: Vec<_> = versions.map(|version| SlotRecord { value: (version % 2 == 1).then_some(7), version }).into();
                    let proved: fallible::$map<DefaultKey, u64> = Map::from_slots(list).expect("a list of slots").into();
                    let mut map = Map::from(proved);
                    let indexed = || (0..).zip(versions);
                    let mut live: BTreeMap<_, _> = indexed().filter(|slot| slot.1 % 2 == 1).map(|slot| (key(slot.0, slot.1), 7)).collect();
                    // A slot has had each odd version below that of the list, and version 0 says that it has had all.
                    let before = indexed().filter(|slot| slot.0 > 0).map(|(index, version)| key(index, version.wrapping_sub(1) | 1));
                    let mut gone: BTreeSet<_> = before.filter(|key| !live.contains_key(key)).collect();
                    use_on(&mut map, &mut live, &mut gone);
                }
            }

            #[test]
            fn forgotten_drains() {
                for taken in 0..9 {
                    let (mut map, mut live, mut gone) = (Map::with_key(), BTreeMap::new(), BTreeSet::new());
                    use_on(&mut map, &mut live, &mut gone);
                    let mut drain = map.drain();
                    for (key, value) in drain.by_ref().take(taken) {
                        assert_eq!(live.remove(&key), Some(value));
                        gone.insert(key);
                    }
                    mem::forget(drain);
                    mem::forget((map.iter_mut(), ()));
                    use_on(&mut map, &mut live, &mut gone);
                }
            }

            #[test]
            fn numbers_too_great() {
                let mut map = Map::with_key();
                let key = map.insert(5);
                for number in [1 << 32, (1 << 32) - 1, usize::MAX, usize::MAX - 1] {
                    assert_eq!(reason(|| Map::with_capacity(number)).as_deref(), Some("capacity overflow"));
                    assert_eq!(reason(|| map.reserve(number)).as_deref(), Some("capacity overflow"));
                    assert!(Map::try_with_capacity_and_key(number).is_err() && map.try_reserve(number).is_err());
                    assert_eq!((map.len(), map[key]), (1, 5));
                }
            }

            /// A map that takes another one's place has that one's keys, and no others.
            #[test]
            fn maps_that_change_places() {
                let (mut map, mut live, mut gone) = (Map::with_key(), BTreeMap::new(), BTreeSet::new());
                use_on(&mut map, &mut live, &mut gone);
                let mut other = map.clone();
                let (mut other_live, mut other_gone) = (live.clone(), gone.clone());
                let seen = other.insert_with_key(|key| {
                    mem::swap(&mut map, &mut Map::with_key());
                    key.data().as_ffi()
                });
                other_live.insert(seen, seen.data().as_ffi());
                assert!(map.is_empty() && live.keys().all(|key| !map.contains_key(*key)));
                map.clone_from(&other.clone());
                use_on(&mut map, &mut other_live.clone(), &mut gone);
                use_on(&mut other, &mut other_live, &mut other_gone);
                let mut taken = mem::take(&mut other);
                use_on(&mut taken, &mut other_live, &mut other_gone);
                use_on(&mut other, &mut BTreeMap::new(), &mut BTreeSet::new());
            }
        }
    };
}

primary!(slot_map, SlotMap, "SlotMap");
primary!(dense_slot_map, DenseSlotMap, "DenseSlotMap");
primary!(hop_slot_map, HopSlotMap, "HopSlotMap");

macro_rules! detached {
    ($test:ident, $map:ident) => {
        #[test]
        fn $test() {
            let mut map = $map::new();
            let keys = [1, 2, 3].map(|value| map.insert(value));
            assert_eq!(map.detach(keys[1]), Some(2));
            for key in made_up().chain([keys[0], keys[2]]).filter(|key| *key != keys[1]) {
                assert_eq!(reason(|| map.reattach(key, 9)).as_deref(), Some("key is not detached"), "{key:?}");
                assert_eq!((map.len(), map.get(keys[1]).is_none()), (2, true), "{key:?}");
            }
            let proved: fallible::$map<DefaultKey, i32> = map.into();
            let mut map = $map::from(proved);
            map.clear();
            assert!((0..9).map(|value| map.insert(value)).all(|key| key.data().idx() != keys[1].data().idx()));
            map.reattach(keys[1], 5);
            assert_eq!((map[keys[1]], map.len()), (5, 10));
            assert!(map.try_reattach(keys[1], 6).is_err());
        }
    };
}

detached!(detached_keys_of_slot_maps, SlotMap);
detached!(detached_keys_of_dense_slot_maps, DenseSlotMap);

/// What is known of a secondary map: at each index a version and a value.
type Side = BTreeMap<u32, (u32, u64)>;

/// Whether version `a` is older than `b`, as versions wrap around.
fn is_older(a: u32, b: u32) -> bool {
    a.wrapping_sub(b) >= 1 << 31
}

/// Puts a value as `insert` is said to.
fn put(side: &mut Side, key: DefaultKey, value: u64) -> Option<u64> {
    let (index, version) = (key.data().idx(), key.data().version());
    match side.get(&index).copied() {
        _ if key.is_null() => None,
        Some((there, before)) if there == version => side.insert(index, (version, value)).map(|_| before),
        Some((there, _)) if is_older(version, there) => None,
        _ => side.insert(index, (version, value)).and(None),
    }
}

fn pairs(side: &Side) -> BTreeMap<DefaultKey, u64> {
    side.iter().map(|(index, (version, value))| (key(*index, *version), *value)).collect()
}

macro_rules! side {
    ($module:ident, $map:ident, $name:literal, $read:expr) => {
        mod $module {
            use super::*;
            use slotmap_proved::$module::Entry;

            type Map = $map<DefaultKey, u64>;

            /// Keys of slots that fit in memory.
            fn small() -> impl Iterator<Item = DefaultKey> {
                made_up().filter(|key| key.data().idx() < 1 << 10 || key.is_null())
            }

            #[test]
            fn made_up_keys() {
                let (mut map, mut side) = (Map::new(), Side::new());
                check_lookups!(map, pairs(&side), $name);
                for round in 0..3 {
                    for (at, key) in small().enumerate().filter(|(at, _)| (at + round) % 3 > 0) {
                        let value = at as u64;
                        assert_eq!(map.insert(key, value), put(&mut side, key, value), "{key:?}");
                        // An entry that is forgotten takes nothing out but a pair that is older than its key.
                        if let Some(Entry::Occupied(entry)) = map.entry(key) {
                            mem::forget(entry);
                        }
                    }
                    check_lookups!(map, pairs(&side), $name);
                    assert_eq!(map, map.clone());
                }
            }

            #[test]
            fn forgotten_drains() {
                for taken in 0..9 {
                    let mut map: Map = small().zip(0..).collect();
                    let mut live: BTreeMap<_, _> = map.iter().map(|(key, value)| (key, *value)).collect();
                    let mut drain = map.drain();
                    for (key, value) in drain.by_ref().take(taken) {
                        assert_eq!(live.remove(&key), Some(value));
                    }
                    mem::forget(drain);
                    if stringify!($map) == "SparseSecondaryMap" {
                        live.clear();
                    }
                    check_lookups!(map, live, $name);
                    map.extend(small().zip(100..));
                    assert!(small().all(|key| map.get(key).map_or(true, |value| *value >= 100 || live.contains_key(&key))));
                }
            }

            /// Iterators that say too much of their length, or that panic instead of ending: the pairs before are in the map.
            #[test]
            fn iterators_that_lie() {
                struct Lying<I>(I, (usize, Option<usize>));

                impl<I: Iterator> Iterator for Lying<I> {
                    type Item = I::Item;

                    fn next(&mut self) -> Option<I::Item> {
                        self.0.next()
                    }

                    fn size_hint(&self) -> (usize, Option<usize>) {
                        self.1
                    }
                }

                let expected: Map = small().zip(0..).collect();
                for hint in [(usize::MAX, None), (0, Some(0)), (9, Some(2)), (usize::MAX, Some(usize::MAX))] {
                    let mut map: Map = Lying(small().zip(0..), hint).collect();
                    map.extend(Lying(expected.iter(), hint));
                    assert_eq!(map, expected);
                    let endless = (0..).map(|at| if at == 500 { panic!("no more") } else { (key(at % 50, 99), 1) });
                    assert_eq!(reason(|| map.extend(Lying(endless, hint))).as_deref(), Some("no more"));
                    assert!((4..50).all(|index| map.get(key(index, 99)) == Some(&1)));
                }
            }

            #[test]
            fn versions_at_their_end() {
                let list = || [0, LAST, LAST - 2, 1].map(|version| SlotRecord { value: (version > 0).then_some(7), version }).into();
                let proved = fallible::$map::from($read(list()).expect("a list of slots"));
                let (mut map, mut side) = (Map::from(proved), Side::from([(1, (LAST, 7)), (2, (LAST - 2, 7)), (3, (1, 7))]));
                for key in small() {
                    assert_eq!(map.insert(key, 5), put(&mut side, key, 5), "{key:?}");
                }
                check_lookups!(map, pairs(&side), $name);
            }
        }
    };
}

side!(secondary, SecondaryMap, "SecondaryMap", Map::from_slots);
side!(sparse_secondary, SparseSecondaryMap, "SparseSecondaryMap", |list| Map::from_slots_with_hasher(list, RandomState::new()));

#[test]
fn numbers_too_great_for_secondary_maps() {
    let mut side: SecondaryMap<DefaultKey, u64> = [(key(2, 3), 5)].into_iter().collect();
    let mut sparse: SparseSecondaryMap<DefaultKey, u64> = [(key(2, 3), 5)].into_iter().collect();
    for number in [1 << 32, usize::MAX, usize::MAX - 1] {
        assert_eq!(reason(|| SecondaryMap::<DefaultKey, u64>::with_capacity(number)).as_deref(), Some("capacity overflow"));
        assert_eq!(reason(|| SparseSecondaryMap::<DefaultKey, u64>::with_capacity(number)).as_deref(), Some("capacity overflow"));
        assert_eq!(reason(|| side.set_capacity(number)).as_deref(), Some("capacity overflow"));
        assert_eq!(reason(|| sparse.reserve(number)).as_deref(), Some("capacity overflow"));
        assert!(side.try_set_capacity(number).is_err() && sparse.try_reserve(number).is_err());
        assert_eq!((side[key(2, 3)], sparse[key(2, 3)], side.len(), sparse.len()), (5, 5, 1, 1));
    }
}

/// A world with two tables of one type: a component of the first is none of the second.
#[test]
fn two_tables_of_one_type() {
    use slotmap_proved::entities::{First, Second, World};
    type Numbers = SparseSecondaryMap<DefaultKey, u64>;
    let mut world: World<DefaultKey, &str, (Numbers, (Numbers, ()))> = World::with_key(slotmap_proved::Global).expect("memory");
    let [a, b] = ["a", "b"].map(|name| world.spawn(name).expect("memory"));
    assert!(world.attach::<First>(a, 1).is_ok() && world.attach::<Second>(b, 2).is_ok());
    let found = |world: &World<_, _, _>, key| (world.component::<First>(key).copied(), world.component::<Second>(key).copied());
    assert_eq!((found(&world, a), found(&world, b)), ((Some(1), None), (None, Some(2))));
    assert!(world.attach::<Second>(a, 3).is_ok());
    assert_eq!((world.detach::<First>(a), found(&world, a)), (Some(1), (None, Some(3))));
    world.despawn(a);
    let c = world.spawn("c").expect("memory");
    assert_eq!((c.data().idx(), found(&world, c), found(&world, a)), (a.data().idx(), (None, None), (None, None)));
    assert!(made_up().filter(|key| ![b, c].contains(key)).all(|key| found(&world, key) == (None, None) && world.get(key).is_none()));
}
