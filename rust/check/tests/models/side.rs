//! `map`, `copy` and `made` are one of SecondaryMap, SparseSecondaryMap; `fallible` is the proved map inside. The model is a BTreeMap of
//! the versions and the values by index.

use super::common::keys::{key_of, parts};
use super::common::random::Random;
use super::common::seeds::each_seed;
use slotmap_proved::errors::{NoEntry, ReserveError};
use slotmap_proved::fallible::OrPut;
use slotmap_proved::serial::SlotRecord;
use slotmap_proved::{DefaultKey, Global, Key, NodeKey, SecondaryMap, SparseSecondaryMap};
use std::collections::BTreeMap;

const SEEDS: u64 = 20;
const CALLS: usize = 10_000;
/// The keys of the tests have these indices.
const INDICES: usize = 24;

type Pair = (DefaultKey, u64);

/// The version and the value of each index.
#[derive(Default)]
struct Model(BTreeMap<u32, (u32, u64)>);

/// Whether one version comes before another: they wrap around, and of two at the greatest distance each is older.
fn is_older(version: u32, other: u32) -> bool {
    let ahead = other.wrapping_sub(version);
    ahead != 0 && ahead <= 1 << 31
}

impl Model {
    fn get(&self, key: DefaultKey) -> Option<u64> {
        let (index, version) = parts(key);
        self.0.get(&index).filter(|known| known.0 == version).map(|known| known.1)
    }

    fn lend(&mut self, key: DefaultKey) -> Option<&mut u64> {
        let (index, version) = parts(key);
        self.0.get_mut(&index).filter(|known| known.0 == version).map(|known| &mut known.1)
    }

    fn remove(&mut self, key: DefaultKey) -> Option<u64> {
        let value = self.get(key)?;
        self.0.remove(&parts(key).0);
        Some(value)
    }

    /// Whether a key is null, or older than the one at its index.
    fn refuses(&self, key: DefaultKey) -> bool {
        let (index, version) = parts(key);
        key.is_null() || self.0.get(&index).map_or(false, |known| is_older(version, known.0))
    }

    fn insert(&mut self, key: DefaultKey, value: u64) -> Option<u64> {
        let before = self.get(key);
        if !self.refuses(key) {
            let (index, version) = parts(key);
            self.0.insert(index, (version, value));
        }
        before
    }

    /// Takes out the pair at a key's index, which is older.
    fn take_older(&mut self, key: DefaultKey) {
        assert!(!self.refuses(key) && self.get(key).is_none());
        self.0.remove(&parts(key).0);
    }

    fn pairs(&self) -> Vec<Pair> {
        self.0.iter().map(|(index, (version, value))| (key_of(*index, *version), *value)).collect()
    }
}

/// A map and what it is to have, for one kind of map. The order of a sparse map's walks is told nowhere: they are sorted.
macro_rules! side {
    ($module:ident, $map:ident, more: [$($more:ident),*]) => {
        mod $module {
            use super::*;
            use slotmap_proved::$module::Entry;

            type Map = $map<DefaultKey, u64>;

            pub struct Beside<'a> {
                pub random: &'a mut Random,
                pub map: Map,
                pub model: Model,
            }

            /// The pairs by ascending index. Those of a SecondaryMap are so already.
            fn sorted(pairs: impl Iterator<Item = Pair>) -> Vec<Pair> {
                let mut all: Vec<Pair> = pairs.collect();
                if stringify!($map) == "SparseSecondaryMap" {
                    all.sort_by_key(|pair| parts(pair.0).0);
                }
                all
            }

            impl Beside<'_> {
                pub fn key(&mut self) -> DefaultKey {
                    let index = 1 + self.random.below(INDICES) as u32;
                    let known = self.model.0.get(&index).map_or(1, |known| known.0);
                    let version = match self.random.below(8) {
                        0 => known.wrapping_add(2),
                        1 => known.wrapping_sub(2),
                        2 => *self.random.pick(&[1, 3, u32::MAX, 1 << 31 | 1]),
                        _ => known,
                    };
                    if self.random.one_of(30) { DefaultKey::null() } else { key_of(index, version) }
                }

                fn value(&mut self) -> u64 {
                    self.random.draw() % 100
                }

                fn insert(&mut self) {
                    let (key, value) = (self.key(), self.value());
                    let before = match self.random.below(3) {
                        0 => self.map.insert(key, value),
                        1 => self.map.try_insert(key, value).ok().expect("memory"),
                        _ => self.map.as_mut().insert(key, value).ok().expect("memory"),
                    };
                    assert_eq!(before, self.model.insert(key, value));
                }

                fn remove(&mut self) {
                    let key = self.key();
                    assert_eq!(self.map.remove(key), self.model.remove(key));
                }

                fn or_put(&mut self) {
                    let (key, value) = (self.key(), self.value());
                    match self.map.as_mut().or_put(key, value) {
                        OrPut::Placed => {
                            assert!(!self.model.refuses(key) && self.model.get(key).is_none());
                            self.model.insert(key, value);
                        }
                        OrPut::Kept(back) => assert!(back == value && self.model.get(key).is_some()),
                        OrPut::NoEntry(back) => assert!(back == value && self.model.refuses(key)),
                        OrPut::Memory(_) => panic!("memory"),
                    }
                }

                fn look(&mut self) {
                    let (key, value) = (self.key(), self.value());
                    let wanted = self.model.get(key);
                    assert_eq!((self.map.contains_key(key), self.map.get(key).copied()), (wanted.is_some(), wanted));
                    assert_eq!(self.map.get_mut(key).copied(), wanted);
                    if let (Some(wanted), Some(known)) = (wanted, self.model.lend(key)) {
                        assert_eq!((self.map[key], *self.map.get_unchecked(key)), (wanted, wanted));
                        match self.random.below(3) {
                            0 => *self.map.get_mut(key).expect("it is there") = value,
                            1 => self.map[key] = value,
                            _ => *self.map.get_unchecked_mut(key) = value,
                        }
                        *known = value;
                    }
                }

                fn disjoint(&mut self) {
                    let keys = [self.key(), self.key()];
                    let wanted = match keys.map(|key| self.model.get(key)) {
                        [Some(a), Some(b)] if keys[0] != keys[1] => Some([a, b]),
                        _ => None,
                    };
                    let lent = self.map.get_disjoint_mut(keys);
                    assert_eq!(lent.map(|lent| lent.map(|value| *value)), wanted);
                    assert_eq!(self.map.as_mut().replace_disjoint(keys, [1, 2]), wanted.ok_or([1, 2]));
                    if wanted.is_some() {
                        let [first, second] = self.map.get_disjoint_unchecked_mut(keys);
                        assert_eq!((*first, *second), (1, 2));
                        (*first, *second) = (3, 4);
                        *self.model.lend(keys[0]).expect("it is there") = 3;
                        *self.model.lend(keys[1]).expect("it is there") = 4;
                    }
                }

                /// The entry of a key that has a value.
                fn occupied(&mut self) {
                    let (key, value) = (self.key(), self.value());
                    let mut entry = match self.map.entry(key) {
                        Some(Entry::Occupied(entry)) => entry,
                        Some(Entry::Vacant(_)) if stringify!($map) == "SparseSecondaryMap" => return self.model.take_older(key),
                        _ => return assert_eq!(self.model.get(key), None),
                    };
                    let before = self.model.get(key).expect("it is there");
                    assert_eq!((entry.key(), *entry.get(), *entry.get_mut()), (key, before, before));
                    assert!(format!("{entry:?}").contains(&before.to_string()));
                    match self.random.below(4) {
                        0 => assert_eq!(entry.insert(value), before),
                        1 => *entry.into_mut() = value,
                        2 => assert_eq!((entry.remove(), self.model.remove(key)), (before, Some(before))),
                        _ => assert_eq!((entry.remove_entry(), self.model.remove(key)), ((key, before), Some(before))),
                    }
                    if let Some(known) = self.model.lend(key) {
                        *known = value;
                    }
                }

                /// The entry of any key. That of a newer key than the one at its index is vacant, and a sparse map takes the older pair
                /// out at once.
                fn enter(&mut self) {
                    let (key, value) = (self.key(), self.value());
                    match self.map.try_entry(key) {
                        Err(NoEntry::Older) => return assert!(self.model.refuses(key)),
                        Err(NoEntry::Memory) => panic!("memory"),
                        Ok(entry) => {
                            let kind = if self.model.get(key).is_some() { "Occupied" } else { "Vacant" };
                            assert_eq!((entry.key(), format!("{entry:?}").starts_with(kind)), (key, true));
                            let entry = entry.and_modify(|known| *known += 1);
                            match self.random.below(4) {
                                0 => *entry.or_insert(value) += 1,
                                1 => *entry.or_insert_with(|| value) += 1,
                                2 => *entry.or_default() += 1 + value,
                                _ => match entry {
                                    Entry::Occupied(mut entry) => *entry.get_mut() += 1,
                                    Entry::Vacant(entry) => {
                                        assert!(entry.key() == key && format!("{entry:?}").contains(&format!("{key:?}")));
                                        *entry.insert(value) += 1;
                                    }
                                },
                            }
                        }
                    }
                    let wanted = self.model.get(key).map(|known| known + 2);
                    // `or_default` adds the value to what the key had, and to nothing.
                    let is = self.map[key];
                    assert!(wanted.map_or(is == value + 1, |wanted| is == wanted || is == wanted + value));
                    self.model.insert(key, is);
                }

                fn look_at_all(&self) {
                    let count = self.model.0.len();
                    assert_eq!((self.map.len(), self.map.is_empty()), (count, count == 0));
                    assert!(self.map.capacity() >= count);
                }

                fn walk(&mut self) {
                    let pairs = self.model.pairs();
                    assert_eq!(sorted(self.map.iter().map(|(key, value)| (key, *value))), pairs);
                    assert_eq!(sorted((&self.map).into_iter().map(|(key, value)| (key, *value))), pairs);
                    assert!(self.map.keys().eq(self.map.iter().map(|pair| pair.0)));
                    assert!(self.map.values().eq(self.map.iter().map(|pair| pair.1)));
                    let (mut iter, mut left) = (self.map.iter(), pairs.len());
                    while left > 0 {
                        assert_eq!((iter.len(), iter.size_hint(), iter.clone().count()), (left, (left, Some(left)), left));
                        assert!(iter.next().is_some());
                        left -= 1;
                    }
                    assert_eq!((iter.next(), self.map.keys().len(), self.map.values().len()), (None, pairs.len(), pairs.len()));
                    let shown: Vec<String> = self.map.iter().map(|pair| format!("{:?}: {}", pair.0, pair.1)).collect();
                    assert_eq!(format!("{:?}", self.map), format!("{{{}}}", shown.join(", ")));
                    let sum: u64 = pairs.iter().map(|pair| pair.1).sum();
                    assert_eq!((self.map.iter_mut().len(), self.map.values_mut().len()), (pairs.len(), pairs.len()));
                    self.map.iter_mut().for_each(|(_, value)| *value += 1);
                    self.map.values_mut().for_each(|value| *value += 1);
                    assert_eq!((&mut self.map).into_iter().map(|pair| *pair.1).sum::<u64>(), sum + 2 * pairs.len() as u64);
                    self.model.0.values_mut().for_each(|known| known.1 += 2);
                }

                fn retain(&mut self) {
                    let (divisor, pairs, mut seen) = (2 + self.value() % 4, self.model.pairs(), Vec::new());
                    self.map.retain(|key, value| {
                        seen.push((key, *value));
                        *value += 1;
                        *value % divisor != 0
                    });
                    assert_eq!(sorted(seen.into_iter()), pairs);
                    self.model.0.values_mut().for_each(|known| known.1 += 1);
                    self.model.0.retain(|_, known| known.1 % divisor != 0);
                }

                /// Takes some pairs out, and drops the iterator: the rest goes too.
                fn drain(&mut self) {
                    let (pairs, mut drain) = (self.model.pairs(), self.map.drain());
                    let count = self.random.below(pairs.len() + 2);
                    assert_eq!((drain.len(), drain.size_hint()), (pairs.len(), (pairs.len(), Some(pairs.len()))));
                    let taken = sorted(drain.by_ref().take(count));
                    assert!(taken.len() == count.min(pairs.len()) && taken.iter().all(|pair| pairs.contains(pair)));
                    drop(drain);
                    self.model.0.clear();
                }

                fn extend(&mut self) {
                    let pairs: Vec<Pair> = (0..self.random.below(6)).map(|_| (self.key(), self.value())).collect();
                    match self.random.below(4) {
                        0 => self.map.extend(pairs.iter().copied()),
                        1 => self.map.extend(pairs.iter().map(|pair| (pair.0, &pair.1))),
                        2 => assert!(self.map.as_mut().extend(pairs.iter().copied()).is_ok()),
                        _ => assert!(self.map.as_mut().extend_refs(pairs.iter().map(|pair| (pair.0, &pair.1))).is_ok()),
                    }
                    for (key, value) in pairs {
                        self.model.insert(key, value);
                    }
                }

                /// A copy is equal to the map. The test goes on with the copy.
                fn copy(&mut self) {
                    let mut copy = match self.random.below(4) {
                        0 => self.map.clone(),
                        1 => self.map.try_clone().expect("memory"),
                        2 => self.map.iter().map(|(key, value)| (key, *value)).collect(),
                        _ => Map::from_iter(self.map.iter().map(|(key, value)| (key, *value))),
                    };
                    assert_eq!(copy, self.map);
                    copy.clone_from(&self.map);
                    assert_eq!(copy, self.map);
                    let (pairs, key) = (self.model.pairs(), self.key());
                    copy.insert(key, 1000);
                    self.model.insert(key, 1000);
                    assert_eq!(copy != self.map, self.model.pairs() != pairs);
                    let old = std::mem::replace(&mut self.map, copy);
                    let iter = old.into_iter();
                    assert_eq!(iter.len(), pairs.len());
                    assert_eq!(sorted(iter), pairs);
                }

                fn clear(&mut self) {
                    self.map.clear();
                    self.model.0.clear();
                }

                fn call(&mut self) {
                    let more: &[fn(&mut Self)] = &[$(Self::$more),*];
                    match self.random.below(64) {
                        0..=15 => self.insert(),
                        16..=24 => self.remove(),
                        25..=29 => self.or_put(),
                        30..=36 => self.look(),
                        37..=39 => self.disjoint(),
                        40..=44 => self.occupied(),
                        45..=49 => self.enter(),
                        50..=53 => self.walk(),
                        54 if self.random.one_of(2) => self.retain(),
                        55 if self.random.one_of(2) => self.drain(),
                        56 => self.extend(),
                        57 | 58 => self.copy(),
                        59 if self.random.one_of(4) => self.clear(),
                        _ => self.random.pick(more)(self),
                    }
                    self.look_at_all();
                }
            }

            #[test]
            fn beside_a_map() {
                each_seed(stringify!($map), SEEDS, |random| {
                    let mut beside = Beside { random, map: Map::new(), model: Model::default() };
                    for _ in 0..CALLS {
                        beside.call();
                    }
                    beside.walk();
                });
            }

            /// The proved map and the one with slotmap's names turn into each other.
            #[test]
            fn conversions() {
                let mut map = Map::default();
                map.insert(key_of(3, 1), 5);
                let mut fallible = slotmap_proved::fallible::$map::from(map);
                assert_eq!(fallible.get(key_of(3, 1)), Some(&5));
                assert!(fallible.insert(key_of(4, 1), 6).is_ok());
                let map = $map::from(fallible);
                assert_eq!((map.len(), map.as_ref().len(), map[key_of(4, 1)]), (2, 2, 6));
                let fallible = slotmap_proved::fallible::$map::from_iter(Global, [(key_of::<DefaultKey>(3, 1), 5)]).ok().expect("memory");
                assert_eq!(fallible.len(), 1);
            }
        }
    };
}

side!(secondary, SecondaryMap, more: [list, set_capacity, key_at]);
side!(sparse_secondary, SparseSecondaryMap, more: [list, reserve, try_insert]);

/// The records say what the model has at each index.
fn assert_list(list: &[SlotRecord<u64>], model: &Model) {
    for (index, slot) in (0..).zip(list) {
        assert_eq!(slot.value, model.0.get(&index).map(|known| known.1));
        assert!(slot.value.is_none() || model.0[&index].0 == slot.version);
    }
    assert_eq!(list.iter().filter(|slot| slot.value.is_some()).count(), model.0.len());
}

impl secondary::Beside<'_> {
    fn list(&mut self) {
        let list = self.map.to_slots().expect("memory");
        assert_list(&list, &self.model);
        let made = SecondaryMap::from_slots(list).expect("it is a list of slots");
        assert_eq!(made, self.map);
        self.map = made;
    }

    fn set_capacity(&mut self) {
        let capacity = self.random.below(2 * INDICES);
        match self.random.below(4) {
            0 => self.map.set_capacity(capacity),
            1 => assert!(self.map.try_set_capacity(capacity).is_ok()),
            2 => assert!(self.map.as_mut().set_capacity(capacity).is_ok()),
            _ => assert!(matches!(self.map.as_mut().set_capacity(usize::MAX), Err(ReserveError::TooGreat))),
        }
    }

    fn key_at(&mut self) {
        let index = self.random.below(2 * INDICES);
        let known = self.model.0.get(&(index as u32)).map(|known| key_of(index as u32, known.0));
        assert_eq!(self.map.as_ref().key_at(index), known);
    }
}

impl sparse_secondary::Beside<'_> {
    fn list(&mut self) {
        let list = self.map.to_slots().expect("memory");
        assert_list(&list, &self.model);
        let made = SparseSecondaryMap::from_slots_with_hasher(list, Default::default()).expect("it is a list of slots");
        assert_eq!(made, self.map);
        self.map = made;
    }

    /// The entry that can fail to put a value for want of memory.
    fn try_insert(&mut self) {
        let (key, value) = (self.key(), self.random.draw() % 100);
        if let Some(slotmap_proved::sparse_secondary::Entry::Vacant(entry)) = self.map.entry(key) {
            assert_eq!(entry.try_insert(value).ok(), Some(&mut { value }));
            self.model.insert(key, value);
        }
    }

    fn reserve(&mut self) {
        let additional = self.random.below(2 * INDICES);
        match self.random.below(4) {
            0 => self.map.reserve(additional),
            1 => assert!(self.map.try_reserve(additional).is_ok()),
            2 => assert!(self.map.as_mut().reserve(additional).is_ok()),
            _ => return assert!(matches!(self.map.as_mut().reserve(usize::MAX), Err(ReserveError::TooGreat))),
        }
        assert!(self.map.capacity() >= self.map.len() + additional);
    }
}

#[test]
fn versions() {
    let some = [0, 1, 2, 3, 5, (1 << 31) - 1, 1 << 31, 1 << 31 | 1, u32::MAX - 2, u32::MAX];
    for version in some {
        for other in some {
            assert_eq!(slotmap_proved::is_older_version(version, other), is_older(version, other), "{version} {other}");
        }
    }
}

#[test]
fn made_with_room() {
    for capacity in [0, 1, 100] {
        let map: SecondaryMap<NodeKey, u64> = SecondaryMap::with_capacity(capacity);
        assert!(map.is_empty() && map.capacity() >= capacity);
        let map: SecondaryMap<NodeKey, u64> = SecondaryMap::try_with_capacity(capacity).expect("memory");
        assert!(map.is_empty() && map.capacity() >= capacity);
        let map: SparseSecondaryMap<NodeKey, u64> = SparseSecondaryMap::with_capacity(capacity);
        assert!(map.is_empty() && map.capacity() >= capacity);
        let hasher = std::collections::hash_map::RandomState::new();
        let map: SparseSecondaryMap<NodeKey, u64, _> = SparseSecondaryMap::with_capacity_and_hasher(capacity, hasher.clone());
        assert!(map.is_empty() && map.capacity() >= capacity);
        let made = SparseSecondaryMap::<NodeKey, u64, _>::try_with_capacity_and_hasher(capacity, hasher.clone()).expect("memory");
        assert!(made.is_empty() && made.capacity() >= capacity);
        let mut map: SparseSecondaryMap<NodeKey, u64, _> = SparseSecondaryMap::with_hasher(hasher);
        assert_eq!((map.insert(key_of(3, 1), 5), map.len()), (None, 1));
    }
    assert!(SecondaryMap::<NodeKey, u64>::new().is_empty() && SparseSecondaryMap::<NodeKey, u64>::new().is_empty());
    assert!(SecondaryMap::<NodeKey, u64>::try_with_capacity(usize::MAX).is_err());
}
