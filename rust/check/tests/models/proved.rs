//! `fallible`, `copy` and `made` are one of the proved maps. The model is a BTreeMap of the keys with their values; in which order a map is
//! walked over, `primary.rs` and `side.rs` compare.

use super::common::keys::{key_of, Issued};
use super::common::random::Random;
use super::common::seeds::each_seed;
use slotmap_proved::errors::ReserveError;
use slotmap_proved::fallible::{DenseSlotMap, HopSlotMap, SecondaryMap, SlotMap, SparseSecondaryMap};
use slotmap_proved::{DefaultKey, Global};
use std::collections::BTreeMap;

const SEEDS: u64 = 10;
const CALLS: usize = 5000;

type Model = BTreeMap<DefaultKey, u64>;

/// One proved map beside its model. `insert` puts a value, under a new key or under that of an index; `more` are the calls that it has
/// beside the others'.
macro_rules! proved {
    ($module:ident, $map:ident, insert: $insert:expr, more: [$($more:ident),*]) => {
        mod $module {
            use super::*;

            pub type Map = $map<DefaultKey, u64>;

            pub struct Beside<'a> {
                pub random: &'a mut Random,
                pub fallible: Map,
                pub model: Model,
                pub issued: Issued<DefaultKey>,
            }

            impl Beside<'_> {
                pub fn key(&mut self) -> DefaultKey {
                    let live: Vec<DefaultKey> = self.model.keys().copied().collect();
                    self.issued.pick(self.random, &live)
                }

                fn insert(&mut self) {
                    let (insert, value): (fn(&mut Self, u64) -> DefaultKey, u64) = ($insert, self.random.draw() % 100);
                    let key = insert(self, value);
                    self.model.insert(key, value);
                }

                fn remove(&mut self) {
                    let key = self.key();
                    assert_eq!(self.fallible.remove(key), self.model.remove(&key));
                }

                fn look(&mut self) {
                    let (key, value) = (self.key(), self.random.draw() % 100);
                    let wanted = self.model.get(&key).copied();
                    let fallible = &mut self.fallible;
                    assert_eq!((fallible.contains_key(key), fallible.get(key).copied()), (wanted.is_some(), wanted));
                    match (fallible.get_mut(key), wanted) {
                        (Some(lent), Some(wanted)) => {
                            assert_eq!(*lent, wanted);
                            *lent = value;
                            assert_eq!((fallible[key], *fallible.get_unchecked(key)), (value, value));
                            fallible[key] = value + 1;
                            *fallible.get_unchecked_mut(key) += 1;
                            self.model.insert(key, value + 2);
                        }
                        (lent, wanted) => assert_eq!(lent.copied(), wanted),
                    }
                    let (count, fallible) = (self.model.len(), &self.fallible);
                    assert_eq!((fallible.len(), fallible.is_empty(), fallible.capacity() >= count), (count, count == 0, true));
                }

                fn walk(&mut self) {
                    let fallible = &mut self.fallible;
                    let pairs: Model = fallible.iter().map(|(key, value)| (key, *value)).collect();
                    assert_eq!(pairs, self.model);
                    assert!(fallible.keys().eq(fallible.iter().map(|pair| pair.0)));
                    assert!(fallible.values().eq(fallible.iter().map(|pair| pair.1)));
                    let left = self.model.len();
                    assert_eq!((fallible.iter().len(), fallible.keys().len(), fallible.values().len()), (left, left, left));
                    let shown: Vec<String> = fallible.iter().map(|(key, value)| format!("{key:?}: {value}")).collect();
                    assert_eq!(format!("{fallible:?}"), format!("{{{}}}", shown.join(", ")));
                }

                fn empty(&mut self) {
                    match self.random.below(3) {
                        0 => {
                            let mut seen = Model::new();
                            self.fallible.retain(|key, value| {
                                seen.insert(key, *value);
                                *value % 2 == 0
                            });
                            assert_eq!(seen, self.model);
                            self.model.retain(|_, value| *value % 2 == 0);
                        }
                        1 => {
                            let taken: Model = self.fallible.drain().collect();
                            assert_eq!(taken, std::mem::take(&mut self.model));
                        }
                        _ => {
                            self.fallible.clear();
                            self.model.clear();
                        }
                    }
                }

                /// Copies, also by a list of slots, have the same pairs.
                fn copy(&mut self) {
                    let list = self.fallible.to_slots().expect("memory");
                    let made = Map::from_slots(Global, list).expect("it is a list of slots");
                    assert_eq!(made.into_iter().collect::<Model>(), self.model);
                    let mut copy = self.fallible.clone().expect("memory");
                    let copied: Model = copy.iter().map(|(key, value)| (key, *value)).collect();
                    assert_eq!(copied, self.model);
                    copy.clear();
                    assert!(copy.clone_from(&self.fallible).is_ok());
                    let old = std::mem::replace(&mut self.fallible, copy);
                    let pairs = old.into_iter();
                    assert_eq!(pairs.len(), self.model.len());
                    assert_eq!(pairs.collect::<Model>(), self.model);
                }

                fn call(&mut self) {
                    let more: &[fn(&mut Self)] = &[$(Self::$more),*];
                    match self.random.below(32) {
                        0..=11 => self.insert(),
                        12..=16 => self.remove(),
                        17..=22 => self.look(),
                        23..=25 => self.walk(),
                        26 => self.empty(),
                        27 => self.copy(),
                        _ => self.random.pick(more)(self),
                    }
                }
            }

            #[test]
            fn beside_a_map() {
                each_seed(stringify!($map), SEEDS, |random| {
                    let fallible = Map::new(Global).ok().expect("memory");
                    let mut beside = Beside { random, fallible, model: Model::new(), issued: Issued::new() };
                    (0..CALLS).for_each(|_| beside.call());
                    beside.walk();
                });
            }
        }
    };
}

/// Inserts a value, which gets a new key.
macro_rules! with_new_key {
    () => {
        |beside, value| {
            let key = beside.fallible.insert(value).ok().expect("memory");
            beside.issued.note(key);
            key
        }
    };
}

/// Puts a value under one of the keys of version 1.
macro_rules! with_given_key {
    () => {
        |beside, value| {
            let key = key_of(1 + beside.random.below(30) as u32, 1);
            assert_eq!(beside.fallible.insert(key, value).ok().expect("memory"), beside.model.get(&key).copied());
            key
        }
    };
}

proved!(basic, SlotMap, insert: with_new_key!(), more: [room, detach]);
proved!(dense, DenseSlotMap, insert: with_new_key!(), more: [room, detach, slices]);
proved!(hop, HopSlotMap, insert: with_new_key!(), more: [room]);
proved!(secondary, SecondaryMap, insert: with_given_key!(), more: [room, enter]);
proved!(sparse_secondary, SparseSecondaryMap, insert: with_given_key!(), more: [room, enter]);

macro_rules! room {
    ($($module:ident)*) => {
        $(impl $module::Beside<'_> {
            fn room(&mut self) {
                let (fallible, room) = (&mut self.fallible, self.random.below(100));
                assert!(fallible.reserve(room).is_ok() && fallible.try_reserve(room).is_ok());
                assert!(fallible.capacity() >= fallible.len() + room);
                assert!(matches!(fallible.try_reserve(usize::MAX), Err(ReserveError::TooGreat)));
            }
        })*
    };
}

room!(basic dense hop sparse_secondary);

impl secondary::Beside<'_> {
    fn room(&mut self) {
        let (fallible, room) = (&mut self.fallible, self.random.below(100));
        assert!(fallible.set_capacity(room).is_ok() && fallible.try_set_capacity(room).is_ok());
        assert!(fallible.capacity() >= room);
        assert!(matches!(fallible.try_set_capacity(usize::MAX), Err(ReserveError::TooGreat)));
    }
}

/// A detached key finds nothing until it comes back.
macro_rules! detach {
    ($($module:ident)*) => {
        $(impl $module::Beside<'_> {
            fn detach(&mut self) {
                let key = self.key();
                let value = self.fallible.detach(key);
                assert_eq!(value, self.model.remove(&key));
                if let Some(value) = value {
                    assert!(!self.fallible.contains_key(key));
                    assert!(self.fallible.reattach(key, value + 1).is_ok() && self.fallible.reattach(key, 0).is_err());
                    self.model.insert(key, value + 1);
                }
            }
        })*
    };
}

detach!(basic dense);

impl dense::Beside<'_> {
    fn slices(&mut self) {
        let fallible = &mut self.fallible;
        let (keys, values): (Vec<DefaultKey>, Vec<u64>) = fallible.iter().map(|(key, value)| (key, *value)).unzip();
        assert_eq!((fallible.keys_as_slice(), fallible.values_as_slice()), (keys.as_slice(), values.as_slice()));
        assert_eq!(fallible.as_slices(), (keys.as_slice(), values.as_slice()));
        assert!(fallible.values_mut().map(|value| *value).eq(values.iter().copied()));
        assert_eq!((fallible.values_as_mut_slice().len(), fallible.as_mut_slices().0), (values.len(), keys.as_slice()));
        if let [first, second, ..] = keys[..] {
            let (one, two) = fallible.get_disjoint_unchecked_mut([first, second]);
            std::mem::swap(one, two);
            self.model.insert(first, values[1]);
            self.model.insert(second, values[0]);
        }
    }
}

/// The entries of the proved maps, which put a value or change it. What they print says which kind they are.
macro_rules! enter {
    ($($module:ident: $entries:ident, $done:expr;)*) => {
        $(impl $module::Beside<'_> {
            fn enter(&mut self) {
                use slotmap_proved::fallible::$entries::Entry;
                let (key, value) = (key_of(1 + self.random.below(30) as u32, 1), self.random.draw() % 100);
                let known = self.model.get(&key).copied();
                let entry = self.fallible.entry(key).ok().expect("memory").expect("no key is newer");
                let kind = if known.is_some() { "Occupied" } else { "Vacant" };
                assert_eq!((entry.key(), format!("{entry:?}").starts_with(kind)), (key, true));
                let entry = entry.and_modify(|value| *value += 1);
                let lent = match self.random.below(4) {
                    0 => $done(entry.or_insert(value)),
                    1 => $done(entry.or_insert_with(|| value)),
                    2 => $done(entry.or_default()),
                    _ => match entry {
                        Entry::Occupied(mut entry) => {
                            assert_eq!((entry.key(), *entry.get(), *entry.get_mut()), (key, known.unwrap_or(0) + 1, known.unwrap_or(0) + 1));
                            assert!(format!("{entry:?}").contains(&format!("{key:?}")));
                            assert_eq!(entry.insert(value), known.unwrap_or(0) + 1);
                            entry.into_mut()
                        }
                        Entry::Vacant(entry) => {
                            assert!(entry.key() == key && format!("{entry:?}").contains(&format!("{key:?}")));
                            $done(entry.insert(value))
                        }
                    },
                };
                let is = *lent;
                assert!([value, 0, known.map_or(0, |known| known + 1)].contains(&is));
                self.model.insert(key, is);
                match self.fallible.try_entry(key) {
                    Ok(Entry::Occupied(entry)) if value % 3 == 0 => assert_eq!(entry.remove(), is),
                    Ok(Entry::Occupied(entry)) if value % 3 == 1 => assert_eq!(entry.remove_entry(), (key, is)),
                    _ => return,
                }
                self.model.remove(&key);
            }
        })*
    };
}

/// Sparse entries may ask for memory as they put a value.
fn there<T, E>(lent: Result<T, E>) -> T {
    lent.ok().expect("memory")
}

enter! {
    secondary: secondary, |lent| lent;
    sparse_secondary: sparse_secondary, there;
}

#[test]
fn made() {
    macro_rules! primary {
        ($($map:ident)*) => {
            $(for capacity in [0, 1, 100] {
                let made: $map<DefaultKey, u64> = $map::with_capacity(Global, capacity).expect("memory");
                let other: $map<DefaultKey, u64> = $map::with_capacity_and_key(Global, capacity).expect("memory");
                let third: $map<DefaultKey, u64> = $map::with_key(Global).expect("memory");
                assert!(made.is_empty() && other.is_empty() && third.is_empty());
                assert!(made.capacity() >= capacity && other.capacity() >= capacity);
                assert!(matches!($map::<DefaultKey, u64>::with_capacity(Global, u32::MAX as usize), Err(ReserveError::TooGreat)));
            })*
        };
    }
    primary!(SlotMap DenseSlotMap HopSlotMap);
    let made: SecondaryMap<DefaultKey, u64> = SecondaryMap::with_capacity(Global, 100).expect("memory");
    assert!(made.is_empty() && made.capacity() >= 100);
    type Sparse = SparseSecondaryMap<DefaultKey, u64>;
    let made = Sparse::with_capacity(Global, 100).expect("memory");
    let other = Sparse::with_capacity_and_hasher(Global, 100, Default::default()).expect("memory");
    assert!(made.capacity() >= 100 && other.capacity() >= 100 && Sparse::with_hasher(Global, Default::default()).expect("memory").is_empty());
    let pairs = [(key_of(1, 1), 5), (key_of(2, 1), 6), (key_of(1, 3), 7)];
    let made = Sparse::from_iter_with_hasher(Global, pairs, Default::default()).ok().expect("memory");
    assert_eq!(made.iter().map(|(key, value)| (key, *value)).collect::<Model>(), Model::from([pairs[1], pairs[2]]));
    let list = made.to_slots().expect("memory");
    let copy = Sparse::from_slots_with_hasher(Global, list, Default::default()).expect("it is a list of slots");
    assert!(copy == made && made != other);
    let made = SecondaryMap::from_iter(Global, pairs).ok().expect("memory");
    let copy = made.clone().expect("memory");
    assert!(copy == made && copy.len() == 2);
}
