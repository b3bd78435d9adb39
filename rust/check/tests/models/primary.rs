//! `map`, `copy`, `old` and `made` are one of SlotMap, DenseSlotMap, HopSlotMap; `fallible` is the proved map inside. The model is a
//! vector of the live keys with their values, in packed order, and one of the detached keys.

use super::common::keys::{key_of, parts, Issued};
use super::common::random::Random;
use super::common::seeds::each_seed;
use slotmap_proved::errors::ReserveError;
use slotmap_proved::fallible::Vec as ProvedVec;
use slotmap_proved::serial::SlotRecord;
use slotmap_proved::{DefaultKey, DenseSlotMap, Global, HopSlotMap, Key, NodeKey, SlotMap};

const SEEDS: u64 = 20;
const CALLS: usize = 10_000;

type Pair = (DefaultKey, u64);

/// The pairs by ascending index.
fn by_index(pairs: &[Pair]) -> Vec<Pair> {
    let mut sorted = pairs.to_vec();
    sorted.sort_by_key(|pair| parts(pair.0).0);
    sorted
}

/// What a map has.
#[derive(Default)]
struct Model {
    pairs: Vec<Pair>,
    detached: Vec<DefaultKey>,
}

impl Model {
    fn place(&self, key: DefaultKey) -> Option<usize> {
        self.pairs.iter().position(|pair| pair.0 == key)
    }

    fn get(&self, key: DefaultKey) -> Option<u64> {
        self.place(key).map(|at| self.pairs[at].1)
    }

    /// The last pair takes the place of the removed one.
    fn take(&mut self, key: DefaultKey) -> Option<u64> {
        self.place(key).map(|at| self.pairs.swap_remove(at).1)
    }

    fn lend(&mut self, key: DefaultKey) -> Option<&mut u64> {
        self.place(key).map(|at| &mut self.pairs[at].1)
    }
}

/// A map and what it is to have, for one kind of map. A walk over a packed map is in packed order. The calls at the end are
/// those that this kind has beside the others'.
macro_rules! primary {
    ($module:ident, $map:ident, packed: $packed:literal, more: [$($more:ident),*]) => {
        mod $module {
            use super::*;

            type Map = $map<DefaultKey, u64>;

            pub struct Beside<'a> {
                pub random: &'a mut Random,
                pub map: Map,
                pub model: Model,
                pub issued: Issued<DefaultKey>,
            }

            impl Beside<'_> {
                pub fn key(&mut self) -> DefaultKey {
                    let live: Vec<DefaultKey> = self.model.pairs.iter().map(|pair| pair.0).collect();
                    self.issued.pick(self.random, &live)
                }

                fn in_order(&self) -> Vec<Pair> {
                    if $packed { self.model.pairs.clone() } else { by_index(&self.model.pairs) }
                }

                pub fn note(&mut self, key: DefaultKey, value: u64) {
                    self.issued.note(key);
                    self.model.pairs.push((key, value));
                }

                fn insert(&mut self) {
                    let value = self.random.draw() % 100;
                    let mut given = None;
                    let mut told = |key: DefaultKey| {
                        given = Some(key);
                        value
                    };
                    let key = match self.random.below(6) {
                        0 => self.map.insert(value),
                        1 => self.map.try_insert(value).ok().expect("memory"),
                        2 => self.map.insert_with_key(&mut told),
                        3 => self.map.try_insert_with_key(|key| Ok::<u64, ()>(told(key))).expect("it returns a value"),
                        4 => self.map.as_mut().insert(value).ok().expect("memory"),
                        _ => self.map.as_mut().insert_with_key(&mut told).ok().expect("memory"),
                    };
                    assert_eq!(given.unwrap_or(key), key, "the closure is told another key");
                    self.note(key, value);
                }

                /// A closure that fails leaves the map as it was: the next insert returns the key that it was told.
                fn fail_to_insert(&mut self) {
                    let told = self.map.try_insert_with_key(Err::<u64, DefaultKey>).expect_err("the closure fails");
                    let fallible = self.map.as_mut();
                    let again = fallible.try_insert_with_key(Err::<u64, DefaultKey>);
                    assert!(matches!(again, Err(slotmap_proved::errors::TryInsertError::Closure(key)) if key == told));
                    assert!(!self.map.contains_key(told));
                    let key = self.map.insert(7);
                    assert_eq!(key, told);
                    self.note(key, 7);
                }

                fn remove(&mut self) {
                    let key = self.key();
                    assert_eq!(self.map.remove(key), self.model.take(key));
                }

                fn look(&mut self) {
                    let (key, value) = (self.key(), self.random.draw() % 100);
                    let wanted = self.model.get(key);
                    assert_eq!((self.map.contains_key(key), self.map.get(key).copied()), (wanted.is_some(), wanted));
                    assert_eq!(self.map.get_mut(key).copied(), wanted);
                    if let (Some(wanted), Some(known)) = (wanted, self.model.lend(key)) {
                        assert_eq!((self.map[key], *self.map.get_unchecked(key)), (wanted, wanted));
                        match self.random.below(4) {
                            0 => *self.map.get_mut(key).expect("it is live") = value,
                            1 => self.map[key] = value,
                            2 => *self.map.get_unchecked_mut(key) = value,
                            _ => assert_eq!(self.map.as_mut().replace(key, value), Ok(wanted)),
                        }
                        *known = value;
                    } else {
                        assert_eq!(self.map.as_mut().replace(key, value), Err(value));
                    }
                }

                /// Several keys at once, which are live and differ or not.
                fn disjoint(&mut self) {
                    let keys = [self.key(), self.key(), self.key()];
                    let differ = keys[0] != keys[1] && keys[0] != keys[2] && keys[1] != keys[2];
                    let values = keys.map(|key| self.model.get(key));
                    let wanted = match values {
                        [Some(a), Some(b), Some(c)] if differ => Some([a, b, c]),
                        _ => None,
                    };
                    let lent = self.map.get_disjoint_mut(keys);
                    assert_eq!(lent.map(|lent| lent.map(|value| *value)), wanted);
                    assert!(self.map.get_disjoint_mut::<0>([]).is_some());
                    let replaced = self.map.as_mut().replace_disjoint(keys, [1, 2, 3]);
                    assert_eq!(replaced, wanted.ok_or([1, 2, 3]));
                    if wanted.is_some() {
                        for (value, lent) in self.map.get_disjoint_unchecked_mut(keys).into_iter().enumerate() {
                            assert_eq!(*lent, value as u64 + 1);
                            *lent += 1;
                        }
                        for (key, value) in keys.into_iter().zip(2..) {
                            *self.model.lend(key).expect("it is live") = value;
                        }
                    }
                }

                fn look_at_all(&self) {
                    let count = self.model.pairs.len();
                    assert_eq!((self.map.len(), self.map.is_empty()), (count, count == 0));
                    assert!(self.map.capacity() >= count);
                }

                fn walk(&mut self) {
                    let pairs = self.in_order();
                    let (mut iter, mut left) = (self.map.iter(), pairs.len());
                    assert!((&self.map).into_iter().eq(pairs.iter().map(|pair| (pair.0, &pair.1))));
                    for pair in &pairs {
                        assert_eq!((iter.len(), iter.size_hint()), (left, (left, Some(left))));
                        assert_eq!(iter.clone().next(), Some((pair.0, &pair.1)));
                        assert_eq!(iter.next(), Some((pair.0, &pair.1)));
                        left -= 1;
                    }
                    assert_eq!((iter.next(), iter.next()), (None, None));
                    assert!(self.map.keys().eq(pairs.iter().map(|pair| pair.0)));
                    assert!(self.map.values().eq(pairs.iter().map(|pair| &pair.1)));
                    let mut keys = ProvedVec::new(Global);
                    assert!(self.map.as_ref().keys_into(&mut keys).is_ok());
                    assert!(keys.iter().copied().eq(pairs.iter().map(|pair| pair.0)));
                    let shown: Vec<String> = pairs.iter().map(|pair| format!("{:?}: {}", pair.0, pair.1)).collect();
                    assert_eq!(format!("{:?}", self.map), format!("{{{}}}", shown.join(", ")));
                }

                fn walk_and_write(&mut self) {
                    let pairs = self.in_order();
                    let iter = self.map.iter_mut();
                    assert_eq!((iter.len(), iter.size_hint()), (pairs.len(), (pairs.len(), Some(pairs.len()))));
                    for ((key, value), pair) in iter.zip(&pairs) {
                        assert_eq!((key, *value), *pair);
                        *value += 1;
                    }
                    assert_eq!(self.map.values_mut().len(), pairs.len());
                    for (value, pair) in self.map.values_mut().zip(&pairs) {
                        assert_eq!(*value, pair.1 + 1);
                        *value += 1;
                    }
                    assert_eq!((&mut self.map).into_iter().map(|pair| *pair.1).sum::<u64>(), pairs.iter().map(|pair| pair.1 + 2).sum());
                    self.model.pairs.iter_mut().for_each(|pair| pair.1 += 2);
                }

                /// Each pair is asked about once. A packed map asks about those that it moves in another order, which no page
                /// tells: the test goes on with the order that it then has.
                fn retain(&mut self) {
                    let divisor = 2 + self.random.draw() % 5;
                    let mut seen = Vec::new();
                    self.map.retain(|key, value| {
                        seen.push((key, *value));
                        *value += 1;
                        *value % divisor != 0
                    });
                    assert_eq!(by_index(&seen), by_index(&self.model.pairs));
                    assert!($packed || seen == by_index(&seen));
                    self.model.pairs.iter_mut().for_each(|pair| pair.1 += 1);
                    self.model.pairs.retain(|pair| pair.1 % divisor != 0);
                    let left: Vec<Pair> = self.map.iter().map(|(key, value)| (key, *value)).collect();
                    assert_eq!(by_index(&left), by_index(&self.model.pairs));
                    self.model.pairs = left;
                }

                /// Takes some pairs out, and drops the iterator: the rest goes too.
                fn drain(&mut self) {
                    let mut pairs = self.in_order();
                    if $packed {
                        pairs.reverse();
                    }
                    if self.random.one_of(3) {
                        let mut taken = ProvedVec::new(Global);
                        assert!(self.map.as_mut().drain_into(&mut taken).is_ok());
                        assert!(taken.iter().eq(&pairs));
                    } else {
                        let (count, mut drain) = (self.random.below(pairs.len() + 2), self.map.drain());
                        assert_eq!((drain.len(), drain.size_hint()), (pairs.len(), (pairs.len(), Some(pairs.len()))));
                        assert!(drain.by_ref().take(count).eq(pairs.iter().take(count).copied()));
                    }
                    self.model.pairs.clear();
                }

                /// A copy has the same pairs, and returns the same new keys. The test goes on with the copy.
                fn copy(&mut self) {
                    let mut copy = match self.random.below(3) {
                        0 => self.map.clone(),
                        1 => self.map.try_clone().expect("memory"),
                        _ => {
                            let mut copy = Map::new();
                            copy.insert(9);
                            copy.clone_from(&self.map);
                            copy
                        }
                    };
                    assert!(copy.iter().eq(self.map.iter()));
                    let (key, other) = (copy.insert(7), self.map.insert(7));
                    assert_eq!(key, other);
                    self.note(key, 7);
                    let old = std::mem::replace(&mut self.map, copy);
                    let iter = old.into_iter();
                    assert_eq!((iter.len(), iter.clone().count()), (self.model.pairs.len(), self.model.pairs.len()));
                    assert_eq!(by_index(&iter.collect::<Vec<_>>()), by_index(&self.model.pairs));
                }

                /// Writes the map as a list of slots, and reads it back. Detached keys are forgotten; and a packed map is in the
                /// order of the list.
                fn list(&mut self) {
                    let list = self.map.to_slots().expect("memory");
                    for (index, slot) in (0..).zip(&list) {
                        assert_eq!(slot.value.is_some(), slot.version % 2 == 1);
                        assert!(slot.value.is_none() || self.model.get(key_of(index, slot.version)) == slot.value);
                    }
                    let count = list.iter().filter(|slot| slot.value.is_some()).count();
                    assert_eq!(count, self.model.pairs.len());
                    let map = Map::from_slots(list).expect("it is a list of slots");
                    assert_eq!(by_index(&map.iter().map(|(key, value)| (key, *value)).collect::<Vec<_>>()), by_index(&self.model.pairs));
                    self.map = map;
                    self.model.pairs = by_index(&self.model.pairs);
                    self.model.detached.clear();
                }

                fn room(&mut self) {
                    let additional = self.random.below(50);
                    match self.random.below(5) {
                        0 => {
                            self.map.clear();
                            self.model.pairs.clear();
                        }
                        1 => {
                            self.map.reserve(additional);
                            assert!(self.map.capacity() >= self.map.len() + additional);
                        }
                        2 => assert!(self.map.try_reserve(u32::MAX as usize).is_err()),
                        3 => assert!(matches!(self.map.as_mut().reserve(u32::MAX as usize), Err(ReserveError::TooGreat))),
                        _ => {
                            assert!(self.map.try_reserve(additional).is_ok());
                            assert!(self.map.capacity() >= self.map.len() + additional);
                        }
                    }
                }

                fn call(&mut self) {
                    let more: &[fn(&mut Self)] = &[$(Self::$more),*];
                    match self.random.below(64) {
                        0..=20 => self.insert(),
                        21 => self.fail_to_insert(),
                        22..=34 => self.remove(),
                        35..=42 => self.look(),
                        43..=45 => self.disjoint(),
                        46 | 47 => self.walk(),
                        48 => self.walk_and_write(),
                        49 if self.random.one_of(2) => self.retain(),
                        50 if self.random.one_of(4) => self.drain(),
                        51 => self.copy(),
                        52 if self.random.one_of(2) => self.list(),
                        53 => self.room(),
                        _ if more.is_empty() => {}
                        _ => self.random.pick(more)(self),
                    }
                    self.look_at_all();
                }
            }

            #[test]
            fn beside_a_vector() {
                each_seed(stringify!($map), SEEDS, |random| {
                    let mut beside = Beside { random, map: Map::new(), model: Model::default(), issued: Issued::new() };
                    for _ in 0..CALLS {
                        beside.call();
                    }
                    beside.walk();
                });
            }

            #[test]
            fn made_with_room() {
                for capacity in [0, 1, 2, 100] {
                    let map = Map::with_capacity(capacity);
                    let other: $map<NodeKey, u64> = $map::with_capacity_and_key(capacity);
                    let third = Map::try_with_capacity_and_key(capacity).expect("memory");
                    assert!(map.is_empty() && other.is_empty() && third.is_empty());
                    assert!(map.capacity() >= capacity && other.capacity() >= capacity && third.capacity() >= capacity);
                }
                let map: $map<NodeKey, u64> = $map::with_key();
                assert!(map.is_empty() && Map::default().is_empty());
                let made = Map::try_with_capacity_and_key(u32::MAX as usize);
                assert!(matches!(made, Err(ReserveError::TooGreat)));
            }

            /// Lists that are none of a map.
            #[test]
            fn other_lists() {
                let record = |value: Option<u64>, version| SlotRecord { value, version };
                let odd = [vec![record(None, 1)], vec![record(None, 0), record(None, 1)], vec![record(None, 0), record(Some(5), 2)]];
                for list in odd.into_iter().chain([vec![]]) {
                    assert!(Map::from_slots(list).is_err());
                }
                // The last version of a slot: once its key is removed, the slot is retired.
                let mut map = Map::from_slots(vec![record(None, 0), record(Some(5), u32::MAX)]).expect("it is a list of slots");
                assert_eq!(map.remove(key_of(1, u32::MAX)), Some(5));
                assert_eq!(parts(map.insert(6)), (2, 1));
            }

            /// The proved map and the one with slotmap's names turn into each other.
            #[test]
            fn conversions() {
                let mut map = Map::new();
                let key = map.insert(5);
                let mut fallible: slotmap_proved::fallible::$map<DefaultKey, u64> = map.into();
                assert_eq!(fallible.get(key), Some(&5));
                assert!(fallible.insert(6).is_ok());
                let map = Map::from(fallible);
                assert_eq!((map.len(), map[key]), (2, 5));
            }
        }
    };
}

primary!(basic, SlotMap, packed: false, more: [detach, detach, reattach, key_at]);
primary!(dense, DenseSlotMap, packed: true, more: [detach, detach, reattach, slices]);
primary!(hop, HopSlotMap, packed: false, more: []);

/// The calls that put keys aside. A detached key finds nothing until it comes back.
macro_rules! detaching {
    ($module:ident) => {
        impl $module::Beside<'_> {
            fn detach(&mut self) {
                let key = self.key();
                let value = self.model.take(key);
                assert_eq!(self.map.detach(key), value);
                if value.is_some() {
                    self.model.detached.push(key);
                    assert!(!self.map.contains_key(key) && self.map.remove(key).is_none());
                }
            }

            fn reattach(&mut self) {
                let key = if self.model.detached.is_empty() { self.key() } else { *self.random.pick(&self.model.detached) };
                let place = self.model.detached.iter().position(|detached| *detached == key);
                match place {
                    None => assert_eq!(self.map.try_reattach(key, 7).expect_err("it isn't detached").into_inner(), 7),
                    Some(at) => {
                        match self.random.below(3) {
                            0 => self.map.reattach(key, 7),
                            1 => assert!(self.map.try_reattach(key, 7).is_ok()),
                            _ => assert!(self.map.as_mut().reattach(key, 7).is_ok()),
                        }
                        self.model.detached.swap_remove(at);
                        self.model.pairs.push((key, 7));
                    }
                }
            }
        }
    };
}

detaching!(basic);
detaching!(dense);

impl basic::Beside<'_> {
    /// The calls of the proved SlotMap by index.
    fn key_at(&mut self) {
        let (key, fallible) = (self.key(), self.map.as_ref());
        let (index, pairs) = (parts(key).0, by_index(&self.model.pairs));
        let here = pairs.iter().find(|pair| parts(pair.0).0 == index);
        assert_eq!(fallible.key_at(index), here.map(|pair| pair.0));
        let after = pairs.iter().find(|pair| parts(pair.0).0 > index);
        assert_eq!(fallible.next_after(Some(key)), after.map(|pair| (pair.0, &pair.1)));
        let steps = std::iter::successors(fallible.next_after(None), |pair| fallible.next_after(Some(pair.0)));
        assert!(steps.eq(pairs.iter().map(|pair| (pair.0, &pair.1))));
    }
}

impl dense::Beside<'_> {
    /// The keys and the values as slices, in packed order.
    fn slices(&mut self) {
        let (keys, values): (Vec<DefaultKey>, Vec<u64>) = self.model.pairs.iter().copied().unzip();
        assert_eq!((self.map.keys_as_slice(), self.map.values_as_slice()), (keys.as_slice(), values.as_slice()));
        assert_eq!(self.map.as_slices(), (keys.as_slice(), values.as_slice()));
        self.map.values_as_mut_slice().iter_mut().for_each(|value| *value += 1);
        let (same, lent) = self.map.as_mut_slices();
        assert_eq!(same, keys);
        lent.iter_mut().for_each(|value| *value += 1);
        self.model.pairs.iter_mut().for_each(|pair| pair.1 += 2);
        let two = [self.key(), self.key()];
        let wanted = two[0] != two[1] && two.iter().all(|key| self.model.place(*key).is_some());
        let fallible = self.map.as_mut();
        assert_eq!(fallible.can_replace(&two), wanted);
        assert_eq!(fallible.get_disjoint_mut(two).is_some(), wanted);
    }
}

/// A key of the null index is live in no map.
#[test]
fn null() {
    assert!(DefaultKey::null().is_null() && DefaultKey::default().is_null());
    assert!(!SlotMap::<DefaultKey, u64>::new().contains_key(DefaultKey::null()));
}
