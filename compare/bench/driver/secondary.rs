//! The operations of the crate's secondary maps, each as the port's side does it (port/secondary.template).

use crate::folded::BuildFolded;
use crate::operations::Secondary;
use crate::shuffler::Shuffler;
use crate::value::{Sum, Value, number};
use slotmap::{DefaultKey, SecondaryMap, SlotMap, SparseSecondaryMap};
use std::hint::black_box;

/// The operations of one map, with its hasher if it has one.
macro_rules! secondary_map {
    ($module:ident, $map:ident $(, $hasher:ty)?) => {
        pub mod $module {
            use super::*;

            type Map<const AT: u32> = $map<DefaultKey, Value<AT> $(, $hasher)?>;

            fn put_all<const AT: u32>(map: &mut Map<AT>, keys: &[DefaultKey], round: u64) -> u64 {
                for (i, key) in keys.iter().enumerate() {
                    map.insert(*key, Value(i as u64 ^ round));
                }
                map.len() as u64
            }

            fn get_all<const AT: u32>(map: &Map<AT>, keys: &[DefaultKey]) -> u64 {
                let mut sum = Sum::default();
                for key in keys {
                    sum.add(map.get(*key).map_or(1, |value| value.0));
                }
                sum.0
            }

            fn count_all<const AT: u32>(map: &Map<AT>, keys: &[DefaultKey]) -> u64 {
                let mut sum = Sum::default();
                for key in keys {
                    if map.contains_key(*key) {
                        sum.add(1);
                    }
                }
                sum.0
            }

            fn bump_all<const AT: u32>(map: &mut Map<AT>, keys: &[DefaultKey]) -> u64 {
                let mut sum = Sum::default();
                for key in keys {
                    if let Some(value) = map.get_mut(*key) {
                        sum.add(value.bump());
                    }
                }
                sum.0
            }

            fn churn<const AT: u32>(map: &mut Map<AT>, keys: &[DefaultKey], round: u64) -> u64 {
                let mut sum = Sum::default();
                for key in keys {
                    let value = map.remove(*key).map_or(1, |value| value.0);
                    sum.add(value);
                    map.insert(*key, Value(value ^ round));
                }
                sum.0
            }

            fn enter_all<const AT: u32>(map: &mut Map<AT>, keys: &[DefaultKey]) -> u64 {
                let mut sum = Sum::default();
                for key in keys {
                    if let Some(entry) = map.entry(*key) {
                        sum.add(entry.or_insert(Value(7)).bump());
                    }
                }
                sum.0
            }

            fn walk<const AT: u32>(map: &Map<AT>) -> u64 {
                let mut sum = Sum::default();
                for (key, value) in map.iter() {
                    sum.add(number(key));
                    sum.add(value.0);
                }
                sum.0
            }

            fn walk_values<const AT: u32>(map: &Map<AT>) -> u64 {
                let mut sum = Sum::default();
                for value in map.values() {
                    sum.add(value.0);
                }
                sum.0
            }

            fn walk_keys<const AT: u32>(map: &Map<AT>) -> u64 {
                let mut sum = Sum::default();
                for key in map.keys() {
                    sum.add(number(key));
                }
                sum.0
            }

            fn retain_all<const AT: u32>(map: &mut Map<AT>) -> u64 {
                map.retain(|_, value| {
                    value.bump();
                    true
                });
                map.len() as u64
            }

            fn drain_all<const AT: u32>(map: &mut Map<AT>) -> u64 {
                let mut sum = Sum::default();
                for (key, value) in map.drain() {
                    sum.add(number(key));
                    sum.add(value.0);
                }
                sum.0
            }

            fn remove_all<const AT: u32>(map: &mut Map<AT>, keys: &[DefaultKey]) -> u64 {
                let mut sum = Sum::default();
                for key in keys {
                    sum.add(map.remove(*key).map_or(1, |value| value.0));
                }
                sum.0
            }

            /// A primary map, which stays while its keys are used, and the keys in order.
            fn primary_map(n: u64) -> (SlotMap<DefaultKey, u64>, Vec<DefaultKey>) {
                let mut keys = Vec::with_capacity(n as usize);
                let mut primary = SlotMap::with_capacity(n as usize);
                keys.extend((0..n).map(|i| primary.insert(i)));
                (primary, keys)
            }

            /// Rounds over new maps.
            fn anew<const AT: u32>(
                n: u64,
                rounds: u64,
                run: impl Fn(&mut Map<AT>, &[DefaultKey], u64) -> u64,
            ) -> u64 {
                let (_primary, keys) = primary_map(n);
                let mut sum = Sum::default();
                for round in 0..rounds {
                    sum.add(run(&mut Map::default(), &keys, round));
                }
                sum.0
            }

            /// Rounds over one map, with its keys shuffled.
            fn shuffled<const AT: u32>(
                n: u64,
                rounds: u64,
                run: impl Fn(&mut Map<AT>, &[DefaultKey], u64) -> u64,
            ) -> u64 {
                let (_primary, mut keys) = primary_map(n);
                let mut map = Map::default();
                map.extend(keys.iter().enumerate().map(|(i, key)| (*key, Value(i as u64))));
                Shuffler::new().shuffle(&mut keys);
                let mut sum = Sum::default();
                for round in 0..rounds {
                    sum.add(run(&mut map, &keys, round));
                }
                sum.0
            }

            /// Iteration over a map from which so many random keys are gone.
            fn thinned<const AT: u32>(n: u64, rounds: u64, gone: u64) -> u64 {
                let (_primary, mut keys) = primary_map(n);
                let mut map = Map::<AT>::default();
                put_all(&mut map, &keys, 0);
                Shuffler::new().shuffle(&mut keys);
                remove_all(&mut map, &keys[..gone as usize]);
                let mut sum = Sum::default();
                for _ in 0..rounds {
                    sum.add(walk(&map));
                }
                sum.0
            }

            fn extended<const AT: u32>(n: u64, rounds: u64) -> u64 {
                let mut primary = SlotMap::with_capacity(n as usize);
                for i in 0..n {
                    primary.insert(Value::<AT>(i));
                }
                let mut sum = Sum::default();
                for _ in 0..rounds {
                    let mut map: Map<AT> = Map::default();
                    map.extend(primary.iter());
                    sum.add(black_box(map).len() as u64);
                }
                sum.0
            }

            /// Compares a map with its clone, which is equal.
            fn equal<const AT: u32>(n: u64, rounds: u64) -> u64 {
                let (_primary, keys) = primary_map(n);
                let mut map = Map::<AT>::default();
                put_all(&mut map, &keys, 0);
                let copy = map.clone();
                (0..rounds).map(|_| (black_box(&copy) == black_box(&map)) as u64).sum()
            }

            /// Look-ups of the half of the keys that is gone.
            fn absent<const AT: u32>(n: u64, rounds: u64) -> u64 {
                let (_primary, mut keys) = primary_map(n);
                let mut map = Map::<AT>::default();
                put_all(&mut map, &keys, 0);
                Shuffler::new().shuffle(&mut keys);
                let absent = &keys[..keys.len() - keys.len() / 2];
                remove_all(&mut map, absent);
                let mut sum = Sum::default();
                for _ in 0..rounds {
                    sum.add(get_all(&map, absent));
                }
                sum.0
            }

            #[rustfmt::skip]
            pub fn workload(operation: Secondary, n: u64, rounds: u64) -> u64 {
                match operation {
                    Secondary::Insert => anew::<0>(n, rounds, put_all),
                    Secondary::Overwrite => shuffled::<1>(n, rounds, put_all),
                    Secondary::Get => shuffled::<2>(n, rounds, |map, keys, _| get_all(map, keys)),
                    Secondary::GetAbsent => absent::<3>(n, rounds),
                    Secondary::Contains => shuffled::<4>(n, rounds, |map, keys, _| count_all(map, keys)),
                    Secondary::GetMut => shuffled::<5>(n, rounds, |map, keys, _| bump_all(map, keys)),
                    Secondary::Churn => shuffled::<6>(n, rounds, churn),
                    Secondary::Entry => shuffled::<7>(n, rounds, |map, keys, _| enter_all(map, keys)),
                    Secondary::EntryNew => anew::<8>(n, rounds, |map, keys, _| enter_all(map, keys)),
                    Secondary::Iter => shuffled::<9>(n, rounds, |map, _, _| walk(map)),
                    Secondary::Values => shuffled::<10>(n, rounds, |map, _, _| walk_values(map)),
                    Secondary::Keys => shuffled::<11>(n, rounds, |map, _, _| walk_keys(map)),
                    Secondary::RetainAll => shuffled::<12>(n, rounds, |map, _, _| retain_all(map)),
                    Secondary::Clear => shuffled::<13>(n, rounds, |map, keys, round| {
                        map.clear();
                        put_all(map, keys, round)
                    }),
                    Secondary::Drain => shuffled::<14>(n, rounds, |map, keys, round| {
                        drain_all(map).wrapping_add(put_all(map, keys, round))
                    }),
                    // Without the black box the compiler leaves the whole clone out.
                    Secondary::Clone => shuffled::<15>(n, rounds, |map, _, _| black_box(map.clone()).len() as u64),
                    Secondary::CloneRemove => shuffled::<16>(n, rounds, |map, keys, _| remove_all(&mut map.clone(), keys)),
                    Secondary::IterHalf => thinned::<17>(n, rounds, n / 2),
                    Secondary::IterTenth => thinned::<18>(n, rounds, n / 10 * 9),
                    Secondary::Extend => extended::<19>(n, rounds),
                    Secondary::Equal => equal::<20>(n, rounds),
                }
            }
        }
    };
}

secondary_map!(plain, SecondaryMap);
secondary_map!(sparse, SparseSecondaryMap);
secondary_map!(folded, SparseSecondaryMap, BuildFolded);
