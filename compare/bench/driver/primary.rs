//! The operations of the crate's maps that hand out keys, each as the port's side does it (port/primary.template).
#![allow(deprecated)]

use crate::operations::Primary;
use crate::shuffler::Shuffler;
use crate::value::{Sum, Value, number};
use slotmap::{DefaultKey, DenseSlotMap, HopSlotMap, SlotMap};
use std::hint::black_box;

/// The operations of one map. Not each map has the calls of the last three; `$dense` is where those of one map are.
macro_rules! primary_map {
    ($module:ident, $map:ident, $detach:expr, $detach_all:expr, $dense:ident) => {
        pub mod $module {
            use super::*;

            type Map<const AT: u32> = $map<DefaultKey, Value<AT>>;

            fn insert_all<const AT: u32>(map: &mut Map<AT>, n: u64, round: u64) -> u64 {
                let mut sum = Sum::default();
                for i in 0..n {
                    sum.add(number(map.insert(Value(i ^ round))));
                }
                sum.0
            }

            fn get_all<const AT: u32>(map: &Map<AT>, keys: &[DefaultKey]) -> u64 {
                let mut sum = Sum::default();
                for key in keys {
                    sum.add(map.get(*key).map_or(1, |value| value.0));
                }
                sum.0
            }

            fn count_all<const AT: u32>(map: &Map<AT>, keys: &[DefaultKey]) -> u64 {
                let mut sum = Sum::default();
                for key in keys {
                    if map.contains_key(*key) {
                        sum.add(1);
                    }
                }
                sum.0
            }

            /// Gives each two neighbours in the list new values.
            fn replace_all<const AT: u32>(map: &mut Map<AT>, keys: &mut [DefaultKey], round: u64) -> u64 {
                let mut sum = Sum::default();
                for at in 1..keys.len() {
                    let value = at as u64 ^ round;
                    if let Some([first, second]) = map.get_disjoint_mut([keys[at - 1], keys[at]]) {
                        sum.add(std::mem::replace(first, Value(value)).0);
                        sum.add(std::mem::replace(second, Value(value ^ 1)).0);
                    }
                }
                sum.0
            }

            fn bump_all<const AT: u32>(map: &mut Map<AT>, keys: &[DefaultKey]) -> u64 {
                let mut sum = Sum::default();
                for key in keys {
                    if let Some(value) = map.get_mut(*key) {
                        sum.add(value.bump());
                    }
                }
                sum.0
            }

            fn index_all<const AT: u32>(map: &Map<AT>, keys: &[DefaultKey]) -> u64 {
                let mut sum = Sum::default();
                for key in keys {
                    if map.contains_key(*key) {
                        sum.add(map[*key].0);
                    }
                }
                sum.0
            }

            fn churn<const AT: u32>(map: &mut Map<AT>, keys: &mut [DefaultKey], round: u64) -> u64 {
                let mut sum = Sum::default();
                for at in 0..keys.len() {
                    sum.add(map.remove(keys[at]).map_or(1, |value| value.0));
                    keys[at] = map.insert(Value(at as u64 ^ round));
                }
                sum.0
            }

            fn walk<const AT: u32>(map: &Map<AT>) -> u64 {
                let mut sum = Sum::default();
                for (key, value) in map.iter() {
                    sum.add(number(key));
                    sum.add(value.0);
                }
                sum.0
            }

            fn walk_values<const AT: u32>(map: &Map<AT>) -> u64 {
                let mut sum = Sum::default();
                for value in map.values() {
                    sum.add(value.0);
                }
                sum.0
            }

            fn walk_keys<const AT: u32>(map: &Map<AT>) -> u64 {
                let mut sum = Sum::default();
                for key in map.keys() {
                    sum.add(number(key));
                }
                sum.0
            }

            fn retain_all<const AT: u32>(map: &mut Map<AT>) -> u64 {
                map.retain(|_, value| {
                    value.bump();
                    true
                });
                map.len() as u64
            }

            fn retain_half<const AT: u32>(map: &mut Map<AT>, n: u64, round: u64) -> u64 {
                map.retain(|_, value| value.0 % 2 == 0);
                let len = map.len() as u64;
                for i in len..n {
                    map.insert(Value(i.wrapping_mul(3) ^ round));
                }
                len
            }

            fn drain_all<const AT: u32>(map: &mut Map<AT>) -> u64 {
                let mut sum = Sum::default();
                for (key, value) in map.drain() {
                    sum.add(number(key));
                    sum.add(value.0);
                }
                sum.0
            }

            fn remove_all<const AT: u32>(map: &mut Map<AT>, keys: &[DefaultKey]) -> u64 {
                let mut sum = Sum::default();
                for key in keys {
                    sum.add(map.remove(*key).map_or(1, |value| value.0));
                }
                sum.0
            }

            fn take_all<const AT: u32>(map: Map<AT>) -> u64 {
                let mut sum = Sum::default();
                for (key, value) in map {
                    sum.add(number(key));
                    sum.add(value.0);
                }
                sum.0
            }

            fn clone_from_all<const AT: u32>(map: &Map<AT>) -> u64 {
                let mut copy: Map<AT> = $map::new();
                copy.clone_from(map);
                black_box(copy).len() as u64
            }

            /// Rounds over new maps.
            fn anew<const AT: u32>(n: u64, rounds: u64, make: impl Fn() -> Map<AT>) -> u64 {
                let mut sum = Sum::default();
                for round in 0..rounds {
                    sum.add(insert_all(&mut make(), n, round));
                }
                sum.0
            }

            /// A map of n keys, and its keys in order. The crate compiles this call apart from `insert`.
            fn filled<const AT: u32>(n: u64) -> (Map<AT>, Vec<DefaultKey>) {
                let mut map: Map<AT> = $map::new();
                let mut keys = Vec::new();
                for i in 0..n {
                    keys.push(map.insert_with_key(|_| Value(i)));
                }
                (map, keys)
            }

            /// Rounds over one map, with its keys shuffled.
            fn shuffled<const AT: u32>(
                n: u64,
                rounds: u64,
                run: impl Fn(&mut Map<AT>, &mut [DefaultKey], u64) -> u64,
            ) -> u64 {
                let (mut map, mut keys) = filled(n);
                Shuffler::new().shuffle(&mut keys);
                let mut sum = Sum::default();
                for round in 0..rounds {
                    sum.add(run(&mut map, &mut keys, round));
                }
                sum.0
            }

            /// Walks over a map from which the first keys are gone.
            fn thinned<const AT: u32>(
                n: u64,
                rounds: u64,
                gone: u64,
                in_order: bool,
                walk: impl Fn(&Map<AT>) -> u64,
            ) -> u64 {
                let (mut map, mut keys) = filled::<AT>(n);
                if !in_order {
                    Shuffler::new().shuffle(&mut keys);
                }
                remove_all(&mut map, &keys[..gone as usize]);
                let mut sum = Sum::default();
                for _ in 0..rounds {
                    sum.add(walk(&map));
                }
                sum.0
            }

            /// Look-ups of keys of which half are stale.
            fn half_stale<const AT: u32>(n: u64, rounds: u64) -> u64 {
                let (mut map, mut keys) = filled::<AT>(n);
                let mut shuffler = Shuffler::new();
                shuffler.shuffle(&mut keys);
                remove_all(&mut map, &keys[..n as usize / 2]);
                shuffler.shuffle(&mut keys);
                let mut sum = Sum::default();
                for _ in 0..rounds {
                    sum.add(count_all(&map, &keys));
                }
                sum.0
            }

            /// Half of the steps look a key up, a quarter inserts, and a quarter removes.
            fn mix<const AT: u32>(
                map: &mut Map<AT>,
                keys: &mut Vec<DefaultKey>,
                shuffler: &mut Shuffler,
                steps: u64,
            ) -> u64 {
                let mut sum = Sum::default();
                for step in 0..steps {
                    let choice = shuffler.next() % 4;
                    let at = shuffler.below(keys.len());
                    if choice == 2 || at >= keys.len() {
                        keys.push(map.insert(Value(step)));
                    } else if choice < 2 {
                        sum.add(map.get(keys[at]).map_or(1, |value| value.0));
                    } else {
                        let key = keys.swap_remove(at);
                        sum.add(map.remove(key).map_or(1, |value| value.0));
                    }
                }
                sum.0
            }

            fn mix_all<const AT: u32>(n: u64, rounds: u64) -> u64 {
                let (mut map, mut keys) = filled::<AT>(n);
                let mut shuffler = Shuffler::new();
                let mut sum = Sum::default();
                for _ in 0..rounds {
                    sum.add(mix(&mut map, &mut keys, &mut shuffler, n));
                }
                sum.0
            }

            /// Fills the map, removes each second key, and clears the map.
            fn clear_half<const AT: u32>(map: &mut Map<AT>, keys: &mut Vec<DefaultKey>, n: u64) -> u64 {
                keys.clear();
                let mut sum = Sum::default();
                for i in 0..n {
                    let key = map.insert(Value(i));
                    sum.add(number(key));
                    keys.push(key);
                }
                for key in keys.iter().step_by(2) {
                    map.remove(*key);
                }
                map.clear();
                sum.0
            }

            fn clear_halves<const AT: u32>(n: u64, rounds: u64) -> u64 {
                let mut map: Map<AT> = $map::new();
                let mut keys = Vec::with_capacity(n as usize);
                let mut sum = Sum::default();
                for _ in 0..rounds {
                    sum.add(clear_half(&mut map, &mut keys, n));
                }
                sum.0
            }

            /// Look-ups of keys whose slots have other keys.
            fn stale<const AT: u32>(n: u64, rounds: u64) -> u64 {
                let (mut map, mut keys) = filled::<AT>(n);
                remove_all(&mut map, &keys);
                insert_all(&mut map, n, 0);
                Shuffler::new().shuffle(&mut keys);
                let mut sum = Sum::default();
                for _ in 0..rounds {
                    sum.add(get_all(&map, &keys));
                }
                sum.0
            }

            #[rustfmt::skip]
            pub fn workload(operation: Primary, n: u64, rounds: u64) -> Option<u64> {
                Some(match operation {
                    Primary::Insert => anew::<0>(n, rounds, || $map::new()),
                    Primary::InsertRoom => anew::<1>(n, rounds, || $map::with_capacity(n as usize)),
                    Primary::GetLive => shuffled::<2>(n, rounds, |map, keys, _| get_all(map, keys)),
                    Primary::GetStale => stale::<3>(n, rounds),
                    Primary::Contains => shuffled::<4>(n, rounds, |map, keys, _| count_all(map, keys)),
                    Primary::GetMut => shuffled::<5>(n, rounds, |map, keys, _| bump_all(map, keys)),
                    Primary::Index => shuffled::<6>(n, rounds, |map, keys, _| index_all(map, keys)),
                    Primary::Churn => shuffled::<7>(n, rounds, churn),
                    Primary::Detach => shuffled::<8>(n, rounds, $detach?),
                    Primary::DetachAll => shuffled::<24>(n, rounds, $detach_all?),
                    Primary::ContainsStale => half_stale::<25>(n, rounds),
                    Primary::Disjoint => shuffled::<26>(n, rounds, $dense::disjoint()?),
                    Primary::ReplaceDisjoint => shuffled::<36>(n, rounds, replace_all),
                    Primary::Mix => mix_all::<27>(n, rounds),
                    Primary::IterFull => thinned::<9>(n, rounds, 0, false, walk),
                    Primary::IterMost => thinned::<28>(n, rounds, n / 10, false, walk),
                    Primary::IterHalf => thinned::<10>(n, rounds, n / 2, false, walk),
                    Primary::IterTenth => thinned::<29>(n, rounds, n / 10 * 9, false, walk),
                    Primary::IterFew => thinned::<11>(n, rounds, n / 100 * 99, false, walk),
                    Primary::IterFewRun => thinned::<12>(n, rounds, n / 100 * 99, true, walk),
                    Primary::IterMut => shuffled::<13>(n, rounds, $dense::iter_mut()?),
                    Primary::Values => shuffled::<14>(n, rounds, |map, _, _| walk_values(map)),
                    Primary::ValuesHalf => thinned::<30>(n, rounds, n / 2, false, walk_values),
                    Primary::ValuesTenth => thinned::<31>(n, rounds, n / 10 * 9, false, walk_values),
                    Primary::ValuesMut => shuffled::<32>(n, rounds, $dense::values_mut()?),
                    Primary::Keys => shuffled::<15>(n, rounds, |map, _, _| walk_keys(map)),
                    Primary::KeysHalf => thinned::<33>(n, rounds, n / 2, false, walk_keys),
                    Primary::KeysTenth => thinned::<34>(n, rounds, n / 10 * 9, false, walk_keys),
                    Primary::RetainAll => shuffled::<16>(n, rounds, |map, _, _| retain_all(map)),
                    Primary::RetainHalf => shuffled::<17>(n, rounds, |map, _, round| retain_half(map, n, round)),
                    Primary::Clear => shuffled::<18>(n, rounds, |map, _, round| {
                        map.clear();
                        insert_all(map, n, round)
                    }),
                    Primary::ClearHalf => clear_halves::<35>(n, rounds),
                    Primary::Drain => shuffled::<19>(n, rounds, |map, _, round| {
                        drain_all(map).wrapping_add(insert_all(map, n, round))
                    }),
                    // Without the black box the compiler leaves the whole clone out.
                    Primary::Clone => shuffled::<20>(n, rounds, |map, _, _| black_box(map.clone()).len() as u64),
                    Primary::CloneFrom => shuffled::<21>(n, rounds, |map, _, _| clone_from_all(map)),
                    Primary::CloneRemove => shuffled::<22>(n, rounds, |map, keys, _| remove_all(&mut map.clone(), keys)),
                    Primary::CloneInto => shuffled::<23>(n, rounds, |map, _, _| take_all(map.clone())),
                })
            }
        }
    };
}

/// One round on a map, if the map has the call.
type Round<M> = Option<fn(&mut M, &mut [DefaultKey], u64) -> u64>;

macro_rules! detach_at_once {
    ($name:ident, $map:ident) => {
        fn $name<const AT: u32>() -> Round<$map<DefaultKey, Value<AT>>> {
            Some(|map, keys, _| {
                let mut sum = Sum::default();
                for &mut key in keys {
                    if let Some(value) = map.detach(key) {
                        map.reattach(key, Value(value.0.wrapping_add(1)));
                        sum.add(value.0);
                        sum.add(1);
                    }
                }
                sum.0
            })
        }
    };
}
detach_at_once!(detach_basic, SlotMap);
detach_at_once!(detach_dense, DenseSlotMap);

macro_rules! detach_all {
    ($name:ident, $map:ident) => {
        fn $name<const AT: u32>() -> Round<$map<DefaultKey, Value<AT>>> {
            Some(|map, keys, round| {
                let mut sum = Sum::default();
                for key in keys.iter() {
                    if let Some(value) = map.detach(*key) {
                        sum.add(value.0);
                    }
                }
                for key in keys {
                    map.reattach(*key, Value(number(*key) ^ round));
                    sum.add(1);
                }
                sum.0
            })
        }
    };
}
detach_all!(detach_all_basic, SlotMap);
detach_all!(detach_all_dense, DenseSlotMap);

/// The calls of a DenseSlotMap alone.
mod dense_alone {
    use super::*;

    type Map<const AT: u32> = DenseSlotMap<DefaultKey, Value<AT>>;

    pub fn iter_mut<const AT: u32>() -> Round<Map<AT>> {
        Some(|map, _, _| {
            for (_, value) in map.iter_mut() {
                value.bump();
            }
            map.len() as u64
        })
    }

    pub fn values_mut<const AT: u32>() -> Round<Map<AT>> {
        Some(|map, _, _| {
            for value in map.values_mut() {
                value.bump();
            }
            map.len() as u64
        })
    }

    /// Exchanges the values of each two neighbours in the list.
    pub fn disjoint<const AT: u32>() -> Round<Map<AT>> {
        Some(|map, keys, _| {
            let mut sum = Sum::default();
            for at in 1..keys.len() {
                if let Some([first, second]) = map.get_disjoint_mut([keys[at - 1], keys[at]]) {
                    sum.add(first.0);
                    std::mem::swap(first, second);
                }
            }
            sum.0
        })
    }
}

/// The maps that lack these.
mod dense_lacks {
    use super::Round;

    pub fn iter_mut<M>() -> Round<M> {
        None
    }

    pub fn values_mut<M>() -> Round<M> {
        None
    }

    pub fn disjoint<M>() -> Round<M> {
        None
    }
}

fn no_call<M>() -> Round<M> {
    None
}

primary_map!(basic, SlotMap, detach_basic(), detach_all_basic(), dense_lacks);
primary_map!(dense, DenseSlotMap, detach_dense(), detach_all_dense(), dense_alone);
primary_map!(hop, HopSlotMap, no_call(), no_call(), dense_lacks);
