//! `SecondaryMap` and `SparseSecondaryMap`.
use crate::pair::{run, same, Number, OurKey, Pair, TheirKey};
use std::panic::{catch_unwind, AssertUnwindSafe};

/// A key of a small index, so that versions of a slot meet; seldom the null key.
fn key_of<O, T>(pair: &mut Pair<O, T>) -> u64 {
    let (index, version) = (1 + pair.random.below(24) as u64, [1, 3, 5, 0x7fff_ffff][pair.random.below(4)]);
    match pair.random.below(60) {
        0 => 0x1_ffff_ffff,
        _ => version << 32 | index,
    }
}

/// Pairs in the order of the keys, where a map has them in any order.
fn in_order<const SORTED: bool, V: Ord>(pairs: impl Iterator<Item = (u64, V)>) -> Vec<(u64, V)> {
    let mut pairs: Vec<_> = pairs.collect();
    if !SORTED {
        pairs.sort();
    }
    pairs
}

/// The calls of a map with this name in both crates. `$sorted`: its iterators yield by ascending index.
macro_rules! side {
    ($name:ident, $map:ident, $sorted:expr, $serde:ident) => {
        mod $name {
            use super::*;
            type Maps = Pair<slotmap_proved::$map<OurKey, u32>, slotmap::$map<TheirKey, u32>>;

            fn insert(pair: &mut Maps) {
                let (at, value) = (key_of(pair), pair.random.value());
                same!(pair, |map, key| map.insert(key(at), value));
                pair.known.push(at);
            }

            fn remove(pair: &mut Maps) {
                let at = key_of(pair);
                same!(pair, |map, key| map.remove(key(at)));
            }

            fn look(pair: &mut Maps) {
                let at = key_of(pair);
                same!(pair, |map, key| (map.contains_key(key(at)), map.get(key(at)).copied(), map.len(), map.is_empty()));
            }

            fn change(pair: &mut Maps) {
                let (at, value) = (key_of(pair), pair.random.value());
                let found = same!(pair, |map, key| map.get_mut(key(at)).map(|old| std::mem::replace(old, value)));
                if found.is_some() {
                    same!(pair, |map, key| {
                        map[key(at)] ^= 1;
                        // The key is live: it was found.
                        unsafe { *map.get_unchecked_mut(key(at)) ^= 2 };
                        (map[key(at)], unsafe { *map.get_unchecked(key(at)) })
                    });
                } else if pair.random.below(20) == 0 {
                    same!(pair, |map, key| catch_unwind(AssertUnwindSafe(|| map[key(at)])).is_err());
                    same!(pair, |map, key| catch_unwind(AssertUnwindSafe(|| map[key(at)] = 1)).is_err());
                }
            }

            fn disjoint(pair: &mut Maps) {
                let (one, other, third) = (key_of(pair), key_of(pair), key_of(pair));
                same!(pair, |map, key| map.get_disjoint_mut([key(one), key(other)]).map(|[one, other]| {
                    std::mem::swap(one, other);
                    (*one, *other)
                }));
                same!(pair, |map, key| map.get_disjoint_mut([key(one), key(other), key(third)]).map(|values| values.map(|value| *value)));
            }

            /// The calls of an entry that hand it on.
            fn entry(pair: &mut Maps) {
                let (at, value) = (key_of(pair), pair.random.value());
                match pair.random.below(5) {
                    0 => same!(pair, |map, key| map.entry(key(at)).map(|entry| *entry.or_insert(value))),
                    1 => same!(pair, |map, key| map.entry(key(at)).map(|entry| *entry.or_insert_with(|| value))),
                    2 => same!(pair, |map, key| map.entry(key(at)).map(|entry| *entry.or_default())),
                    3 => same!(pair, |map, key| map.entry(key(at)).map(|entry| *entry.and_modify(|old| *old ^= value).or_insert(1))),
                    _ => same!(pair, |map, key| map.entry(key(at)).map(|entry| entry.key().number() as u32)),
                };
                same!(pair, |map, key| map.get(key(at)).copied());
            }

            side!(@entries $name);

            /// What a map does with an occupied and with a vacant entry.
            fn matched(pair: &mut Maps) {
                let (at, value, way) = (key_of(pair), pair.random.value(), pair.random.below(5));
                let ours = our_entry(&mut pair.ours, at, value, way);
                let theirs = their_entry(&mut pair.theirs, at, value, way);
                assert_eq!(ours, theirs, "seed {}", pair.seed);
                same!(pair, |map, key| map.get(key(at)).copied());
            }

            fn extend(pair: &mut Maps) {
                let pairs: Vec<(u64, u32)> = (0..pair.random.below(6)).map(|_| (key_of(pair), pair.random.value())).collect();
                same!(pair, |map, key| map.extend(pairs.iter().map(|pair| (key(pair.0), pair.1))));
                same!(pair, |map, key| map.extend(pairs.iter().map(|pair| (key(pair.0), &pair.1))));
                let ours: slotmap_proved::$map<_, _> = pairs.iter().map(|pair| (crate::pair::our(pair.0), pair.1)).collect();
                let theirs: slotmap::$map<_, _> = pairs.iter().map(|pair| (crate::pair::their(pair.0), pair.1)).collect();
                let all = in_order::<$sorted, u32>(ours.iter().map(|(key, value)| (key.number(), *value)));
                assert_eq!(all, in_order::<$sorted, u32>(theirs.iter().map(|(key, value)| (key.number(), *value))), "seed {}", pair.seed);
                assert_eq!(pair.ours == ours, pair.theirs == theirs, "seed {}", pair.seed);
            }

            fn walk(pair: &mut Maps) {
                same!(pair, |map, key| in_order::<$sorted, u32>(map.iter().map(|(key, value)| (key.number(), *value))));
                same!(pair, |map, key| in_order::<$sorted, ()>(map.keys().map(|key| (key.number(), ()))));
                same!(pair, |map, key| in_order::<$sorted, ()>(map.values().map(|value| (u64::from(*value), ()))));
                let steps = pair.random.below(20);
                same!(pair, |map, key| {
                    let mut walk = map.iter();
                    let begun = walk.by_ref().take(steps).count();
                    (begun, walk.len(), walk.clone().count(), walk.size_hint())
                });
            }

            fn walk_changing(pair: &mut Maps) {
                let bits = pair.random.value();
                same!(pair, |map, key| {
                    map.iter_mut().for_each(|(key, value)| *value ^= key.number() as u32 & bits);
                    map.values_mut().for_each(|value| *value ^= 3);
                    (&mut *map).into_iter().for_each(|pair| *pair.1 ^= 8);
                    in_order::<$sorted, u32>((&*map).into_iter().map(|(key, value)| (key.number(), *value)))
                });
            }

            fn retain(pair: &mut Maps) {
                let (divisor, bits) = (2 + pair.random.below(4) as u32, pair.random.value());
                same!(pair, |map, key| {
                    let mut seen = Vec::new();
                    map.retain(|key, value| {
                        seen.push((key.number(), *value));
                        *value ^= bits & 4;
                        *value % divisor != 0
                    });
                    in_order::<$sorted, u32>(seen.into_iter())
                });
            }

            fn drain(pair: &mut Maps) {
                let steps = if pair.random.below(2) == 0 { pair.random.below(20) } else { usize::MAX };
                same!(pair, |map, key| {
                    let mut drain = map.drain();
                    let left = drain.size_hint();
                    let some: Vec<_> = drain.by_ref().take(steps).map(|(key, value)| (key.number(), value)).collect();
                    // Where a map has its pairs in any order, some of them can be any.
                    let some = if $sorted || steps == usize::MAX { in_order::<$sorted, u32>(some.into_iter()) } else { Vec::new() };
                    (left, some)
                });
                same!(pair, |map, key| map.len());
            }

            fn clear(pair: &mut Maps) {
                same!(pair, |map, key| {
                    map.clear();
                    map.len()
                });
            }

            /// The two maps go on as their clones.
            fn clone(pair: &mut Maps) {
                if pair.random.below(2) == 0 {
                    (pair.ours, pair.theirs) = (pair.ours.clone(), pair.theirs.clone());
                } else {
                    let (ours, theirs) = (std::mem::take(&mut pair.ours), std::mem::take(&mut pair.theirs));
                    insert(pair);
                    pair.ours.clone_from(&ours);
                    pair.theirs.clone_from(&theirs);
                    assert!(pair.ours == ours && pair.theirs == theirs);
                }
                same!(pair, |map, key| in_order::<$sorted, u32>(map.clone().into_iter().map(|(key, value)| (key.number(), value))));
                same!(pair, |map, key| map.clone().into_iter().size_hint());
            }

            #[test]
            fn the_same() {
                run(&[
                    (80, insert),
                    (50, remove),
                    (40, look),
                    (20, change),
                    (20, disjoint),
                    (60, entry),
                    (60, matched),
                    (10, extend),
                    (8, walk),
                    (4, walk_changing),
                    (3, retain),
                    (2, drain),
                    (2, clear),
                    (4, clone),
                    (2, crate::serde::$serde),
                ]);
            }
        }
    };
    (@entries $name:ident) => {
        side!(@entry our_entry, slotmap_proved, our, OurKey, $name);
        side!(@entry their_entry, slotmap, their, TheirKey, $name);
    };
    (@entry $call:ident, $library:ident, $key:ident, $key_type:ident, secondary) => {
        side!(@matched $call, $library::secondary::Entry, $key, $library::SecondaryMap<$key_type, u32>);
    };
    (@entry $call:ident, $library:ident, $key:ident, $key_type:ident, sparse_secondary) => {
        side!(@matched $call, $library::sparse_secondary::Entry, $key, $library::SparseSecondaryMap<$key_type, u32>);
    };
    (@matched $call:ident, $entry:path, $key:ident, $map:ty) => {
        fn $call(map: &mut $map, at: u64, value: u32, way: usize) -> Option<(u64, u32, u32)> {
            use $entry as Entry;
            Some(match map.entry(crate::pair::$key(at))? {
                Entry::Vacant(vacant) if way == 0 => (vacant.key().number(), 0, 0),
                Entry::Vacant(vacant) => (vacant.key().number(), 1, *vacant.insert(value)),
                Entry::Occupied(mut occupied) => {
                    let (number, old) = (occupied.key().number(), *occupied.get());
                    *occupied.get_mut() ^= 1;
                    match way {
                        0 => (number, old, occupied.insert(value)),
                        1 => (number, old, occupied.remove()),
                        2 => {
                            let (key, removed) = occupied.remove_entry();
                            (key.number(), old, removed)
                        }
                        _ => {
                            let lent = occupied.into_mut();
                            *lent ^= value;
                            (number, old, *lent)
                        }
                    }
                }
            })
        }
    };
}

side!(secondary, SecondaryMap, true, secondary);
side!(sparse_secondary, SparseSecondaryMap, false, sparse_secondary);
