//! `SlotMap`, `DenseSlotMap` and `HopSlotMap`.
use crate::pair::{run, same, Number, OurKey, Pair, TheirKey};
use std::panic::{catch_unwind, AssertUnwindSafe};

/// The calls of a map with this name in both crates.
macro_rules! primary {
    ($name:ident, $map:ident $(, $detaching:ident)?) => {
        #[allow(deprecated)]
        mod $name {
            use super::*;
            type Maps = Pair<slotmap_proved::$map<OurKey, u32>, slotmap::$map<TheirKey, u32>>;

            fn insert(pair: &mut Maps) {
                if pair.ours.len() >= 60 {
                    return;
                }
                let (value, fails) = (pair.random.value(), pair.random.below(8) == 0);
                let key = match pair.random.below(3) {
                    0 => same!(pair, |map, key| map.insert(value).number()),
                    1 => same!(pair, |map, key| map.insert_with_key(|key| key.number() as u32 ^ value).number()),
                    _ => {
                        let tried = same!(pair, |map, key| map
                            .try_insert_with_key(|key| if fails { Err(key.number()) } else { Ok(key.number() as u32) })
                            .map(|key| key.number()));
                        match tried {
                            Ok(key) => key,
                            Err(_) => return,
                        }
                    }
                };
                pair.known.push(key);
            }

            fn remove(pair: &mut Maps) {
                let at = pair.any();
                same!(pair, |map, key| map.remove(key(at)));
            }

            fn look(pair: &mut Maps) {
                let at = pair.any();
                same!(pair, |map, key| map.contains_key(key(at)));
                same!(pair, |map, key| map.get(key(at)).copied());
                same!(pair, |map, key| format!("{:?} {}", key(at), key(at).number()));
                same!(pair, |map, key| (map.len(), map.is_empty(), map.capacity() >= map.len()));
            }

            fn change(pair: &mut Maps) {
                let (at, value) = (pair.any(), pair.random.value());
                let found = same!(pair, |map, key| map.get_mut(key(at)).map(|old| std::mem::replace(old, value)));
                if found.is_some() {
                    same!(pair, |map, key| map[key(at)]);
                    same!(pair, |map, key| {
                        map[key(at)] ^= 1;
                        // The key is live: it was found.
                        unsafe { *map.get_unchecked_mut(key(at)) ^= 2 };
                        unsafe { *map.get_unchecked(key(at)) }
                    });
                }
            }

            fn index(pair: &mut Maps) {
                let at = pair.any();
                if pair.ours.contains_key(crate::pair::our(at)) || pair.random.below(20) != 0 {
                    return;
                }
                same!(pair, |map, key| catch_unwind(AssertUnwindSafe(|| map[key(at)])).is_err());
                same!(pair, |map, key| catch_unwind(AssertUnwindSafe(|| map[key(at)] = 1)).is_err());
            }

            fn disjoint(pair: &mut Maps) {
                let (one, other, third) = (pair.any(), pair.any(), pair.any());
                same!(pair, |map, key| map.get_disjoint_mut([key(one), key(other)]).map(|values| {
                    let [one, other] = values;
                    std::mem::swap(one, other);
                    (*one, *other)
                }));
                same!(pair, |map, key| map.get_disjoint_mut([key(third), key(one), key(other)]).map(|values| values.map(|value| {
                    *value ^= 5;
                    *value
                })));
                same!(pair, |map, key| map.get_disjoint_mut([] as [_; 0]).is_some());
            }

            fn walk(pair: &mut Maps) {
                same!(pair, |map, key| map.iter().map(|(key, value)| (key.number(), *value)).collect::<Vec<_>>());
                same!(pair, |map, key| map.keys().map(|key| key.number()).collect::<Vec<_>>());
                same!(pair, |map, key| map.values().copied().collect::<Vec<_>>());
                same!(pair, |map, key| map.iter().fold((map.iter().len(), map.iter().size_hint()), |left, _| left));
                let steps = pair.random.below(20);
                same!(pair, |map, key| {
                    let mut walk = map.iter();
                    let begun = walk.by_ref().take(steps).count();
                    let copy = walk.clone();
                    (begun, walk.len(), walk.map(|pair| *pair.1).collect::<Vec<_>>(), copy.count())
                });
            }

            fn walk_changing(pair: &mut Maps) {
                let bits = pair.random.value();
                same!(pair, |map, key| {
                    for (key, value) in map.iter_mut() {
                        *value ^= key.number() as u32 & bits;
                    }
                    for value in map.values_mut() {
                        *value ^= 3;
                    }
                    for (_, value) in &mut *map {
                        *value ^= 8;
                    }
                    (map.iter_mut().len(), map.values_mut().len(), (&*map).into_iter().map(|pair| *pair.1).collect::<Vec<_>>())
                });
            }

            fn retain(pair: &mut Maps) {
                let (divisor, bits) = (2 + pair.random.below(4) as u32, pair.random.value());
                same!(pair, |map, key| {
                    let mut seen = Vec::new();
                    map.retain(|key, value| {
                        seen.push((key.number(), *value));
                        *value ^= bits & 4;
                        *value % divisor != 0
                    });
                    seen
                });
            }

            fn drain(pair: &mut Maps) {
                let steps = pair.random.below(30);
                same!(pair, |map, key| {
                    let mut drain = map.drain();
                    let left = drain.size_hint();
                    (left, drain.by_ref().take(steps).map(|(key, value)| (key.number(), value)).collect::<Vec<_>>())
                });
                same!(pair, |map, key| map.len());
            }

            fn clear(pair: &mut Maps) {
                same!(pair, |map, key| {
                    map.clear();
                    map.len()
                });
            }

            /// The two maps go on as their clones.
            fn clone(pair: &mut Maps) {
                if pair.random.below(2) == 0 {
                    (pair.ours, pair.theirs) = (pair.ours.clone(), pair.theirs.clone());
                } else {
                    let (ours, theirs) = (std::mem::take(&mut pair.ours), std::mem::take(&mut pair.theirs));
                    for value in 0..pair.random.below(5) as u32 {
                        same!(pair, |map, key| map.insert(value).number());
                    }
                    pair.ours.clone_from(&ours);
                    pair.theirs.clone_from(&theirs);
                }
                let steps = pair.random.below(30);
                same!(pair, |map, key| {
                    let mut all = map.clone().into_iter();
                    let some: Vec<_> = all.by_ref().take(steps).map(|(key, value)| (key.number(), value)).collect();
                    (some, all.len(), all.clone().map(|pair| pair.1).collect::<Vec<_>>())
                });
            }

            fn reserve(pair: &mut Maps) {
                let additional = pair.random.below(50);
                same!(pair, |map, key| {
                    map.reserve(additional);
                    let tried = map.try_reserve(additional).is_ok();
                    (tried, map.capacity() >= map.len() + additional)
                });
            }

            $(primary!(@$detaching);)?

            #[test]
            fn the_same() {
                run(&[
                    (90, insert),
                    (60, remove),
                    (40, look),
                    (20, change),
                    (10, index),
                    (20, disjoint),
                    (8, walk),
                    (4, walk_changing),
                    (2, retain),
                    (1, drain),
                    (1, clear),
                    (3, clone),
                    (2, reserve),
                    $((15, primary!(@$detaching detach)), (15, primary!(@$detaching reattach)),)?
                    (2, crate::serde::$name),
                ]);
            }
        }
    };
    (@detaching) => {
        fn detach(pair: &mut Maps) {
            let at = pair.any();
            if same!(pair, |map, key| map.detach(key(at))).is_some() {
                pair.detached.push(at);
            }
        }

        fn reattach(pair: &mut Maps) {
            let value = pair.random.value();
            if let Some(at) = pair.detached.pop() {
                same!(pair, |map, key| catch_unwind(AssertUnwindSafe(|| map.reattach(key(at), value))).is_ok());
            }
            let at = pair.any();
            if !pair.detached.contains(&at) && pair.random.below(20) == 0 {
                same!(pair, |map, key| catch_unwind(AssertUnwindSafe(|| map.reattach(key(at), value))).is_ok());
            }
        }
    };
    (@detaching $call:ident) => {
        $call
    };
}

primary!(slot_map, SlotMap, detaching);
primary!(dense, DenseSlotMap, detaching);
primary!(hop, HopSlotMap);
