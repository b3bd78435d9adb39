//! Keys and hashers that break the laws of their traits. The maps may answer wrongly then, as their pages say, and panic; no other map is
//! touched. A call may also not return: so no `HopSlotMap` is here, whose blocks such a key can join to a ring. And a drain may panic
//! in its drop: so none is here, since a second panic ends the program.

use super::{key, reason};
use slotmap_proved::{DefaultKey, DenseSlotMap, Key, KeyData, SecondaryMap, SlotMap, SparseSecondaryMap};
use std::cell::Cell;
use std::collections::BTreeMap;
use std::hash::{BuildHasher, Hasher};

thread_local! {
    /// How often a liar was asked.
    static ASKED: Cell<u64> = const { Cell::new(0) };
}

/// A number that looks random, and another one at each call.
fn asked() -> u64 {
    ASKED.with(|asked| {
        asked.set(asked.get().wrapping_mul(6364136223846793005).wrapping_add(1442695040888963407));
        asked.get() >> 33
    })
}

/// A key that often says that it is another one, null, or one of no map.
#[derive(Clone, Copy, Debug, Default, PartialEq, Eq, PartialOrd, Ord, Hash)]
struct LyingKey(KeyData);

impl From<KeyData> for LyingKey {
    fn from(data: KeyData) -> Self {
        LyingKey(if asked() % 4 == 0 { LyingKey(data).data() } else { data })
    }
}

impl Key for LyingKey {
    fn null() -> Self {
        LyingKey(KeyData::default())
    }

    fn is_null(&self) -> bool {
        asked() % 2 == 0
    }

    fn data(&self) -> KeyData {
        match asked() % 8 {
            0 => KeyData::default(),
            1 => KeyData::new(asked() as u32 % 12, self.0.version()),
            2 => KeyData::new(self.0.idx(), asked() as u32 % 8),
            3 => KeyData::new(asked() as u32 % 12, asked() as u32),
            _ => self.0,
        }
    }
}

macro_rules! each_call {
    ($map:ident, $insert:expr) => {
        let mut panics = 0;
        for start in 0..300 {
            ASKED.with(|asked| asked.set(start));
            let (mut honest, mut map) = (SlotMap::new(), $map::<LyingKey, u64>::default());
            let kept: Vec<_> = (0..9).map(|value| honest.insert(value)).collect();
            let mut keys: Vec<_> = (1..9).map(|index| LyingKey(KeyData::new(index, 1))).collect();
            for step in 0..60 {
                let key = keys[asked() as usize % keys.len()];
                let said = reason(|| match step % 12 {
                    0 => drop(map.remove(key)),
                    1 => map.retain(|_, value| *value % 3 > 0),
                    2 => drop(map.get_disjoint_mut([key, keys[0]])),
                    3 => map.iter_mut().for_each(|pair| *pair.1 += 1),
                    4 => assert!(map.iter().count() <= 1 << 16),
                    5 if step > 40 => map.clear(),
                    6 => drop(map.clone()),
                    7 => drop(map.get_mut(key)),
                    8 => drop(map.to_slots()),
                    _ => keys.extend($insert(&mut map, key)),
                });
                panics += usize::from(said.is_some_and(|said| !said.is_empty()));
            }
            reason(|| drop(map));
            assert!(kept.iter().zip(0..).all(|(key, value)| honest[*key] == value) && honest.len() == 9);
        }
        assert!(panics > 0, "no lie was noticed");
    };
}

#[test]
fn keys_of_primary_maps() {
    each_call!(SlotMap, |map: &mut SlotMap<_, _>, _| Some(map.insert(1)));
    each_call!(DenseSlotMap, |map: &mut DenseSlotMap<_, _>, _| Some(map.insert(1)));
}

#[test]
fn keys_of_secondary_maps() {
    each_call!(SecondaryMap, |map: &mut SecondaryMap<_, _>, key| map.insert(key, 1).map(|_| key));
    each_call!(SparseSecondaryMap, |map: &mut SparseSecondaryMap<_, _>, key| map.insert(key, 1).map(|_| key));
}

/// A hasher that returns another number at each call.
#[derive(Clone, Default)]
struct Lying;

impl Hasher for Lying {
    fn finish(&self) -> u64 {
        asked() << 40 | asked()
    }

    fn write(&mut self, _: &[u8]) {}
}

impl BuildHasher for Lying {
    type Hasher = Lying;

    fn build_hasher(&self) -> Lying {
        Lying
    }
}

/// Where hashes lie, a pair may not be found. But what is found under a key was put there under that key.
#[test]
fn hashers() {
    for start in 0..200 {
        ASKED.with(|asked| asked.set(start));
        let mut map: SparseSecondaryMap<DefaultKey, (DefaultKey, u64), Lying> = SparseSecondaryMap::default();
        let mut put: BTreeMap<DefaultKey, Vec<u64>> = BTreeMap::new();
        for step in 0..200 {
            let key = key(1 + asked() as u32 % 8, asked() as u32 % 6);
            reason(|| match asked() % 8 {
                0 => drop(map.remove(key).map(|value| assert_eq!(value.0, key))),
                1 => drop(map.entry(key).map(|entry| entry.or_insert((key, step)).0)),
                2 => map.retain(|key, value| key == value.0),
                3 => drop(map.get_disjoint_mut([key, super::key(2, 1)])),
                4 if step % 50 == 0 => drop(map.drain().next()),
                _ => drop(map.insert(key, (key, step))),
            });
            put.entry(key).or_default().push(step);
            for (key, value) in &map {
                assert_eq!(value.0, key);
            }
            for (key, steps) in &put {
                assert!(map.get(*key).map_or(true, |value| value.0 == *key && steps.contains(&value.1)), "{key:?}");
            }
        }
    }
}
