//! The keys that a map returns, and those that it must not find.

use slotmap_proved::{Key, KeyData};
use std::collections::BTreeMap;
use super::random::Random;

/// The index and the version of a key.
pub fn parts<K: Key>(key: K) -> (u32, u32) {
    let number = key.data().as_ffi();
    (number as u32, (number >> 32) as u32)
}

/// The key of an index and a version.
pub fn key_of<K: Key>(index: u32, version: u32) -> K {
    K::from(KeyData::from_ffi(u64::from(version) << 32 | u64::from(index)))
}

/// All keys that a map has returned.
pub struct Issued<K> {
    /// The last version of each index.
    last: BTreeMap<u32, u32>,
    all: Vec<K>,
}

impl<K: Key> Issued<K> {
    pub fn new() -> Self {
        Issued { last: BTreeMap::new(), all: Vec::new() }
    }

    /// Notes a new key. No key comes twice: the versions are odd, and those of an index grow.
    pub fn note(&mut self, key: K) {
        let (index, version) = parts(key);
        assert!(version % 2 == 1, "the version of {key:?} is even");
        assert!(index != 0 && index != u32::MAX, "{key:?} has an index that no key has");
        let last = self.last.insert(index, version).unwrap_or(0);
        assert!(last < version, "{key:?} comes behind version {last} of this index");
        self.all.push(key);
    }

    /// One of the keys, the null key, or a key that was made up.
    pub fn any(&self, random: &mut Random) -> K {
        let made_up = [K::null(), K::default(), key_of(1, 1), key_of(u32::MAX, 1), key_of(1 << 20, 1), key_of(2, u32::MAX)];
        match self.all.last() {
            Some(last) if random.one_of(4) => {
                // A version that comes later, and an index that comes later.
                let (index, version) = parts(*last);
                *random.pick(&[key_of(index, version.wrapping_add(2)), key_of(index + 1, 1), key_of(index, version ^ 1)])
            }
            Some(_) if !random.one_of(3) => *random.pick(&self.all),
            _ => *random.pick(&made_up),
        }
    }

    /// Mostly one of the live keys, else any.
    pub fn pick(&self, random: &mut Random, live: &[K]) -> K {
        if live.is_empty() || random.one_of(4) {
            self.any(random)
        } else {
            *random.pick(live)
        }
    }
}
