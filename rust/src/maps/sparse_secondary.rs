//! [`SparseSecondaryMap`], its iterators and its entries.

use crate::proved::slotmap_sparse as proved;
use crate::{Global, Key};
use alloc::vec::Vec;
use core::hash::BuildHasher;
use std::collections::hash_map::RandomState;

/// A map that holds more values under the keys of another map: for few of its keys.
///
/// It is a hash map by index, so it takes memory for the keys that it has and no others. At each index there is one key at most, the newest
/// that was put there. Putting, removing and looking up take constant time on average, as Rust's hash map does. The pairs come in the order
/// of that map.
///
/// Its entries name the hasher's type too, unless it is the default one. In slotmap they don't.
///
/// ```
/// use slotmap_proved::{SlotMap, SparseSecondaryMap};
///
/// let mut names = SlotMap::new();
/// let river = names.insert("river");
/// let mut lengths = SparseSecondaryMap::new();
/// lengths.insert(river, 246);
/// assert_eq!((names[river], lengths[river]), ("river", 246));
/// ```
pub struct SparseSecondaryMap<K: Key, V, S: BuildHasher = RandomState>(pub(crate) proved::SparseSecondaryMap<K, V, S>);

reading_walks!(SparseSecondaryMap, proved::lent::Drain);
lending_walks!(proved::lent::IterMut);
values!(SparseSecondaryMap, slotmap_sparse, get_disjoint_mut, "invalid SparseSecondaryMap key used", S);
content!(SparseSecondaryMap, slotmap_sparse, S);
conversions!(SparseSecondaryMap, S);
side!(SparseSecondaryMap, slotmap_sparse, S);
entries!(SparseSecondaryMap, slotmap_sparse, crate::maps::in_memory, S: BuildHasher = RandomState);

/// Making a map with Rust's default hasher.
impl<K: Key, V> SparseSecondaryMap<K, V> {
    /// Makes an empty map. It allocates nothing.
    ///
    /// ```
    #[doc = made_beside!(SparseSecondaryMap)]
    /// map.insert(key, 5);
    /// assert_eq!(map.len(), 1);
    /// ```
    #[doc = clauses!(slotmap_sparse SparseSecondaryMap new)]
    pub fn new() -> Self {
        Self::with_hasher(RandomState::new())
    }

    /// Makes an empty map with room for this many values.
    ///
    /// # Panics
    ///
    /// If `capacity` exceeds 4294967295, or memory runs out; [`try_with_capacity_and_hasher`](Self::try_with_capacity_and_hasher) returns an
    /// error then.
    ///
    /// ```
    /// use slotmap_proved::{DefaultKey, SparseSecondaryMap};
    ///
    /// let map = SparseSecondaryMap::<DefaultKey, i32>::with_capacity(10);
    /// assert!(map.capacity() >= 10);
    /// ```
    #[doc = clauses!(slotmap_sparse SparseSecondaryMap with_capacity)]
    #[track_caller]
    pub fn with_capacity(capacity: usize) -> Self {
        Self::with_capacity_and_hasher(capacity, RandomState::new())
    }
}

/// Making a map with a hasher of one's own, and its room.
impl<K: Key, V, S: BuildHasher> SparseSecondaryMap<K, V, S> {
    /// Makes an empty map that hashes by this hasher. It allocates nothing.
    ///
    /// ```
    /// use slotmap_proved::{DefaultKey, SparseSecondaryMap};
    /// use std::collections::hash_map::RandomState;
    ///
    /// let map = SparseSecondaryMap::<DefaultKey, i32, _>::with_hasher(RandomState::new());
    /// assert!(map.is_empty());
    /// ```
    #[doc = clauses!(slotmap_sparse SparseSecondaryMap with_hasher)]
    pub fn with_hasher(hash_builder: S) -> Self {
        SparseSecondaryMap(crate::maps::with_room(proved::SparseSecondaryMap::with_hasher(Global, hash_builder)))
    }

    /// Makes an empty map with room for this many values, which hashes by this hasher.
    ///
    /// # Panics
    ///
    /// As [`try_with_capacity_and_hasher`](Self::try_with_capacity_and_hasher) fails.
    ///
    /// ```
    /// use slotmap_proved::{DefaultKey, SparseSecondaryMap};
    /// use std::collections::hash_map::RandomState;
    ///
    /// let map = SparseSecondaryMap::<DefaultKey, i32, _>::with_capacity_and_hasher(10, RandomState::new());
    /// assert!(map.capacity() >= 10);
    /// ```
    #[doc = clauses!(slotmap_sparse SparseSecondaryMap with_capacity_and_hasher)]
    #[track_caller]
    pub fn with_capacity_and_hasher(capacity: usize, hash_builder: S) -> Self {
        crate::maps::with_room(Self::try_with_capacity_and_hasher(capacity, hash_builder))
    }

    /// Makes an empty map with room for this many values, which hashes by this hasher.
    ///
    /// It fails with `TooGreat` if `capacity` exceeds 4294967295, and with `Memory` if memory runs out. Not in slotmap.
    ///
    /// ```
    /// use slotmap_proved::{DefaultKey, SparseSecondaryMap};
    /// use std::collections::hash_map::RandomState;
    ///
    /// type Map = SparseSecondaryMap<DefaultKey, i32>;
    /// assert!(Map::try_with_capacity_and_hasher(10, RandomState::new())?.is_empty());
    /// # Ok::<(), slotmap_proved::errors::ReserveError>(())
    /// ```
    #[doc = clauses!(slotmap_sparse SparseSecondaryMap with_capacity_and_hasher)]
    pub fn try_with_capacity_and_hasher(capacity: usize, hash_builder: S) -> Result<Self, crate::errors::ReserveError> {
        proved::SparseSecondaryMap::with_capacity_and_hasher(Global, capacity, hash_builder).map(SparseSecondaryMap)
    }

    /// Returns for how many values there is memory. Constant time.
    ///
    /// ```
    #[doc = held!(SparseSecondaryMap)]
    /// assert!(map.capacity() >= map.len());
    /// ```
    #[doc = clauses!(slotmap_sparse SparseSecondaryMap capacity)]
    pub fn capacity(&self) -> usize {
        self.0.capacity()
    }

    /// Makes room for this many more values: putting them allocates nothing then.
    ///
    /// # Panics
    ///
    /// If there would be more than 4294967295 values, or memory runs out. The map is as before then.
    ///
    /// ```
    #[doc = held!(SparseSecondaryMap)]
    /// map.reserve(32);
    /// assert!(map.capacity() >= 33);
    /// ```
    #[doc = clauses!(slotmap_sparse SparseSecondaryMap reserve)]
    #[track_caller]
    pub fn reserve(&mut self, additional: usize) {
        crate::maps::with_room(self.0.reserve(additional));
    }

    /// Makes room for this many more values, as [`reserve`](Self::reserve) does, or fails where that panics. The error is that of Rust's
    /// collections.
    ///
    /// ```
    #[doc = held!(SparseSecondaryMap)]
    /// assert!(map.try_reserve(32).is_ok());
    /// assert!(map.try_reserve(usize::MAX).is_err());
    /// ```
    #[doc = clauses!(slotmap_sparse SparseSecondaryMap try_reserve)]
    pub fn try_reserve(&mut self, additional: usize) -> Result<(), alloc::collections::TryReserveError> {
        Ok(self.0.reserve(additional)?)
    }

    /// Reads a map from a list of its slots, as [`to_slots`](Self::to_slots) returns it, which hashes by this hasher.
    ///
    /// It fails if the list is no list of a map's slots, which is tested, or if memory runs out. Not in slotmap, where serde alone reads this
    /// list.
    ///
    /// ```
    /// use slotmap_proved::{DefaultKey, SparseSecondaryMap};
    /// use std::collections::hash_map::RandomState;
    ///
    #[doc = held!(SparseSecondaryMap)]
    /// let copy = SparseSecondaryMap::<DefaultKey, i32>::from_slots_with_hasher(map.to_slots()?, RandomState::new())?;
    /// assert_eq!(copy[key], 5);
    /// # Ok::<(), Box<dyn std::error::Error>>(())
    /// ```
    #[doc = clauses!(slotmap_sparse SparseSecondaryMap from_slots_with_hasher)]
    pub fn from_slots_with_hasher(list: Vec<crate::serial::SlotRecord<V>>, hash_builder: S) -> Result<Self, crate::errors::SlotsError> {
        proved::SparseSecondaryMap::from_slots_with_hasher(Global, crate::rt::vec::Vec::from_std(list), hash_builder).map(SparseSecondaryMap)
    }
}

/// Putting a value at the place of a key, with an error for want of memory.
impl<'a, K: Key, V, S: BuildHasher> VacantEntry<'a, K, V, S> {
    /// Puts a value there, and returns a reference to it. If memory runs out, it fails, and the error has the value. Not in slotmap.
    ///
    /// ```
    #[doc = made_beside!(SparseSecondaryMap)]
    /// use slotmap_proved::sparse_secondary::Entry;
    ///
    /// if let Some(Entry::Vacant(entry)) = map.entry(key) {
    ///     assert_eq!(entry.try_insert(7)?, &7);
    /// }
    /// # Ok::<(), slotmap_proved::errors::PutError<i32>>(())
    /// ```
    #[doc = clauses!(slotmap_sparse VacantEntry insert)]
    pub fn try_insert(self, value: V) -> Result<&'a mut V, crate::errors::PutError<V>> {
        self.0.insert(value)
    }
}

/// An empty map, with the hasher's default.
impl<K: Key, V, S: BuildHasher + Default> Default for SparseSecondaryMap<K, V, S> {
    fn default() -> Self {
        Self::with_hasher(S::default())
    }
}
