//! [`SecondaryMap`], its iterators and its entries.

use crate::proved::slotmap_secondary as proved;
use crate::{Global, Key};
use alloc::vec::Vec;

/// A map that holds more values under the keys of another map: for most of its keys.
///
/// It has a slot for each index up to that of its last key. At each index there is one key at most, the newest that was put there. Putting,
/// removing and looking up take constant time. A walk takes time linear in the number of slots, and yields the pairs by ascending index.
///
/// Index 0, which no key of a primary map has, is an index like any other here. In slotmap `clear`, `drain` and `into_iter` miss it.
///
/// ```
/// use slotmap_proved::{SecondaryMap, SlotMap};
///
/// let mut names = SlotMap::new();
/// let river = names.insert("river");
/// let mut lengths = SecondaryMap::new();
/// lengths.insert(river, 246);
/// assert_eq!((names[river], lengths[river]), ("river", 246));
/// ```
pub struct SecondaryMap<K: Key, V>(pub(crate) proved::SecondaryMap<K, V>);

reading_walks!(SecondaryMap, proved::Drain);
lending_walks!(proved::lent::IterMut);
values!(SecondaryMap, slotmap_secondary, get_disjoint_mut, "invalid SecondaryMap key used");
content!(SecondaryMap, slotmap_secondary);
conversions!(SecondaryMap);
side!(SecondaryMap, slotmap_secondary);
entries!(SecondaryMap, slotmap_secondary, core::convert::identity);

/// Making a map, and its room.
impl<K: Key, V> SecondaryMap<K, V> {
    /// Makes an empty map.
    ///
    /// # Panics
    ///
    /// If memory runs out.
    ///
    /// ```
    #[doc = made_beside!(SecondaryMap)]
    /// map.insert(key, 5);
    /// assert_eq!(map.len(), 1);
    /// ```
    #[doc = clauses!(slotmap_secondary SecondaryMap new)]
    #[track_caller]
    pub fn new() -> Self {
        Self::with_capacity(0)
    }

    /// Makes an empty map with memory for the slots up to this index.
    ///
    /// # Panics
    ///
    /// As [`try_with_capacity`](Self::try_with_capacity) fails.
    ///
    /// ```
    /// use slotmap_proved::{DefaultKey, SecondaryMap};
    ///
    /// let map = SecondaryMap::<DefaultKey, i32>::with_capacity(10);
    /// assert!(map.capacity() >= 10);
    /// ```
    #[doc = clauses!(slotmap_secondary SecondaryMap with_capacity)]
    #[track_caller]
    pub fn with_capacity(capacity: usize) -> Self {
        crate::maps::with_room(Self::try_with_capacity(capacity))
    }

    /// Makes an empty map with memory for the slots up to this index.
    ///
    /// It fails with `TooGreat` if `capacity` exceeds 4294967294, and with `Memory` if memory runs out. Not in slotmap.
    ///
    /// ```
    /// use slotmap_proved::{DefaultKey, SecondaryMap};
    ///
    /// assert!(SecondaryMap::<DefaultKey, i32>::try_with_capacity(10)?.is_empty());
    /// # Ok::<(), slotmap_proved::errors::ReserveError>(())
    /// ```
    #[doc = clauses!(slotmap_secondary SecondaryMap with_capacity)]
    pub fn try_with_capacity(capacity: usize) -> Result<Self, crate::errors::ReserveError> {
        proved::SecondaryMap::with_capacity(Global, capacity).map(SecondaryMap)
    }

    /// Returns the greatest index that there is memory for. Constant time.
    ///
    /// ```
    #[doc = held!(SecondaryMap)]
    /// assert!(map.capacity() >= 1);
    /// ```
    #[doc = clauses!(slotmap_secondary SecondaryMap capacity)]
    pub fn capacity(&self) -> usize {
        self.0.capacity()
    }

    /// Makes sure that there is memory for the slots up to this index: putting keys of these indices allocates nothing then. It never frees
    /// any.
    ///
    /// # Panics
    ///
    /// If the number exceeds 4294967294, or memory runs out. The map is as before then.
    ///
    /// ```
    #[doc = held!(SecondaryMap)]
    /// map.set_capacity(100);
    /// assert!(map.capacity() >= 100);
    /// ```
    #[doc = clauses!(slotmap_secondary SecondaryMap set_capacity)]
    #[track_caller]
    pub fn set_capacity(&mut self, new_capacity: usize) {
        crate::maps::with_room(self.0.set_capacity(new_capacity));
    }

    /// Makes sure of memory, as [`set_capacity`](Self::set_capacity) does, or fails where that panics. The error is that of Rust's
    /// collections.
    ///
    /// ```
    #[doc = held!(SecondaryMap)]
    /// assert!(map.try_set_capacity(100).is_ok());
    /// assert!(map.try_set_capacity(usize::MAX).is_err());
    /// ```
    #[doc = clauses!(slotmap_secondary SecondaryMap try_set_capacity)]
    pub fn try_set_capacity(&mut self, new_capacity: usize) -> Result<(), alloc::collections::TryReserveError> {
        Ok(self.0.set_capacity(new_capacity)?)
    }

    /// Reads a map from a list of its slots, as [`to_slots`](Self::to_slots) returns it.
    ///
    /// It fails if the list is no list of a map's slots, which is tested, or if memory runs out. Not in slotmap, where serde alone reads this
    /// list.
    ///
    /// ```
    #[doc = held!(SecondaryMap)]
    /// let copy: slotmap_proved::SecondaryMap<slotmap_proved::DefaultKey, i32> = slotmap_proved::SecondaryMap::from_slots(map.to_slots()?)?;
    /// assert_eq!(copy[key], 5);
    /// # Ok::<(), Box<dyn std::error::Error>>(())
    /// ```
    #[doc = clauses!(slotmap_secondary SecondaryMap from_slots)]
    pub fn from_slots(list: Vec<crate::serial::SlotRecord<V>>) -> Result<Self, crate::errors::SlotsError> {
        proved::SecondaryMap::from_slots(Global, crate::rt::vec::Vec::from_std(list)).map(SecondaryMap)
    }
}

/// An empty map. It panics if memory runs out.
impl<K: Key, V> Default for SecondaryMap<K, V> {
    #[track_caller]
    fn default() -> Self {
        Self::new()
    }
}
