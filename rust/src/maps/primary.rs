//! Calls that make a primary map, and calls on its room.

/// A map that makes the keys of its values: the type, and the calls that make one.
macro_rules! primary {
    ($(#[$doc:meta])* $map:ident, $proved:ident) => {
        use crate::proved::$proved as proved;
        use crate::{DefaultKey, Global, Key};

        $(#[$doc])*
        pub struct $map<K: Key, V>(pub(crate) proved::$map<K, V>);

        reading_walks!($map, proved::Drain);

        /// Clones the pairs that are left. It panics if memory runs out.
        impl<K: Key, V: Clone> Clone for IntoIter<K, V> {
            #[track_caller]
            fn clone(&self) -> Self {
                IntoIter(crate::maps::in_memory(crate::rt::TryClone::clone(&self.0)))
            }
        }

        impl<V> $map<DefaultKey, V> {
            /// Makes an empty map, whose keys are of the type [`DefaultKey`].
            ///
            /// It allocates slot 0, which no key uses; so it isn't `const`, and neither is slotmap's.
            ///
            /// # Panics
            ///
            /// If memory runs out.
            ///
            /// ```
            #[doc = made!($map)]
            /// map.insert("river");
            /// assert_eq!(map.len(), 1);
            /// ```
            #[doc = clauses!($proved $map new)]
            #[track_caller]
            pub fn new() -> Self {
                Self::with_key()
            }

            /// Makes an empty map with room for this many values, whose keys are of the type [`DefaultKey`].
            ///
            /// # Panics
            ///
            /// If `capacity` exceeds 4294967294, or memory runs out; [`try_with_capacity_and_key`](Self::try_with_capacity_and_key) returns
            /// an error then.
            ///
            /// ```
            #[doc = concat!("let map: slotmap_proved::", stringify!($map), "<_, i32> = slotmap_proved::", stringify!($map), "::with_capacity(10);")]
            /// assert!(map.capacity() >= 10);
            /// ```
            #[doc = clauses!($proved $map with_capacity)]
            #[track_caller]
            pub fn with_capacity(capacity: usize) -> Self {
                Self::with_capacity_and_key(capacity)
            }
        }

        impl<K: Key, V> $map<K, V> {
            /// Makes an empty map, whose keys are of the type `K`.
            ///
            /// # Panics
            ///
            /// If memory runs out.
            ///
            /// ```
            /// slotmap_proved::new_key_type! {
            ///     struct CityKey;
            /// }
            #[doc = concat!("let mut map: slotmap_proved::", stringify!($map), "<CityKey, &str> = slotmap_proved::", stringify!($map), "::with_key();")]
            /// let key: CityKey = map.insert("Basel");
            /// assert_eq!(map[key], "Basel");
            /// ```
            #[doc = clauses!($proved $map with_key)]
            #[track_caller]
            pub fn with_key() -> Self {
                Self::with_capacity_and_key(0)
            }

            /// Makes an empty map with room for this many values, whose keys are of the type `K`.
            ///
            /// # Panics
            ///
            /// As [`try_with_capacity_and_key`](Self::try_with_capacity_and_key) fails.
            ///
            /// ```
            /// use slotmap_proved::DefaultKey;
            ///
            #[doc = concat!("let map = slotmap_proved::", stringify!($map), "::<DefaultKey, i32>::with_capacity_and_key(10);")]
            /// assert!(map.capacity() >= 10);
            /// ```
            #[doc = clauses!($proved $map with_capacity_and_key)]
            #[track_caller]
            pub fn with_capacity_and_key(capacity: usize) -> Self {
                crate::maps::with_room(Self::try_with_capacity_and_key(capacity))
            }

            /// Makes an empty map with room for this many values, whose keys are of the type `K`.
            ///
            /// It fails with `TooGreat` if `capacity` exceeds 4294967294, and with `Memory` if memory runs out. Not in slotmap.
            ///
            /// ```
            /// use slotmap_proved::DefaultKey;
            ///
            #[doc = concat!("type Map = slotmap_proved::", stringify!($map), "<DefaultKey, i32>;")]
            /// assert!(Map::try_with_capacity_and_key(10)?.is_empty());
            /// assert!(Map::try_with_capacity_and_key(usize::MAX).is_err());
            /// # Ok::<(), slotmap_proved::errors::ReserveError>(())
            /// ```
            #[doc = clauses!($proved $map with_capacity_and_key)]
            pub fn try_with_capacity_and_key(capacity: usize) -> Result<Self, crate::errors::ReserveError> {
                proved::$map::with_capacity_and_key(Global, capacity).map($map)
            }

            /// Returns how many slots there is memory for, slot 0 aside. Constant time.
            ///
            /// Slots of detached and of retired keys count too. So an insert may allocate although fewer values are in the map.
            ///
            /// ```
            #[doc = held!($map)]
            /// assert!(map.capacity() >= map.len());
            /// ```
            #[doc = clauses!($proved $map capacity)]
            pub fn capacity(&self) -> usize {
                self.0.capacity()
            }

            /// Makes room for this many more values: inserting them allocates nothing then.
            ///
            /// Slots of detached keys count as used, those of retired ones too. slotmap counts the detached ones as free, so there may be
            /// less room there.
            ///
            /// # Panics
            ///
            /// If there would be more than 4294967294 slots, or memory runs out. The map is as before then.
            ///
            /// ```
            #[doc = held!($map)]
            /// map.reserve(32);
            /// assert!(map.capacity() >= 33);
            /// ```
            #[doc = clauses!($proved $map reserve)]
            #[track_caller]
            pub fn reserve(&mut self, additional: usize) {
                crate::maps::with_room(self.0.reserve(additional));
            }

            /// Makes room for this many more values, as [`reserve`](Self::reserve) does, or fails where that panics.
            ///
            /// The error is that of Rust's collections. On 64 bits it says whether the number was too great or memory ran out.
            ///
            /// ```
            #[doc = held!($map)]
            /// assert!(map.try_reserve(32).is_ok());
            /// assert!(map.try_reserve(usize::MAX).is_err());
            /// assert_eq!(map[key], 5);
            /// ```
            #[doc = clauses!($proved $map try_reserve)]
            pub fn try_reserve(&mut self, additional: usize) -> Result<(), alloc::collections::TryReserveError> {
                Ok(self.0.reserve(additional)?)
            }

            /// Reads a map from a list of its slots, as [`to_slots`](Self::to_slots) returns it. The keys are live again.
            ///
            /// It fails if the list is no list of a map's slots, which is tested, or if memory runs out. A vacant slot of version 0 after the
            /// first one is read as a retired slot. Detached keys are stale. Not in slotmap, where serde alone reads this list.
            ///
            /// ```
            #[doc = concat!("use slotmap_proved::", stringify!($map), ";")]
            ///
            #[doc = held!($map)]
            #[doc = concat!("let copy: ", stringify!($map), "<slotmap_proved::DefaultKey, i32> = ", stringify!($map), "::from_slots(map.to_slots()?)?;")]
            /// assert_eq!(copy[key], 5);
            /// # Ok::<(), Box<dyn std::error::Error>>(())
            /// ```
            #[doc = clauses!($proved $map from_slots)]
            pub fn from_slots(list: alloc::vec::Vec<crate::serial::SlotRecord<V>>) -> Result<Self, crate::errors::SlotsError> {
                proved::$map::from_slots(Global, crate::rt::vec::Vec::from_std(list)).map($map)
            }
        }

        /// An empty map. It panics if memory runs out.
        impl<K: Key, V> Default for $map<K, V> {
            #[track_caller]
            fn default() -> Self {
                Self::with_key()
            }
        }
    };
}
