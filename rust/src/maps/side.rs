//! Calls of the secondary maps, which hold values under keys of another map.

/// Putting and removing, making a map from pairs, and comparing.
macro_rules! side {
    ($map:ident, $proved:ident $(, $s:ident)?) => {
        impl<K: crate::Key, V $(, $s: core::hash::BuildHasher)?> $map<K, V $(, $s)?> {
            /// Puts a value under a key, and returns the value that the key had here.
            ///
            /// A null key, or one that is older than the key at its index, changes nothing: the value is dropped, and `None` returned. A newer
            /// key takes the place of an older one at its index.
            #[doc = insert_cost!($map)]
            ///
            /// # Panics
            ///
            /// If memory runs out. The map has the same values then, and the new one is dropped; [`try_insert`](Self::try_insert) returns it.
            ///
            /// ```
            #[doc = made_beside!($map)]
            /// assert_eq!(map.insert(key, 5), None);
            /// assert_eq!(map.insert(key, 6), Some(5));
            /// assert_eq!(map[key], 6);
            /// ```
            #[doc = clauses!($proved $map insert)]
            #[inline(always)]
            #[track_caller]
            pub fn insert(&mut self, key: K, value: V) -> Option<V> {
                crate::maps::in_memory(self.0.insert(key, value))
            }

            /// Puts a value under a key, as [`insert`](Self::insert) does. If memory runs out, it fails, and the error has the value. Not in
            /// slotmap.
            ///
            /// ```
            #[doc = made_beside!($map)]
            /// assert_eq!(map.try_insert(key, 5)?, None);
            /// # Ok::<(), slotmap_proved::errors::PutError<i32>>(())
            /// ```
            #[doc = clauses!($proved $map insert)]
            #[inline(always)]
            pub fn try_insert(&mut self, key: K, value: V) -> Result<Option<V>, crate::errors::PutError<V>> {
                self.0.insert(key, value)
            }

            /// Removes the value of a key, and returns it, or `None` if the key has none here. Constant time.
            ///
            /// ```
            #[doc = held!($map)]
            /// assert_eq!(map.remove(key), Some(5));
            /// assert_eq!(map.remove(key), None);
            /// ```
            #[doc = clauses!($proved $map remove)]
            #[inline(always)]
            pub fn remove(&mut self, key: K) -> Option<V> {
                self.0.remove(key)
            }
        }

        /// Puts the pairs one after the other, as `insert` does. If memory runs out it panics, and the pairs before are in the map.
        impl<K: crate::Key, V $(, $s: core::hash::BuildHasher)?> Extend<(K, V)> for $map<K, V $(, $s)?> {
            #[track_caller]
            fn extend<I: IntoIterator<Item = (K, V)>>(&mut self, pairs: I) {
                for (key, value) in pairs {
                    self.insert(key, value);
                }
            }
        }

        /// Puts the pairs one after the other, as `insert` does. If memory runs out it panics, and the pairs before are in the map.
        impl<'a, K: crate::Key, V: 'a + Copy $(, $s: core::hash::BuildHasher)?> Extend<(K, &'a V)> for $map<K, V $(, $s)?> {
            #[track_caller]
            fn extend<I: IntoIterator<Item = (K, &'a V)>>(&mut self, pairs: I) {
                for (key, value) in pairs {
                    self.insert(key, *value);
                }
            }
        }

        /// A map of these pairs, put one after the other. It panics if memory runs out.
        impl<K: crate::Key, V $(, $s: core::hash::BuildHasher + Default)?> FromIterator<(K, V)> for $map<K, V $(, $s)?> {
            #[track_caller]
            fn from_iter<I: IntoIterator<Item = (K, V)>>(pairs: I) -> Self {
                let mut map = Self::default();
                map.extend(pairs);
                map
            }
        }

        /// Two maps are equal if they have the same keys, with equal values.
        impl<K: crate::Key, V: PartialEq $(, $s: core::hash::BuildHasher)?> PartialEq for $map<K, V $(, $s)?> {
            fn eq(&self, other: &Self) -> bool {
                self.0 == other.0
            }
        }

        impl<K: crate::Key, V: Eq $(, $s: core::hash::BuildHasher)?> Eq for $map<K, V $(, $s)?> {}
    };
}

/// What `insert` and `entry` cost.
macro_rules! insert_cost {
    (SecondaryMap) => {
        "Constant time, unless the index of the key is beyond the last slot: slots are made up to that index then."
    };
    (SparseSecondaryMap) => {
        "Constant time, unless the map grows."
    };
}
