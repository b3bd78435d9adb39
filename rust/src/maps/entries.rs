//! Entries of the secondary maps: the place of one key.

/// The types of entries, and their calls.
macro_rules! entries {
    ($map:ident, $proved:ident, $lent:path $(, $s:ident: $bound:path = $default:path)?) => {
        /// The place of a key in the map; made by `entry`.
        pub enum Entry<'a, K: crate::Key, V $(, $s: $bound = $default)?> {
            /// The key has a value.
            Occupied(OccupiedEntry<'a, K, V $(, $s)?>),
            /// The key has none.
            Vacant(VacantEntry<'a, K, V $(, $s)?>),
        }

        /// The place of a key that has a value.
        pub struct OccupiedEntry<'a, K: crate::Key, V $(, $s: $bound = $default)?>(proved::OccupiedEntry<'a, K, V $(, $s)?>);

        /// The place of a key that has no value.
        pub struct VacantEntry<'a, K: crate::Key, V $(, $s: $bound = $default)?>(proved::VacantEntry<'a, K, V $(, $s)?>);

        impl<K: crate::Key, V $(, $s: $bound)?> $map<K, V $(, $s)?> {
            /// Returns the place of a key, to look at its value and to put one there. It returns `None` for a null key, and for one that is
            /// older than the key at its index.
            #[doc = entry_outdated!($map)]
            #[doc = insert_cost!($map)]
            ///
            /// # Panics
            ///
            /// If memory runs out; [`try_entry`](Self::try_entry) fails then. The map has the same values.
            ///
            /// ```
            #[doc = made_beside!($map)]
            /// if let Some(entry) = map.entry(key) {
            ///     entry.or_insert(5);
            /// }
            /// assert_eq!(map[key], 5);
            /// ```
            #[doc = clauses!($proved $map entry)]
            #[track_caller]
            pub fn entry(&mut self, key: K) -> Option<Entry<'_, K, V $(, $s)?>> {
                crate::maps::in_memory(self.0.entry(key)).map(Entry::over)
            }

            /// Returns the place of a key, as [`entry`](Self::entry) does. It fails with `Older` where that returns `None`, and with
            /// `Memory` where it panics. Not in slotmap.
            ///
            /// ```
            #[doc = made_beside!($map)]
            /// map.try_entry(key)?.or_insert(5);
            /// assert_eq!(map[key], 5);
            /// # Ok::<(), slotmap_proved::errors::NoEntry>(())
            /// ```
            #[doc = clauses!($proved $map try_entry)]
            pub fn try_entry(&mut self, key: K) -> Result<Entry<'_, K, V $(, $s)?>, crate::errors::NoEntry> {
                self.0.try_entry(key).map(Entry::over)
            }
        }

        impl<'a, K: crate::Key, V $(, $s: $bound)?> Entry<'a, K, V $(, $s)?> {
            #[inline]
            fn over(entry: proved::Entry<'a, K, V $(, $s)?>) -> Self {
                match entry {
                    proved::Entry::Occupied(entry) => Entry::Occupied(OccupiedEntry(entry)),
                    proved::Entry::Vacant(entry) => Entry::Vacant(VacantEntry(entry)),
                }
            }

            #[inline]
            fn into_proved(self) -> proved::Entry<'a, K, V $(, $s)?> {
                match self {
                    Entry::Occupied(entry) => proved::Entry::Occupied(entry.0),
                    Entry::Vacant(entry) => proved::Entry::Vacant(entry.0),
                }
            }

            /// Returns the key. Constant time.
            ///
            /// ```
            #[doc = made_beside!($map)]
            /// map.insert(key, 5);
            /// assert_eq!(map.entry(key).map(|entry| entry.key()), Some(key));
            /// ```
            #[doc = clauses!($proved Entry key)]
            pub fn key(&self) -> K {
                match self {
                    Entry::Occupied(entry) => entry.key(),
                    Entry::Vacant(entry) => entry.key(),
                }
            }

            /// Puts a value there if the key has none, and returns a reference to the key's value.
            ///
            /// # Panics
            ///
            /// If memory runs out. The map has the same values then.
            ///
            /// ```
            #[doc = held!($map)]
            /// if let Some(entry) = map.entry(key) {
            ///     *entry.or_insert(0) += 1;
            /// }
            /// assert_eq!(map[key], 6);
            /// ```
            #[doc = clauses!($proved Entry or_insert)]
            #[track_caller]
            pub fn or_insert(self, default: V) -> &'a mut V {
                $lent(self.into_proved().or_insert(default))
            }

            /// Puts the value that `default` returns there if the key has none, and returns a reference to the key's value.
            ///
            /// # Panics
            ///
            /// If memory runs out; `default` isn't called then. Or if `default` panics. The map has the same values.
            ///
            /// ```
            #[doc = made_beside!($map)]
            /// if let Some(entry) = map.entry(key) {
            ///     assert_eq!(entry.or_insert_with(|| 2 + 3), &5);
            /// }
            /// ```
            #[doc = clauses!($proved Entry or_insert_with)]
            #[track_caller]
            pub fn or_insert_with<F: FnOnce() -> V>(self, default: F) -> &'a mut V {
                $lent(self.into_proved().or_insert_with(default))
            }

            /// Calls `f` on the value, if the key has one, and returns the entry.
            ///
            /// ```
            #[doc = held!($map)]
            /// if let Some(entry) = map.entry(key) {
            ///     entry.and_modify(|value| *value += 1).or_insert(0);
            /// }
            /// assert_eq!(map[key], 6);
            /// ```
            #[doc = clauses!($proved Entry and_modify)]
            pub fn and_modify<F>(self, f: F) -> Self
            where
                F: FnOnce(&mut V),
            {
                Entry::over(self.into_proved().and_modify(f))
            }

            /// Puts the default value there if the key has none, and returns a reference to the key's value.
            ///
            /// # Panics
            ///
            /// As [`or_insert_with`](Self::or_insert_with).
            ///
            /// ```
            #[doc = made_beside!($map)]
            /// # map.insert(key, 5); map.remove(key);
            /// if let Some(entry) = map.entry(key) {
            ///     assert_eq!(entry.or_default(), &0);
            /// }
            /// ```
            #[doc = clauses!($proved Entry or_default)]
            #[track_caller]
            pub fn or_default(self) -> &'a mut V
            where
                V: Default,
            {
                $lent(self.into_proved().or_default())
            }
        }

        impl<'a, K: crate::Key, V $(, $s: $bound)?> OccupiedEntry<'a, K, V $(, $s)?> {
            /// Returns the key. Constant time.
            ///
            /// ```
            #[doc = entry_lines!($map)]
            ///
            /// if let Some(Entry::Occupied(entry)) = map.entry(key) {
            ///     assert_eq!(entry.key(), key);
            /// }
            /// ```
            #[doc = clauses!($proved OccupiedEntry key)]
            pub fn key(&self) -> K {
                self.0.key()
            }

            /// Takes the value out, and returns it with the key. Constant time.
            ///
            /// ```
            #[doc = entry_lines!($map)]
            ///
            /// if let Some(Entry::Occupied(entry)) = map.entry(key) {
            ///     assert_eq!(entry.remove_entry(), (key, 5));
            /// }
            /// assert!(map.is_empty());
            /// ```
            #[doc = clauses!($proved OccupiedEntry remove_entry)]
            pub fn remove_entry(self) -> (K, V) {
                self.0.remove_entry()
            }

            /// Returns a reference to the value. Constant time.
            ///
            /// ```
            #[doc = entry_lines!($map)]
            ///
            /// if let Some(Entry::Occupied(entry)) = map.entry(key) {
            ///     assert_eq!(entry.get(), &5);
            /// }
            /// ```
            #[doc = clauses!($proved OccupiedEntry get)]
            pub fn get(&self) -> &V {
                self.0.get()
            }

            /// Returns a reference to the value, to change it, which lives as long as the entry is borrowed. Constant time.
            ///
            /// ```
            #[doc = entry_lines!($map)]
            ///
            /// if let Some(Entry::Occupied(mut entry)) = map.entry(key) {
            ///     *entry.get_mut() += 1;
            ///     assert_eq!(entry.get(), &6);
            /// }
            /// ```
            #[doc = clauses!($proved OccupiedEntry get_mut)]
            pub fn get_mut(&mut self) -> &mut V {
                self.0.get_mut()
            }

            /// Returns a reference to the value, to change it, which lives as long as the map is borrowed. Constant time.
            ///
            /// ```
            #[doc = entry_lines!($map)]
            ///
            /// if let Some(Entry::Occupied(entry)) = map.entry(key) {
            ///     *entry.into_mut() = 7;
            /// }
            /// assert_eq!(map[key], 7);
            /// ```
            #[doc = clauses!($proved OccupiedEntry into_mut)]
            pub fn into_mut(self) -> &'a mut V {
                self.0.into_mut()
            }

            /// Puts another value there, and returns the one before. Constant time.
            ///
            /// ```
            #[doc = entry_lines!($map)]
            ///
            /// if let Some(Entry::Occupied(mut entry)) = map.entry(key) {
            ///     assert_eq!(entry.insert(7), 5);
            /// }
            /// assert_eq!(map[key], 7);
            /// ```
            #[doc = clauses!($proved OccupiedEntry insert)]
            pub fn insert(&mut self, value: V) -> V {
                self.0.insert(value)
            }

            /// Takes the value out, and returns it. Constant time.
            ///
            /// ```
            #[doc = entry_lines!($map)]
            ///
            /// if let Some(Entry::Occupied(entry)) = map.entry(key) {
            ///     assert_eq!(entry.remove(), 5);
            /// }
            /// assert!(!map.contains_key(key));
            /// ```
            #[doc = clauses!($proved OccupiedEntry remove)]
            pub fn remove(self) -> V {
                self.0.remove()
            }
        }

        impl<'a, K: crate::Key, V $(, $s: $bound)?> VacantEntry<'a, K, V $(, $s)?> {
            /// Returns the key. Constant time.
            ///
            /// ```
            #[doc = entry_lines!($map)]
            /// map.remove(key);
            ///
            /// if let Some(Entry::Vacant(entry)) = map.entry(key) {
            ///     assert_eq!(entry.key(), key);
            /// }
            /// ```
            #[doc = clauses!($proved VacantEntry key)]
            pub fn key(&self) -> K {
                self.0.key()
            }

            /// Puts a value there, and returns a reference to it.
            ///
            /// # Panics
            ///
            /// If memory runs out, which in a `SecondaryMap` it can't.
            ///
            /// ```
            #[doc = entry_lines!($map)]
            /// map.remove(key);
            ///
            /// if let Some(Entry::Vacant(entry)) = map.entry(key) {
            ///     assert_eq!(entry.insert(7), &7);
            /// }
            /// assert_eq!(map[key], 7);
            /// ```
            #[doc = clauses!($proved VacantEntry insert)]
            #[track_caller]
            pub fn insert(self, value: V) -> &'a mut V {
                $lent(self.0.insert(value))
            }
        }

        /// Prints the key, and the value if there is one.
        impl<'a, K: crate::Key, V: core::fmt::Debug $(, $s: $bound)?> core::fmt::Debug for Entry<'a, K, V $(, $s)?> {
            fn fmt(&self, f: &mut core::fmt::Formatter<'_>) -> core::fmt::Result {
                match self {
                    Entry::Occupied(entry) => f.debug_tuple("Occupied").field(entry).finish(),
                    Entry::Vacant(entry) => f.debug_tuple("Vacant").field(entry).finish(),
                }
            }
        }

        /// Prints the key and the value.
        impl<'a, K: crate::Key, V: core::fmt::Debug $(, $s: $bound)?> core::fmt::Debug for OccupiedEntry<'a, K, V $(, $s)?> {
            fn fmt(&self, f: &mut core::fmt::Formatter<'_>) -> core::fmt::Result {
                core::fmt::Debug::fmt(&self.0, f)
            }
        }

        /// Prints the key.
        impl<'a, K: crate::Key, V $(, $s: $bound)?> core::fmt::Debug for VacantEntry<'a, K, V $(, $s)?> {
            fn fmt(&self, f: &mut core::fmt::Formatter<'_>) -> core::fmt::Result {
                core::fmt::Debug::fmt(&self.0, f)
            }
        }
    };
}

/// The first lines of an example of an entry.
macro_rules! entry_lines {
    (SecondaryMap) => {
        concat!("use slotmap_proved::secondary::Entry;\n\n", held!(SecondaryMap))
    };
    (SparseSecondaryMap) => {
        concat!("use slotmap_proved::sparse_secondary::Entry;\n\n", held!(SparseSecondaryMap))
    };
}

/// What `entry` does where an older key is at the index.
macro_rules! entry_outdated {
    (SecondaryMap) => {
        "In slotmap it also returns `None` for an index without a value, if the version is 2^31 or greater."
    };
    (SparseSecondaryMap) => {
        "Where an older key is at the index, its value is dropped."
    };
}
