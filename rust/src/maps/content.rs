//! Calls on all values of any of the five maps at once.

/// Removing, walking, copying, printing, and lists of slots.
macro_rules! content {
    ($map:ident, $proved:ident $(, $s:ident)?) => {
        impl<K: crate::Key, V $(, $s: core::hash::BuildHasher)?> $map<K, V $(, $s)?> {
            /// Calls `f` once for each key with its value, which it may change, and removes those for which it returns false.
            ///
            /// If `f` panics, the pairs that it has not been asked about stay, and those that it rejected are gone.
            #[doc = walk_cost!($map)]
            ///
            /// ```
            #[doc = held_two!($map)]
            /// map.retain(|_, value| {
            ///     *value += 1;
            ///     *value > 6
            /// });
            /// assert_eq!((map.get(key), map.get(other)), (None, Some(&7)));
            /// ```
            #[doc = clauses!($proved $map retain)]
            pub fn retain<F>(&mut self, f: F)
            where
                F: FnMut(K, &mut V) -> bool,
            {
                self.0.retain(f);
            }

            /// Removes all values. The capacity stays.
            #[doc = walk_cost!($map)]
            ///
            /// ```
            #[doc = held!($map)]
            /// map.clear();
            /// assert!(map.is_empty() && !map.contains_key(key));
            /// ```
            #[doc = clauses!($proved $map clear)]
            pub fn clear(&mut self) {
                self.0.clear();
            }

            /// Removes all values, and returns an iterator that yields each key with its value. The capacity stays.
            ///
            /// What the iterator has not yielded is removed when it is dropped.
            #[doc = drain_order!($map)]
            #[doc = walk_cost!($map)]
            ///
            /// ```
            #[doc = held!($map)]
            /// let taken: Vec<_> = map.drain().collect();
            /// assert_eq!(taken, [(key, 5)]);
            /// assert!(map.is_empty());
            /// ```
            #[doc = drain_clauses!($map $proved)]
            pub fn drain(&mut self) -> Drain<'_, K, V> {
                Drain(drained!($map, self.0))
            }

            /// Returns an iterator that yields each key with a reference to its value.
            #[doc = walk_order!($map)]
            #[doc = walk_cost!($map)]
            ///
            /// ```
            #[doc = held!($map)]
            /// assert_eq!(map.iter().collect::<Vec<_>>(), [(key, &5)]);
            /// ```
            #[doc = clauses!($proved $map iter)]
            pub fn iter(&self) -> Iter<'_, K, V> {
                Iter(self.0.iter())
            }

            /// Returns an iterator that yields each key with a reference to its value, to change it, in the order of [`iter`](Self::iter).
            #[doc = iter_mut_trust!($map)]
            ///
            /// ```
            #[doc = held!($map)]
            /// for (_, value) in map.iter_mut() {
            ///     *value *= 2;
            /// }
            /// assert_eq!(map[key], 10);
            /// ```
            pub fn iter_mut(&mut self) -> IterMut<'_, K, V> {
                IterMut(self.0.iter_mut())
            }

            /// Returns an iterator that yields each key, in the order of [`iter`](Self::iter).
            ///
            /// ```
            #[doc = held!($map)]
            /// assert_eq!(map.keys().collect::<Vec<_>>(), [key]);
            /// ```
            #[doc = clauses!($proved $map keys)]
            pub fn keys(&self) -> Keys<'_, K, V> {
                Keys(self.0.keys())
            }

            /// Returns an iterator that yields a reference to each value, in the order of [`iter`](Self::iter).
            ///
            /// ```
            #[doc = held_two!($map)]
            /// assert_eq!(map.values().sum::<i32>(), 11);
            /// ```
            #[doc = clauses!($proved $map values)]
            pub fn values(&self) -> Values<'_, K, V> {
                Values(self.0.values())
            }

            /// Returns an iterator that yields a reference to each value, to change it, in the order of [`iter`](Self::iter).
            #[doc = iter_mut_trust!($map)]
            ///
            /// ```
            #[doc = held_two!($map)]
            /// map.values_mut().for_each(|value| *value = 1);
            /// assert_eq!((map[key], map[other]), (1, 1));
            /// ```
            pub fn values_mut(&mut self) -> ValuesMut<'_, K, V> {
                ValuesMut(self.iter_mut())
            }

            /// Returns the map as a list of its slots, from slot 0 on, each with a version and a clone of the value.
            ///
            /// It fails if memory runs out. Not in slotmap, where serde alone writes this list.
            ///
            /// ```
            #[doc = held!($map)]
            /// let list = map.to_slots()?;
            /// assert_eq!((list.len(), list[1].version, list[1].value), (2, 1, Some(5)));
            /// # Ok::<(), slotmap_proved::errors::OutOfMemory>(())
            /// ```
            #[doc = clauses!($proved $map to_slots)]
            pub fn to_slots(&self) -> Result<alloc::vec::Vec<crate::serial::SlotRecord<V>>, crate::errors::OutOfMemory>
            where
                V: Clone,
            {
                self.0.to_slots().map(crate::rt::vec::Vec::into_std)
            }
        }

        impl<K: crate::Key, V: Clone $(, $s: core::hash::BuildHasher + Clone)?> $map<K, V $(, $s)?> {
            /// Returns a copy, with clones of the values. It fails if memory runs out. Not in slotmap.
            ///
            /// ```
            #[doc = held!($map)]
            /// let copy = map.try_clone()?;
            /// assert_eq!(copy[key], 5);
            /// # Ok::<(), slotmap_proved::fallible::AllocError>(())
            /// ```
            #[doc = clauses!($proved $map clone)]
            pub fn try_clone(&self) -> Result<Self, crate::fallible::AllocError> {
                self.0.clone().map($map)
            }
        }

        /// It panics if memory runs out; `try_clone` returns an error then. In `clone_from` the copy is made first: for a while there are
        /// both, and if a clone of a value panics, the map is as before.
        impl<K: crate::Key, V: Clone $(, $s: core::hash::BuildHasher + Clone)?> Clone for $map<K, V $(, $s)?> {
            #[track_caller]
            fn clone(&self) -> Self {
                $map(crate::maps::in_memory(self.0.clone()))
            }

            #[track_caller]
            fn clone_from(&mut self, source: &Self) {
                crate::maps::in_memory(self.0.clone_from(&source.0));
            }
        }

        /// Prints the keys with their values, as `{DefaultKey(1v1): 5}`. slotmap prints the fields of the map.
        impl<K: crate::Key, V: core::fmt::Debug $(, $s: core::hash::BuildHasher)?> core::fmt::Debug for $map<K, V $(, $s)?> {
            fn fmt(&self, f: &mut core::fmt::Formatter<'_>) -> core::fmt::Result {
                core::fmt::Debug::fmt(&self.0, f)
            }
        }

        impl<'a, K: crate::Key, V $(, $s: core::hash::BuildHasher)?> IntoIterator for &'a $map<K, V $(, $s)?> {
            type Item = (K, &'a V);
            type IntoIter = Iter<'a, K, V>;

            fn into_iter(self) -> Iter<'a, K, V> {
                self.iter()
            }
        }

        impl<'a, K: crate::Key, V $(, $s: core::hash::BuildHasher)?> IntoIterator for &'a mut $map<K, V $(, $s)?> {
            type Item = (K, &'a mut V);
            type IntoIter = IterMut<'a, K, V>;

            fn into_iter(self) -> IterMut<'a, K, V> {
                self.iter_mut()
            }
        }

        impl<K: crate::Key, V $(, $s: core::hash::BuildHasher)?> IntoIterator for $map<K, V $(, $s)?> {
            type Item = (K, V);
            type IntoIter = IntoIter<K, V>;

            fn into_iter(self) -> IntoIter<K, V> {
                IntoIter(self.0.into_iter())
            }
        }
    };
}

/// In which order a map is walked over.
macro_rules! walk_order {
    (DenseSlotMap) => {
        "They come in the order of [`as_slices`](Self::as_slices): that of their inserts, but for removals, which move the last value into the gap."
    };
    (SparseSecondaryMap) => {
        "They come in the order of Rust's hash map, which is no particular one."
    };
    ($map:ident) => {
        "They come by ascending index of their keys."
    };
}

/// In which order a map is drained, if it is another one.
macro_rules! drain_order {
    (DenseSlotMap) => {
        "The last pair comes first."
    };
    ($map:ident) => {
        "The pairs come in the order of [`iter`](Self::iter)."
    };
}

/// The drain of a proved map, or the one by hand.
macro_rules! drained {
    (SparseSecondaryMap, $proved:expr) => {
        $proved.drain_in_one_walk()
    };
    ($map:ident, $proved:expr) => {
        $proved.drain()
    };
}

/// Who vouches for `drain`.
macro_rules! drain_clauses {
    (SparseSecondaryMap $proved:ident) => {
        "This walk is written by hand: safe code, but not proved."
    };
    ($map:ident $proved:ident) => {
        clauses!($proved $map drain)
    };
}

/// What a walk over all of a map costs.
macro_rules! walk_cost {
    (DenseSlotMap) => {
        "Time linear in the number of values."
    };
    (HopSlotMap) => {
        "A block of vacant slots is skipped in one step: at most time linear in the number of slots."
    };
    (SparseSecondaryMap) => {
        "Time linear in the capacity."
    };
    ($map:ident) => {
        "Time linear in the number of slots, vacant ones too."
    };
}

/// Who vouches for the iterators that lend.
macro_rules! iter_mut_trust {
    (DenseSlotMap) => {
        ""
    };
    ($map:ident) => {
        "This walk is written by hand: safe code, but not proved."
    };
}

/// Into the proved map, and back.
macro_rules! conversions {
    ($map:ident $(, $s:ident)?) => {
        /// The map as the proved one, whose calls return a `Result` where memory may run out.
        impl<K: crate::Key, V $(, $s: core::hash::BuildHasher)?> From<$map<K, V $(, $s)?>> for proved::$map<K, V $(, $s)?> {
            fn from(map: $map<K, V $(, $s)?>) -> Self {
                map.0
            }
        }

        /// A proved map under slotmap's names.
        impl<K: crate::Key, V $(, $s: core::hash::BuildHasher)?> From<proved::$map<K, V $(, $s)?>> for $map<K, V $(, $s)?> {
            fn from(map: proved::$map<K, V $(, $s)?>) -> Self {
                $map(map)
            }
        }

        /// The proved map inside.
        impl<K: crate::Key, V $(, $s: core::hash::BuildHasher)?> AsRef<proved::$map<K, V $(, $s)?>> for $map<K, V $(, $s)?> {
            fn as_ref(&self) -> &proved::$map<K, V $(, $s)?> {
                &self.0
            }
        }

        /// The proved map inside, to change it.
        impl<K: crate::Key, V $(, $s: core::hash::BuildHasher)?> AsMut<proved::$map<K, V $(, $s)?>> for $map<K, V $(, $s)?> {
            fn as_mut(&mut self) -> &mut proved::$map<K, V $(, $s)?> {
                &mut self.0
            }
        }
    };
}
