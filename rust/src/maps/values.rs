//! Calls on the values of all five maps, by key.

/// Looking up: `len` to `get_disjoint_unchecked_mut`, and `Index`.
macro_rules! values {
    ($map:ident, $proved:ident, $disjoint:ident, $missing:literal $(, $s:ident)?) => {
        impl<K: crate::Key, V $(, $s: core::hash::BuildHasher)?> $map<K, V $(, $s)?> {
            /// Returns how many values the map has. Constant time.
            ///
            /// ```
            #[doc = held!($map)]
            /// assert_eq!(map.len(), 1);
            /// ```
            #[doc = clauses!($proved $map len)]
            #[inline(always)]
            pub fn len(&self) -> usize {
                self.0.len()
            }

            /// Returns whether the map has no value. Constant time.
            ///
            /// ```
            #[doc = held!($map)]
            /// assert!(!map.is_empty());
            /// ```
            #[doc = clauses!($proved $map is_empty)]
            #[inline(always)]
            pub fn is_empty(&self) -> bool {
                self.0.is_empty()
            }

            /// Returns whether a key has a value in the map. Constant time.
            ///
            /// ```
            #[doc = held!($map)]
            /// assert!(map.contains_key(key));
            /// map.remove(key);
            /// assert!(!map.contains_key(key));
            /// ```
            #[doc = clauses!($proved $map contains_key)]
            #[inline(always)]
            pub fn contains_key(&self, key: K) -> bool {
                self.0.contains_key(key)
            }

            /// Returns a reference to the value of a key, or `None` if it has none here. Constant time.
            ///
            /// ```
            #[doc = held!($map)]
            /// assert_eq!(map.get(key), Some(&5));
            /// map.remove(key);
            /// assert_eq!(map.get(key), None);
            /// ```
            #[doc = clauses!($proved $map get)]
            #[inline(always)]
            pub fn get(&self, key: K) -> Option<&V> {
                self.0.get(key)
            }

            /// Returns a reference to the value of a key, to change it, or `None` if the key has none here. Constant time.
            ///
            /// ```
            #[doc = held!($map)]
            /// if let Some(value) = map.get_mut(key) {
            ///     *value += 1;
            /// }
            /// assert_eq!(map[key], 6);
            /// ```
            #[doc = clauses!($proved $map get_mut)]
            #[inline(always)]
            pub fn get_mut(&mut self, key: K) -> Option<&mut V> {
                self.0.get_mut(key)
            }

            /// Returns a reference to the value of a key, as indexing by the key does.
            ///
            /// In slotmap this call is `unsafe`, and any key that has no value is undefined behaviour. Here it is a safe call that looks the
            /// key up. An `unsafe` block around it compiles, with the warning `unused_unsafe`.
            ///
            /// # Panics
            ///
            /// If the key has no value here. Nothing has changed then.
            ///
            /// ```
            #[doc = held!($map)]
            /// assert_eq!(map.get_unchecked(key), &5);
            /// ```
            #[inline(always)]
            #[track_caller]
            pub fn get_unchecked(&self, key: K) -> &V {
                &self[key]
            }

            /// Returns a reference to the value of a key, to change it, as indexing by the key does.
            ///
            /// In slotmap this call is `unsafe`; see [`get_unchecked`](Self::get_unchecked).
            ///
            /// # Panics
            ///
            /// If the key has no value here. Nothing has changed then.
            ///
            /// ```
            #[doc = held!($map)]
            /// *map.get_unchecked_mut(key) = 7;
            /// assert_eq!(map[key], 7);
            /// ```
            #[inline(always)]
            #[track_caller]
            pub fn get_unchecked_mut(&mut self, key: K) -> &mut V {
                &mut self[key]
            }

            /// Returns references to the values of several keys, to change them, in the order of the keys. It returns `None` if a key has no
            /// value here, or is there twice.
            ///
            /// It asks a proved look-up about each key; the references themselves are lent by code that isn't proved, but safe.
            #[doc = disjoint_cost!($map)]
            ///
            /// ```
            #[doc = held_two!($map)]
            /// if let Some([a, b]) = map.get_disjoint_mut([key, other]) {
            ///     std::mem::swap(a, b);
            /// }
            /// assert_eq!((map[key], map[other]), (6, 5));
            /// assert!(map.get_disjoint_mut([key, key]).is_none());
            /// ```
            pub fn get_disjoint_mut<const N: usize>(&mut self, keys: [K; N]) -> Option<[&mut V; N]> {
                self.0.$disjoint(keys)
            }

            /// Returns what [`get_disjoint_mut`](Self::get_disjoint_mut) returns.
            ///
            /// In slotmap this call is `unsafe`; see [`get_unchecked`](Self::get_unchecked).
            ///
            /// # Panics
            ///
            /// If a key has no value here, or is there twice. Nothing has changed then.
            ///
            /// ```
            #[doc = held_two!($map)]
            /// let [a, b] = map.get_disjoint_unchecked_mut([other, key]);
            /// assert_eq!((*a, *b), (6, 5));
            /// ```
            #[track_caller]
            pub fn get_disjoint_unchecked_mut<const N: usize>(&mut self, keys: [K; N]) -> [&mut V; N] {
                match self.0.$disjoint(keys) {
                    Some(values) => values,
                    None => crate::maps::failed(concat!($missing, ", or one used twice")),
                }
            }
        }

        /// The value of a key. It panics if the key has no value here.
        impl<K: crate::Key, V $(, $s: core::hash::BuildHasher)?> core::ops::Index<K> for $map<K, V $(, $s)?> {
            type Output = V;

            #[inline(always)]
            #[track_caller]
            fn index(&self, key: K) -> &V {
                match self.0.get(key) {
                    Some(value) => value,
                    None => crate::maps::failed($missing),
                }
            }
        }

        /// The value of a key, to change it. It panics if the key has no value here.
        impl<K: crate::Key, V $(, $s: core::hash::BuildHasher)?> core::ops::IndexMut<K> for $map<K, V $(, $s)?> {
            #[inline(always)]
            #[track_caller]
            fn index_mut(&mut self, key: K) -> &mut V {
                match self.0.get_mut(key) {
                    Some(value) => value,
                    None => crate::maps::failed($missing),
                }
            }
        }
    };
}

/// What `get_disjoint_mut` costs.
macro_rules! disjoint_cost {
    (SparseSecondaryMap) => {
        "Constant time for one key. For N > 1 keys it walks over the map until it has found them: time linear in the capacity, times log N. \
         slotmap's takes time linear in N."
    };
    ($map:ident) => {
        "The keys are sorted: time N log N for N keys. slotmap's takes time linear in N."
    };
}
