//! Calls that make keys of a primary map, and the one that ends them.

/// Inserts, and `remove`.
macro_rules! inserts {
    ($map:ident, $proved:ident) => {
        impl<K: crate::Key, V> $map<K, V> {
            /// Inserts a value, and returns its key, which no value of this map had before. Constant time, unless the map grows.
            ///
            /// # Panics
            ///
            /// If 4294967294 slots are used, those of detached and retired keys too, or if memory runs out. The map is as before then, and
            /// the value is dropped; [`try_insert`](Self::try_insert) returns it. slotmap aborts if memory runs out.
            ///
            /// ```
            #[doc = made!($map)]
            /// let key = map.insert(5);
            /// assert_eq!(map[key], 5);
            /// ```
            #[doc = clauses!($proved $map insert)]
            #[inline(always)]
            #[track_caller]
            pub fn insert(&mut self, value: V) -> K {
                crate::maps::inserted(self.0.insert(value), concat!(stringify!($map), " is full"))
            }

            /// Inserts a value, as [`insert`](Self::insert) does. Where that panics, it fails with `Full` or `Memory`, and the error has the
            /// value. Not in slotmap.
            ///
            /// ```
            #[doc = made!($map)]
            /// let key = map.try_insert(5)?;
            /// assert_eq!(map[key], 5);
            /// # Ok::<(), slotmap_proved::errors::InsertError<i32>>(())
            /// ```
            #[doc = clauses!($proved $map insert)]
            #[inline(always)]
            pub fn try_insert(&mut self, value: V) -> Result<K, crate::errors::InsertError<V>> {
                self.0.insert(value)
            }

            /// Inserts the value that `f` returns. `f` is given the key, so the value can hold it.
            ///
            /// Room is made first. If that fails, `f` isn't called; in slotmap it is.
            ///
            /// # Panics
            ///
            /// As [`insert`](Self::insert), or if `f` panics. The map has the same values then, and the next insert may return the key that
            /// `f` saw.
            ///
            /// ```
            #[doc = made!($map)]
            /// let key = map.insert_with_key(|key| (key, 5));
            /// assert_eq!(map[key], (key, 5));
            /// ```
            #[doc = clauses!($proved $map insert_with_key)]
            #[inline(always)]
            #[track_caller]
            pub fn insert_with_key<F>(&mut self, f: F) -> K
            where
                F: FnOnce(K) -> V,
            {
                crate::maps::inserted(self.0.insert_with_key(f), concat!(stringify!($map), " is full"))
            }

            /// Inserts the value that `f` returns, or returns the error that `f` returned.
            ///
            /// The map has the same values after an error, and the next insert may return the key that `f` saw.
            ///
            /// # Panics
            ///
            /// As [`insert_with_key`](Self::insert_with_key). After [`try_reserve`](Self::try_reserve) for one more value it does so only if
            /// `f` does.
            ///
            /// ```
            #[doc = made!($map)]
            /// let key = map.try_insert_with_key(|_| "5".parse::<i32>())?;
            /// assert_eq!(map[key], 5);
            /// assert!(map.try_insert_with_key(|_| "five".parse()).is_err());
            /// assert_eq!(map.len(), 1);
            /// # Ok::<(), std::num::ParseIntError>(())
            /// ```
            #[doc = clauses!($proved $map try_insert_with_key)]
            #[inline(always)]
            #[track_caller]
            pub fn try_insert_with_key<F, E>(&mut self, f: F) -> Result<K, E>
            where
                F: FnOnce(K) -> Result<V, E>,
            {
                use crate::errors::TryInsertError;
                match self.0.try_insert_with_key(f) {
                    Ok(key) => Ok(key),
                    Err(TryInsertError::Closure(error)) => Err(error),
                    Err(TryInsertError::Full) => crate::maps::failed(concat!(stringify!($map), " is full")),
                    Err(TryInsertError::Memory) => crate::maps::failed("out of memory"),
                }
            }

            /// Removes a key, and returns its value, or `None` if the key isn't live. Constant time.
            ///
            /// The key never becomes live again. If it was the last one of its slot, with version 4294967295, the slot is retired. In slotmap
            /// versions wrap around there, and an old key finds a later value.
            ///
            /// ```
            #[doc = held!($map)]
            /// assert_eq!(map.remove(key), Some(5));
            /// assert_eq!(map.remove(key), None);
            /// ```
            #[doc = clauses!($proved $map remove)]
            #[inline(always)]
            pub fn remove(&mut self, key: K) -> Option<V> {
                self.0.remove(key)
            }
        }
    };
}
