//! Keys that are put aside, and come back.

/// `detach` and `reattach`.
macro_rules! detaching {
    ($map:ident, $proved:ident) => {
        impl<K: crate::Key, V> $map<K, V> {
            /// Removes a key for a while, and returns its value, or `None` if the key isn't live. Constant time.
            ///
            /// The key is stale until [`reattach`](Self::reattach) gives it a value again. Its slot isn't reused meanwhile, and counts as
            /// used.
            ///
            /// ```
            #[doc = held!($map)]
            /// assert_eq!(map.detach(key), Some(5));
            /// assert!(!map.contains_key(key));
            /// map.reattach(key, 6);
            /// assert_eq!(map[key], 6);
            /// ```
            #[doc = clauses!($proved $map detach)]
            pub fn detach(&mut self, key: K) -> Option<V> {
                self.0.detach(key)
            }

            /// Gives a detached key a value again. Constant time, unless the map grows.
            ///
            /// # Panics
            ///
            /// If the key isn't detached, or memory runs out. The map is as before then, and the value is dropped;
            /// [`try_reattach`](Self::try_reattach) returns it.
            ///
            /// ```
            #[doc = held!($map)]
            /// map.detach(key);
            /// map.reattach(key, 6);
            /// assert_eq!(map[key], 6);
            /// ```
            #[doc = clauses!($proved $map reattach)]
            #[track_caller]
            pub fn reattach(&mut self, detached_key: K, value: V) {
                use crate::errors::ReattachError;
                match self.0.reattach(detached_key, value) {
                    Ok(()) => {}
                    Err(ReattachError::NotDetached(_)) => crate::maps::failed("key is not detached"),
                    Err(ReattachError::Memory(_)) => crate::maps::failed("out of memory"),
                }
            }

            /// Gives a detached key a value again, as [`reattach`](Self::reattach) does. Where that panics, it fails with `NotDetached` or
            /// `Memory`, and the error has the value. Not in slotmap.
            ///
            /// ```
            #[doc = held!($map)]
            /// assert_eq!(map.try_reattach(key, 6).map_err(|error| error.into_inner()), Err(6));
            /// map.detach(key);
            /// assert!(map.try_reattach(key, 6).is_ok());
            /// ```
            #[doc = clauses!($proved $map reattach)]
            pub fn try_reattach(&mut self, detached_key: K, value: V) -> Result<(), crate::errors::ReattachError<V>> {
                self.0.reattach(detached_key, value)
            }
        }
    };
}
