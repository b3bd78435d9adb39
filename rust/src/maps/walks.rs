//! Iterators: each is one of the proved ones, or one of `lent`.

/// An iterator over one that does the work.
macro_rules! walk {
    ($(#[$doc:meta])* $name:ident<$($life:lifetime,)? $k:ident, $v:ident $(, $s:ident: $bound:path = $default:path)?>($of:ty) -> $item:ty) => {
        $(#[$doc])*
        pub struct $name<$($life,)? $k: crate::Key, $v $(, $s: $bound = $default)?>(pub(super) $of);

        impl<$($life,)? $k: crate::Key, $v $(, $s: $bound)?> Iterator for $name<$($life,)? $k, $v $(, $s)?> {
            type Item = $item;

            #[inline(always)]
            fn next(&mut self) -> Option<$item> {
                self.0.next()
            }

            #[inline]
            fn size_hint(&self) -> (usize, Option<usize>) {
                self.0.size_hint()
            }
        }

        impl<$($life,)? $k: crate::Key, $v $(, $s: $bound)?> ExactSizeIterator for $name<$($life,)? $k, $v $(, $s)?> {}

        impl<$($life,)? $k: crate::Key, $v $(, $s: $bound)?> core::iter::FusedIterator for $name<$($life,)? $k, $v $(, $s)?> {}

        /// Prints how much is left.
        impl<$($life,)? $k: crate::Key, $v $(, $s: $bound)?> core::fmt::Debug for $name<$($life,)? $k, $v $(, $s)?> {
            fn fmt(&self, f: &mut core::fmt::Formatter<'_>) -> core::fmt::Result {
                f.debug_struct(stringify!($name)).field("remaining", &self.len()).finish()
            }
        }
    };
}

/// `Clone` of iterators that lend: no memory is needed.
macro_rules! clones {
    ($($name:ident)*) => {
        $(impl<'a, K: crate::Key, V> Clone for $name<'a, K, V> {
            fn clone(&self) -> Self {
                $name(crate::maps::in_memory(crate::rt::TryClone::clone(&self.0)))
            }
        })*
    };
}

/// The iterators of a map that only read, and those that take the pairs out.
macro_rules! reading_walks {
    ($map:ident, $($drain:tt)+) => {
        walk!(
            /// Yields each key with a reference to its value; made by `iter`.
            Iter<'a, K, V>(proved::Iter<'a, K, V>) -> (K, &'a V));
        walk!(
            /// Yields each key; made by `keys`.
            Keys<'a, K, V>(proved::Keys<'a, K, V>) -> K);
        walk!(
            /// Yields a reference to each value; made by `values`.
            Values<'a, K, V>(proved::Values<'a, K, V>) -> &'a V);
        walk!(
            /// Takes each pair out of the map; made by `drain`.
            ///
            /// What is left when it is dropped is removed then.
            #[doc = forgotten!($map)]
            Drain<'a, K, V>($($drain)+<'a, K, V>) -> (K, V));
        walk!(
            /// Yields each pair of a map that is taken apart; made by `into_iter`.
            IntoIter<K, V>(proved::IntoIter<K, V>) -> (K, V));
        clones!(Iter Keys Values);
    };
}

/// What becomes of a map whose drain is forgotten.
macro_rules! forgotten {
    (SparseSecondaryMap) => {
        "If it is forgotten, as by [`core::mem::forget`], the map is empty, and its memory is lost."
    };
    ($map:ident) => {
        "If it is forgotten, as by [`core::mem::forget`], what is left stays in the map."
    };
}

/// The iterators that lend values to change them.
macro_rules! lending_walks {
    ($($iter_mut:tt)+) => {
        walk!(
            /// Yields each key with a reference to its value, to change it; made by `iter_mut`.
            IterMut<'a, K, V>($($iter_mut)+<'a, K, V>) -> (K, &'a mut V));

        /// Yields a reference to each value, to change it; made by `values_mut`.
        pub struct ValuesMut<'a, K: crate::Key, V>(pub(super) IterMut<'a, K, V>);

        impl<'a, K: crate::Key, V> Iterator for ValuesMut<'a, K, V> {
            type Item = &'a mut V;

            #[inline(always)]
            fn next(&mut self) -> Option<&'a mut V> {
                self.0.next().map(|pair| pair.1)
            }

            #[inline]
            fn size_hint(&self) -> (usize, Option<usize>) {
                self.0.size_hint()
            }
        }

        impl<'a, K: crate::Key, V> ExactSizeIterator for ValuesMut<'a, K, V> {}

        impl<'a, K: crate::Key, V> core::iter::FusedIterator for ValuesMut<'a, K, V> {}

        /// Prints how much is left.
        impl<'a, K: crate::Key, V> core::fmt::Debug for ValuesMut<'a, K, V> {
            fn fmt(&self, f: &mut core::fmt::Formatter<'_>) -> core::fmt::Result {
                f.debug_struct("ValuesMut").field("remaining", &self.len()).finish()
            }
        }
    };
}
