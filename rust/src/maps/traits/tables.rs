//! `Table`, so that a world of entities keeps its components in the secondary maps here.

use crate::entities::{CloneTable, Table};
use crate::errors::{PutError, ReserveError};
use crate::fallible::AllocError;
use crate::{proved, Global, Key, SecondaryMap};
#[cfg(feature = "std")]
use crate::SparseSecondaryMap;

macro_rules! tables {
    ($($map:ident $(<$s:ident>)?, $new:expr, |$self:ident, $additional:ident, $last:ident| $reserve:expr;)*) => {
        $(impl<K: Key, C $(, $s: core::hash::BuildHasher + Default)?> crate::sealed::Table<K> for $map<K, C $(, $s)?> {}

        impl<K: Key, C $(, $s: core::hash::BuildHasher + Default)?> Table<K> for $map<K, C $(, $s)?> {
            type Component = C;

            fn new(alloc: Global) -> Result<Self, ReserveError> {
                $new(alloc).map($map)
            }

            fn reserve(&mut $self, $additional: usize, $last: usize) -> Result<(), ReserveError> {
                $reserve
            }

            fn contains_key(&self, key: K) -> bool {
                self.0.contains_key(key)
            }

            fn get(&self, key: K) -> Option<&C> {
                self.0.get(key)
            }

            fn get_mut(&mut self, key: K) -> Option<&mut C> {
                self.0.get_mut(key)
            }

            fn insert(&mut self, key: K, component: C) -> Result<Option<C>, PutError<C>> {
                self.0.insert(key, component)
            }

            fn remove(&mut self, key: K) -> Option<C> {
                self.0.remove(key)
            }

            fn retain<F: FnMut(K, &mut C) -> bool>(&mut self, f: F) {
                self.0.retain(f);
            }

            fn clear(&mut self) {
                self.0.clear();
            }
        }

        impl<K: Key, C: Clone $(, $s: core::hash::BuildHasher + Default + Clone)?> crate::sealed::CloneTable<K> for $map<K, C $(, $s)?> {}

        impl<K: Key, C: Clone $(, $s: core::hash::BuildHasher + Default + Clone)?> CloneTable<K> for $map<K, C $(, $s)?> {
            fn clone_table(&self) -> Result<Self, AllocError> {
                self.0.clone().map($map)
            }
        })*
    };
}

tables! {
    SecondaryMap, proved::slotmap_secondary::SecondaryMap::new, |self, _additional, last| self.0.set_capacity(last);
}

#[cfg(feature = "std")]
tables! {
    SparseSecondaryMap<S>, |alloc| proved::slotmap_sparse::SparseSecondaryMap::with_hasher(alloc, S::default()),
        |self, additional, _last| self.0.reserve(additional);
}
