//! `Primary`, `Detaching` and `Secondary`, so that runs serve the maps here.

use crate::errors::{InsertError, InsertWithError, OutOfMemory, PutError, ReattachError, ReserveError, TryInsertError};
use crate::fallible::Vec;
use crate::fallible::OrPut;
use crate::runs::{Detaching, Primary, Secondary};
use crate::{DenseSlotMap, Global, HopSlotMap, Key, SecondaryMap, SlotMap};
#[cfg(feature = "std")]
use crate::SparseSecondaryMap;

macro_rules! primaries {
    ($($map:ident: $proved:ident)*) => {
        $(impl<K: Key, V> Primary<K, V> for $map<K, V> {
            const REUSES: bool = <crate::proved::$proved::$map<K, V> as Primary<K, V>>::REUSES;

            fn with_key(alloc: Global) -> Result<Self, ReserveError> {
                Primary::with_key(alloc).map($map)
            }

            fn with_capacity_and_key(alloc: Global, capacity: usize) -> Result<Self, ReserveError> {
                Primary::with_capacity_and_key(alloc, capacity).map($map)
            }

            fn len(&self) -> usize {
                Primary::len(&self.0)
            }

            fn is_empty(&self) -> bool {
                Primary::is_empty(&self.0)
            }

            fn capacity(&self) -> usize {
                Primary::capacity(&self.0)
            }

            fn contains_key(&self, key: K) -> bool {
                Primary::contains_key(&self.0, key)
            }

            fn get(&self, key: K) -> Option<&V> {
                Primary::get(&self.0, key)
            }

            fn insert(&mut self, value: V) -> Result<K, InsertError<V>> {
                Primary::insert(&mut self.0, value)
            }

            fn remove(&mut self, key: K) -> Option<V> {
                Primary::remove(&mut self.0, key)
            }

            fn try_insert_with_key<E, F: FnOnce(K) -> Result<V, E>>(&mut self, f: F) -> Result<K, TryInsertError<E>> {
                Primary::try_insert_with_key(&mut self.0, f)
            }

            fn insert_with_key<F: FnOnce(K) -> V>(&mut self, f: F) -> Result<K, InsertWithError> {
                Primary::insert_with_key(&mut self.0, f)
            }

            fn replace(&mut self, key: K, value: V) -> Result<V, V> {
                Primary::replace(&mut self.0, key, value)
            }

            fn reserve(&mut self, additional: usize) -> Result<(), ReserveError> {
                Primary::reserve(&mut self.0, additional)
            }

            fn try_reserve(&mut self, additional: usize) -> Result<(), ReserveError> {
                Primary::try_reserve(&mut self.0, additional)
            }

            fn retain<F: FnMut(K, &mut V) -> bool>(&mut self, f: F) {
                Primary::retain(&mut self.0, f);
            }

            fn clear(&mut self) {
                Primary::clear(&mut self.0);
            }

            fn drain_into(&mut self, out: &mut Vec<(K, V)>) -> Result<(), OutOfMemory> {
                Primary::drain_into(&mut self.0, out)
            }

            fn keys_into(&self, out: &mut Vec<K>) -> Result<(), OutOfMemory> {
                Primary::keys_into(&self.0, out)
            }
        })*
    };
}

primaries!(SlotMap: slotmap_basic DenseSlotMap: slotmap_dense HopSlotMap: slotmap_hop);

macro_rules! detachings {
    ($($map:ident)*) => {
        $(impl<K: Key, V> Detaching<K, V> for $map<K, V> {
            fn detach(&mut self, key: K) -> Option<V> {
                Detaching::detach(&mut self.0, key)
            }

            fn reattach(&mut self, key: K, value: V) -> Result<(), ReattachError<V>> {
                Detaching::reattach(&mut self.0, key, value)
            }
        })*
    };
}

detachings!(SlotMap DenseSlotMap);

macro_rules! secondaries {
    ($($map:ident $(<$s:ident>)?)*) => {
        $(impl<K: Key, V $(, $s: core::hash::BuildHasher)?> Secondary<K, V> for $map<K, V $(, $s)?> {
            fn len(&self) -> usize {
                Secondary::len(&self.0)
            }

            fn contains_key(&self, key: K) -> bool {
                Secondary::contains_key(&self.0, key)
            }

            fn get(&self, key: K) -> Option<&V> {
                Secondary::get(&self.0, key)
            }

            fn insert(&mut self, key: K, value: V) -> Result<Option<V>, PutError<V>> {
                Secondary::insert(&mut self.0, key, value)
            }

            fn remove(&mut self, key: K) -> Option<V> {
                Secondary::remove(&mut self.0, key)
            }

            fn or_put(&mut self, key: K, value: V) -> OrPut<V> {
                Secondary::or_put(&mut self.0, key, value)
            }
        })*
    };
}

secondaries!(SecondaryMap);
#[cfg(feature = "std")]
secondaries!(SparseSecondaryMap<S>);
