//! [`DenseSlotMap`] and its iterators.

primary!(
    /// A map that makes the keys of its values, and keeps the values side by side in a vector.
    ///
    /// A walk takes time linear in the number of values alone, and is as fast as that over a slice. A look-up reads two vectors in place of
    /// one. The pairs come in the order of their inserts, but for removals, which move the last value into the gap.
    ///
    /// It holds 4294967294 values at most.
    ///
    /// ```
    /// use slotmap_proved::DenseSlotMap;
    ///
    /// let mut map = DenseSlotMap::new();
    /// let key = map.insert(5);
    /// map.insert(6);
    /// map.insert(7);
    /// map.remove(key);
    /// assert_eq!(map.values_as_slice(), [7, 6]);
    /// ```
    DenseSlotMap, slotmap_dense
);
inserts!(DenseSlotMap, slotmap_dense);
detaching!(DenseSlotMap, slotmap_dense);
values!(DenseSlotMap, slotmap_dense, get_many_mut, "invalid DenseSlotMap key used");
lending_walks!(proved::IterMut);
content!(DenseSlotMap, slotmap_dense);
conversions!(DenseSlotMap);

/// The keys and the values as slices.
impl<K: Key, V> DenseSlotMap<K, V> {
    /// Returns the keys, in the order of the values. Constant time.
    ///
    /// ```
    #[doc = held_two!(DenseSlotMap)]
    /// assert_eq!(map.keys_as_slice(), [key, other]);
    /// ```
    #[doc = clauses!(slotmap_dense DenseSlotMap keys_as_slice)]
    pub fn keys_as_slice(&self) -> &[K] {
        self.0.keys_as_slice()
    }

    /// Returns the values. Constant time.
    ///
    /// ```
    #[doc = held_two!(DenseSlotMap)]
    /// assert_eq!(map.values_as_slice(), [5, 6]);
    /// ```
    #[doc = clauses!(slotmap_dense DenseSlotMap values_as_slice)]
    pub fn values_as_slice(&self) -> &[V] {
        self.0.values_as_slice()
    }

    /// Returns the values, to change them. What moves in the slice moves from key to key. Constant time.
    ///
    /// ```
    #[doc = held_two!(DenseSlotMap)]
    /// map.values_as_mut_slice().reverse();
    /// assert_eq!((map[key], map[other]), (6, 5));
    /// ```
    #[doc = clauses!(slotmap_dense DenseSlotMap values_as_mut_slice)]
    pub fn values_as_mut_slice(&mut self) -> &mut [V] {
        self.0.values_as_mut_slice()
    }

    /// Returns the keys and the values, in the same order. Constant time.
    ///
    /// ```
    #[doc = held_two!(DenseSlotMap)]
    /// let (keys, values) = map.as_slices();
    /// assert_eq!((keys[1], values[1]), (other, 6));
    /// ```
    #[doc = clauses!(slotmap_dense DenseSlotMap as_slices)]
    pub fn as_slices(&self) -> (&[K], &[V]) {
        self.0.as_slices()
    }

    /// Returns the keys, and the values to change them, in the same order. Constant time.
    ///
    /// ```
    #[doc = held_two!(DenseSlotMap)]
    /// let (keys, values) = map.as_mut_slices();
    /// assert_eq!(keys[1], other);
    /// values[1] = 7;
    /// assert_eq!(map[other], 7);
    /// ```
    #[doc = clauses!(slotmap_dense DenseSlotMap as_mut_slices)]
    pub fn as_mut_slices(&mut self) -> (&[K], &mut [V]) {
        self.0.as_mut_slices()
    }
}
