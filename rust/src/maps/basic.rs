//! [`SlotMap`] and its iterators.

primary!(
    /// A map that makes the keys of its values: the one to take, unless another fits better.
    ///
    /// A key finds its value until it is removed, and nothing after. Inserts, removals and look-ups take constant time. A walk takes time
    /// linear in the number of slots, and yields the pairs by ascending index.
    ///
    /// It holds 4294967294 values at most, in three vectors: versions, links and optional values.
    ///
    /// ```
    /// use slotmap_proved::SlotMap;
    ///
    /// let mut map = SlotMap::new();
    /// let river = map.insert("river");
    /// let lake = map.insert("lake");
    /// assert_eq!(map[river], "river");
    /// assert_eq!(map.remove(lake), Some("lake"));
    /// assert_eq!(map.get(lake), None);
    /// ```
    SlotMap, slotmap_basic
);
inserts!(SlotMap, slotmap_basic);
detaching!(SlotMap, slotmap_basic);
values!(SlotMap, slotmap_basic, get_disjoint_mut, "invalid SlotMap key used");
lending_walks!(proved::lent::IterMut);
content!(SlotMap, slotmap_basic);
conversions!(SlotMap);
