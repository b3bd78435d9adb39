//! [`HopSlotMap`] and its iterators.

primary!(
    /// A map that makes the keys of its values, whose walks skip vacant slots.
    ///
    /// A walk skips a block of vacant slots in one step. So it is fast where many values were removed, and a removal costs more than in a
    /// [`SlotMap`](crate::SlotMap). The pairs come by ascending index.
    ///
    /// It holds 4294967294 values at most. slotmap marks this map as deprecated; here it isn't.
    ///
    /// ```
    /// use slotmap_proved::HopSlotMap;
    ///
    /// let mut map = HopSlotMap::new();
    /// let keys: Vec<_> = (0..1000).map(|value| map.insert(value)).collect();
    /// map.retain(|_, value| *value == 7);
    /// assert_eq!(map.iter().collect::<Vec<_>>(), [(keys[7], &7)]);
    /// ```
    HopSlotMap, slotmap_hop
);
inserts!(HopSlotMap, slotmap_hop);
values!(HopSlotMap, slotmap_hop, get_disjoint_mut, "invalid HopSlotMap key used");
lending_walks!(proved::lent::IterMut);
content!(HopSlotMap, slotmap_hop);
conversions!(HopSlotMap);
