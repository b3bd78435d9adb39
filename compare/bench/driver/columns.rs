//! A model of the port's `SlotMap`: the same three vectors of one length, and the same tests of keys, room and limits. Its reads
//! and writes test no index. It grows as the port does. So the port beside the model shows the port's own part of a ratio, and the
//! model beside the crate's map that of the layout. The operations are those of port/primary.template.

use crate::operations::Primary;
use crate::shuffler::Shuffler;
use crate::value::{Sum, Value};

/// The largest number of live and retired keys.
const MOST_KEYS: u32 = 4294967294;

/// An index has 32 bits, and the last one is the null key's.
const MOST_SLOTS: usize = 4294967295;

/// With fewer slots than this the vectors grow to four times their length, with more to twice.
const FEW: usize = 512;

/// The link of a retired slot.
const RETIRED: u32 = 1;

#[derive(Clone, Copy)]
struct Key {
    index: u32,
    version: u32,
}

impl Key {
    fn number(self) -> u64 {
        u64::from(self.version) << 32 | u64::from(self.index)
    }
}

/// The three vectors have one length, and as many slots as `capacity` fit in each. A slot has a value where its version is
/// odd. A vacant slot links to the next one, and the last of these to slot 0, which no key has.
struct Map<const AT: u32> {
    versions: Vec<u32>,
    links: Vec<u32>,
    values: Vec<Option<Value<AT>>>,
    capacity: usize,
    first_vacant: u32,
    retired_count: u32,
    live_count: u32,
}

/// Appends an item.
///
/// # Safety
///
/// The vector has room for it.
unsafe fn push_reserved<T>(items: &mut Vec<T>, item: T) {
    let len = items.len();
    // SAFETY: there is room behind the last item.
    unsafe {
        items.as_mut_ptr().add(len).write(item);
        items.set_len(len + 1);
    }
}

impl<const AT: u32> Map<AT> {
    fn with_capacity(capacity: usize) -> Map<AT> {
        let mut map = Map {
            versions: Vec::with_capacity(capacity + 1),
            links: Vec::with_capacity(capacity + 1),
            values: Vec::with_capacity(capacity + 1),
            capacity: 0,
            first_vacant: 0,
            retired_count: 0,
            live_count: 0,
        };
        map.set_capacity();
        // SAFETY: each vector has room for one item.
        unsafe { map.push(0, None) };
        map
    }

    fn set_capacity(&mut self) {
        let others = self.links.capacity().min(self.values.capacity());
        self.capacity = self.versions.capacity().min(others).min(MOST_SLOTS);
    }

    /// Makes room for one more slot.
    #[cold]
    #[inline(never)]
    fn grow(&mut self) {
        assert!(self.retired_count + self.live_count < MOST_KEYS);
        let len = self.versions.len();
        let more = if len < FEW { 3 * len } else { 1 };
        self.values.reserve(more);
        self.links.reserve(more);
        self.versions.reserve(more);
        self.set_capacity();
    }

    /// Appends a slot.
    ///
    /// # Safety
    ///
    /// There is room for it.
    #[inline(always)]
    unsafe fn push(&mut self, version: u32, value: Option<Value<AT>>) {
        // SAFETY: `capacity` slots fit in each vector.
        unsafe {
            push_reserved(&mut self.versions, version);
            push_reserved(&mut self.links, 0);
            push_reserved(&mut self.values, value);
        }
    }

    #[inline(always)]
    fn insert(&mut self, value: Value<AT>) -> Key {
        if self.first_vacant == 0 && self.versions.len() >= self.capacity {
            self.grow();
        }
        self.live_count += 1;
        let index = self.first_vacant;
        if index == 0 {
            let index = self.versions.len() as u32;
            // SAFETY: if there was no room, the map has grown.
            unsafe { self.push(1, Some(value)) };
            return Key { index, version: 1 };
        }
        let at = index as usize;
        // SAFETY: a link names a vacant slot.
        unsafe {
            let version = *self.versions.get_unchecked(at) + 1;
            self.first_vacant = *self.links.get_unchecked(at);
            *self.versions.get_unchecked_mut(at) = version;
            *self.values.get_unchecked_mut(at) = Some(value);
            Key { index, version }
        }
    }

    #[inline(always)]
    fn contains_key(&self, key: Key) -> bool {
        let at = key.index as usize;
        // SAFETY: the index is below the length.
        at < self.versions.len() && unsafe { *self.versions.get_unchecked(at) == key.version }
    }

    #[inline(always)]
    fn get(&self, key: Key) -> Option<&Value<AT>> {
        if !self.contains_key(key) {
            return None;
        }
        // SAFETY: the slot of a key of this map has a value while the versions agree.
        Some(unsafe { self.values.get_unchecked(key.index as usize).as_ref().unwrap_unchecked() })
    }

    #[inline(always)]
    fn remove(&mut self, key: Key) -> Option<Value<AT>> {
        if !self.contains_key(key) {
            return None;
        }
        self.live_count -= 1;
        if key.version == u32::MAX {
            self.retired_count += 1;
            // SAFETY: the key is live.
            return Some(unsafe { self.take(key.index, 0, RETIRED) });
        }
        // SAFETY: the key is live.
        let value = unsafe { self.take(key.index, key.version + 1, self.first_vacant) };
        self.first_vacant = key.index;
        Some(value)
    }

    /// Takes the value of a slot, and leaves this version and this link there.
    ///
    /// # Safety
    ///
    /// The slot has a value.
    #[inline(always)]
    unsafe fn take(&mut self, index: u32, version: u32, link: u32) -> Value<AT> {
        let at = index as usize;
        // SAFETY: the slot is there, and has a value.
        unsafe {
            *self.versions.get_unchecked_mut(at) = version;
            *self.links.get_unchecked_mut(at) = link;
            self.values.get_unchecked_mut(at).take().unwrap_unchecked()
        }
    }
}

fn insert_all<const AT: u32>(map: &mut Map<AT>, n: u64, round: u64) -> u64 {
    let mut sum = Sum::default();
    for i in 0..n {
        sum.add(map.insert(Value(i ^ round)).number());
    }
    sum.0
}

fn get_all<const AT: u32>(map: &Map<AT>, keys: &[Key]) -> u64 {
    let mut sum = Sum::default();
    for key in keys {
        sum.add(map.get(*key).map_or(1, |value| value.0));
    }
    sum.0
}

fn count_all<const AT: u32>(map: &Map<AT>, keys: &[Key]) -> u64 {
    let mut sum = Sum::default();
    for key in keys {
        if map.contains_key(*key) {
            sum.add(1);
        }
    }
    sum.0
}

fn churn<const AT: u32>(map: &mut Map<AT>, keys: &mut [Key], round: u64) -> u64 {
    let mut sum = Sum::default();
    for at in 0..keys.len() {
        sum.add(map.remove(keys[at]).map_or(1, |value| value.0));
        keys[at] = map.insert(Value(at as u64 ^ round));
    }
    sum.0
}

/// Rounds over new maps.
fn anew<const AT: u32>(n: u64, rounds: u64, capacity: usize) -> u64 {
    let mut sum = Sum::default();
    for round in 0..rounds {
        let mut map: Map<AT> = Map::with_capacity(capacity);
        sum.add(insert_all(&mut map, n, round));
    }
    sum.0
}

/// A map of n keys, and its keys in order.
fn filled<const AT: u32>(n: u64) -> (Map<AT>, Vec<Key>) {
    let mut map: Map<AT> = Map::with_capacity(0);
    let keys = (0..n).map(|i| map.insert(Value(i))).collect();
    (map, keys)
}

/// Rounds over one map, with its keys shuffled.
fn shuffled<const AT: u32>(n: u64, rounds: u64, run: impl Fn(&mut Map<AT>, &mut [Key], u64) -> u64) -> u64 {
    let (mut map, mut keys) = filled(n);
    Shuffler::new().shuffle(&mut keys);
    let mut sum = Sum::default();
    for round in 0..rounds {
        sum.add(run(&mut map, &mut keys, round));
    }
    sum.0
}

/// Look-ups of keys whose slots have other keys.
fn stale<const AT: u32>(n: u64, rounds: u64) -> u64 {
    let (mut map, mut keys) = filled::<AT>(n);
    for key in &keys {
        map.remove(*key);
    }
    insert_all(&mut map, n, 0);
    Shuffler::new().shuffle(&mut keys);
    let mut sum = Sum::default();
    for _ in 0..rounds {
        sum.add(get_all(&map, &keys));
    }
    sum.0
}

pub fn workload(operation: Primary, n: u64, rounds: u64) -> Option<u64> {
    Some(match operation {
        Primary::Insert => anew::<0>(n, rounds, 0),
        Primary::InsertRoom => anew::<1>(n, rounds, n as usize),
        Primary::GetLive => shuffled::<2>(n, rounds, |map, keys, _| get_all(map, keys)),
        Primary::GetStale => stale::<3>(n, rounds),
        Primary::Contains => shuffled::<4>(n, rounds, |map, keys, _| count_all(map, keys)),
        Primary::Churn => shuffled::<5>(n, rounds, churn),
        _ => return None,
    })
}
