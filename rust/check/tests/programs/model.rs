//! What slotrun has to reply: a model of the three kinds of map, of the rules of docs/SLOTRUN.md and of `compare/scripts.py`.

use std::collections::{BTreeMap, BTreeSet};

/// The vacant slots, in the order in which they are used again.
enum Vacant {
    /// That of the last removal first.
    Stack(Vec<u32>),
    /// Blocks of neighbours. The first behind that of slot 0 is used from its back, and that of slot 0 last.
    Blocks(Vec<[u32; 2]>),
}

impl Vacant {
    fn of(kind: &str) -> Vacant {
        match kind {
            "hop" => Vacant::Blocks(vec![[0, 0]]),
            _ => Vacant::Stack(Vec::new()),
        }
    }

    fn take(&mut self) -> Option<u32> {
        match self {
            Vacant::Stack(indices) => indices.pop(),
            Vacant::Blocks(blocks) => {
                let at = blocks.len().min(2) - 1;
                let [first, last] = blocks[at];
                if last == 0 {
                    return None;
                }
                if first == last {
                    blocks.remove(at);
                } else {
                    blocks[at][1] = last - 1;
                }
                Some(last)
            }
        }
    }

    fn give(&mut self, index: u32) {
        match self {
            Vacant::Stack(indices) => indices.push(index),
            Vacant::Blocks(blocks) => {
                let left = blocks.iter().position(|block| block[1] + 1 == index);
                let right = blocks.iter().position(|block| block[0] == index + 1);
                match (left, right) {
                    (Some(left), Some(right)) => {
                        blocks[left][1] = blocks[right][1];
                        blocks.remove(right);
                    }
                    (Some(left), None) => blocks[left][1] = index,
                    (None, Some(right)) => blocks[right][0] = index,
                    (None, None) => blocks.push([index, index]),
                }
            }
        }
    }
}

/// A record of a list of slots.
pub type Record = (Option<i32>, u32);

/// A map, as its slots are written in a list.
pub struct Model {
    kind: &'static str,
    /// The version of each slot, odd where its key is live; that of slot 0 is 0.
    versions: Vec<u32>,
    values: BTreeMap<u32, i32>,
    detached: BTreeSet<u32>,
    /// The live indices in the order of a `DenseSlotMap`'s values.
    packed: Vec<u32>,
    vacant: Vacant,
}

/// A key as one number.
pub fn number(index: u32, version: u32) -> u64 {
    u64::from(version) << 32 | u64::from(index)
}

/// The index and the version that a number means.
fn parts(number: u64) -> (u32, u32) {
    (number as u32, (number >> 32) as u32 | 1)
}

impl Model {
    pub fn new(kind: &'static str) -> Model {
        Model::of_slots(kind, &[(None, 0)])
    }

    /// The map of a list that can be read.
    fn of_slots(kind: &'static str, list: &[Record]) -> Model {
        let (mut values, mut vacant, mut packed) = (BTreeMap::new(), Vacant::of(kind), Vec::new());
        for (index, (value, version)) in (0..).zip(list).skip(1) {
            match value {
                Some(value) => {
                    values.insert(index, *value);
                    packed.push(index);
                }
                None if *version > 0 => vacant.give(index),
                None => {}
            }
        }
        let mut versions: Vec<u32> = list.iter().map(|slot| slot.1).collect();
        versions[0] = 0;
        Model { kind, versions, values, detached: BTreeSet::new(), packed, vacant }
    }

    pub fn live(&self) -> Vec<u64> {
        self.values.keys().map(|index| number(*index, self.versions[*index as usize])).collect()
    }

    /// The keys that can be given a value again.
    pub fn detached(&self) -> Vec<u64> {
        self.detached.iter().map(|index| number(*index, self.versions[*index as usize].wrapping_sub(1))).collect()
    }

    pub fn slots(&self) -> usize {
        self.versions.len()
    }

    pub fn version(&self, index: usize) -> u32 {
        self.versions[index]
    }

    fn is_live(&self, key: u64) -> bool {
        let (index, version) = parts(key);
        self.values.contains_key(&index) && self.versions[index as usize] == version
    }

    pub fn insert(&mut self, value: i32) -> String {
        let index = self.vacant.take().unwrap_or_else(|| {
            self.versions.push(0);
            self.versions.len() as u32 - 1
        });
        self.versions[index as usize] |= 1;
        self.values.insert(index, value);
        self.packed.push(index);
        format!("key {}", number(index, self.versions[index as usize]))
    }

    pub fn get(&self, key: u64) -> String {
        match self.values.get(&parts(key).0) {
            Some(value) if self.is_live(key) => format!("value {value}"),
            _ => "none".into(),
        }
    }

    /// Takes a live slot's value out. The slot's next version begins.
    fn take(&mut self, index: u32) -> i32 {
        let at = self.packed.iter().position(|other| *other == index).expect("a live slot");
        self.packed.swap_remove(at);
        self.versions[index as usize] = self.versions[index as usize].wrapping_add(1);
        self.values.remove(&index).expect("a live slot")
    }

    fn free(&mut self, index: u32) -> i32 {
        let value = self.take(index);
        // A slot whose versions are used up is retired.
        if self.versions[index as usize] != 0 {
            self.vacant.give(index);
        }
        value
    }

    pub fn remove(&mut self, key: u64) -> String {
        if !self.is_live(key) {
            return "none".into();
        }
        format!("value {}", self.free(parts(key).0))
    }

    pub fn detach(&mut self, key: u64) -> String {
        if !self.is_live(key) {
            return "none".into();
        }
        let index = parts(key).0;
        self.detached.insert(index);
        format!("value {}", self.take(index))
    }

    pub fn reattach(&mut self, key: u64, value: i32) -> String {
        let (index, version) = parts(key);
        if !self.detached.contains(&index) || self.versions[index as usize].wrapping_sub(1) != version {
            return "not detached".into();
        }
        self.detached.remove(&index);
        self.versions[index as usize] = version;
        self.values.insert(index, value);
        self.packed.push(index);
        "done".into()
    }

    pub fn len(&self) -> String {
        format!("len {}", self.values.len())
    }

    pub fn keys(&self) -> String {
        let keys: String = self.live().iter().map(|key| format!(" {key}")).collect();
        format!("keys{keys}")
    }

    /// A `DenseSlotMap` is cleared from the back of its packed order.
    pub fn clear(&mut self) -> String {
        let order: Vec<u32> = match self.kind {
            "dense" => self.packed.iter().rev().copied().collect(),
            _ => self.values.keys().copied().collect(),
        };
        for index in order {
            self.free(index);
        }
        "done".into()
    }

    pub fn write(&self) -> String {
        let record = |(index, version): (u32, &u32)| match self.values.get(&index) {
            Some(value) => format!("{{\"value\":{value},\"version\":{version}}}"),
            None => format!("{{\"value\":null,\"version\":{version}}}"),
        };
        let records: Vec<String> = (0..).zip(&self.versions).map(record).collect();
        format!("[{}]", records.join(","))
    }

    pub fn load(&mut self, list: &[Record]) -> String {
        match list.first() {
            None => return "first not empty".into(),
            Some((_, version)) if version % 2 == 1 => return "first not empty".into(),
            Some(_) => {}
        }
        let is_inconsistent = |(value, version): &Record| value.is_some() != (version % 2 == 1);
        if let Some(position) = list.iter().position(is_inconsistent) {
            return format!("inconsistent {position}");
        }
        *self = Model::of_slots(self.kind, list);
        "done".into()
    }
}
