//! A SecondaryMap in step with a SlotMap, as the port's side does it (port/stepped.template).

use crate::operations::Stepped;
use crate::shuffler::Shuffler;
use crate::value::Sum;
use slotmap::{DefaultKey, SecondaryMap, SlotMap};

type Map = SlotMap<DefaultKey, u64>;
type Side = SecondaryMap<DefaultKey, u64>;

fn read_all(map: &Map, side: &Side) -> u64 {
    let mut sum = Sum::default();
    for (key, value) in map.iter() {
        sum.add(*value);
        sum.add(side.get(key).copied().unwrap_or(1));
    }
    sum.0
}

fn write_all(map: &Map, side: &mut Side) -> u64 {
    let mut sum = Sum::default();
    for (key, value) in map.iter() {
        if let Some(other) = side.get_mut(key) {
            *other = other.wrapping_add(*value);
            sum.add(*other);
        }
    }
    sum.0
}

fn churn(map: &mut Map, side: &mut Side, keys: &mut [DefaultKey]) -> u64 {
    let mut sum = Sum::default();
    for at in 0..keys.len() {
        let key = keys[at];
        let value = map.remove(key).unwrap_or(1);
        let other = side.remove(key).unwrap_or(1);
        sum.add(value);
        sum.add(other);
        let next = map.insert(value.wrapping_add(1));
        side.insert(next, other.wrapping_add(1));
        keys[at] = next;
    }
    sum.0
}

pub fn workload(operation: Stepped, n: u64, rounds: u64) -> u64 {
    let mut map = Map::new();
    let mut side = Side::new();
    let mut keys = Vec::new();
    for i in 0..n {
        let key = map.insert(i);
        side.insert(key, i.wrapping_mul(3));
        keys.push(key);
    }
    Shuffler::new().shuffle(&mut keys);
    let mut sum = Sum::default();
    for _ in 0..rounds {
        sum.add(match operation {
            Stepped::Read => read_all(&map, &side),
            Stepped::Write => write_all(&map, &mut side),
            Stepped::Churn => churn(&mut map, &mut side, &mut keys),
        });
    }
    sum.0
}
