//! Some operations of the maps that hand out keys with values of several types, as the port's side does them (port/valued.template).
#![allow(deprecated)]

use crate::operations::{Kind, Valued};
use crate::shuffler::Shuffler;
use crate::value::{Sum, number};
use slotmap::{DefaultKey, DenseSlotMap, HopSlotMap, SlotMap};

const KINDS: u32 = 7;

/// A value that is made from a number, and read as one.
trait Value: Sized {
    fn make(i: u64) -> Self;

    fn read(&self) -> u64;
}

macro_rules! numbers {
    ($($number:ty),*) => {
        $(impl Value for $number {
            fn make(i: u64) -> Self {
                i as $number
            }

            fn read(&self) -> u64 {
                *self as u64
            }
        })*
    };
}
numbers!(u8, u32, u64);

impl<const N: usize> Value for [u64; N] {
    fn make(i: u64) -> Self {
        [i; N]
    }

    fn read(&self) -> u64 {
        self[0].wrapping_add(self[N - 1])
    }
}

impl Value for String {
    fn make(_i: u64) -> String {
        String::from("a text of some thirty bytes, no less")
    }

    fn read(&self) -> u64 {
        self.len() as u64
    }
}

macro_rules! valued_map {
    ($module:ident, $map:ident) => {
        pub mod $module {
            use super::*;

            type Map<V> = $map<DefaultKey, V>;

            fn insert_all<V: Value>(n: u64, rounds: u64) -> u64 {
                let mut sum = Sum::default();
                for _ in 0..rounds {
                    let mut map: Map<V> = $map::new();
                    for i in 0..n {
                        sum.add(number(map.insert(V::make(i))));
                    }
                }
                sum.0
            }

            fn walk<V: Value>(map: &Map<V>) -> u64 {
                let mut sum = Sum::default();
                for (key, value) in map.iter() {
                    sum.add(number(key));
                    sum.add(value.read());
                }
                sum.0
            }

            fn get_all<V: Value>(map: &Map<V>, keys: &[DefaultKey]) -> u64 {
                let mut sum = Sum::default();
                for key in keys {
                    sum.add(map.get(*key).map_or(1, |value| value.read()));
                }
                sum.0
            }

            fn churn<V: Value>(map: &mut Map<V>, keys: &mut [DefaultKey]) -> u64 {
                let mut sum = Sum::default();
                for at in 0..keys.len() {
                    sum.add(map.remove(keys[at]).map_or(1, |value| value.read()));
                    keys[at] = map.insert(V::make(at as u64));
                }
                sum.0
            }

            fn with_a_map<V: Value>(operation: Valued, n: u64, rounds: u64) -> u64 {
                let mut map: Map<V> = $map::new();
                let mut keys = Vec::new();
                for i in 0..n {
                    keys.push(map.insert_with_key(|_| V::make(i)));
                }
                Shuffler::new().shuffle(&mut keys);
                if let Valued::IterHalf = operation {
                    for key in &keys[..n as usize / 2] {
                        map.remove(*key);
                    }
                }
                let mut sum = Sum::default();
                for _ in 0..rounds {
                    sum.add(match operation {
                        Valued::Get => get_all(&map, &keys),
                        Valued::Churn => churn(&mut map, &mut keys),
                        _ => walk(&map),
                    });
                }
                sum.0
            }

            fn of_values<V: Value>(operation: Valued, n: u64, rounds: u64) -> u64 {
                match operation {
                    Valued::Insert => insert_all::<V>(n, rounds),
                    _ => with_a_map::<V>(operation, n, rounds),
                }
            }

            pub fn workload(place: u32, n: u64, rounds: u64) -> Option<u64> {
                let operation = Valued::of_number(place / KINDS)?;
                Some(match Kind::of_number(place % KINDS)? {
                    Kind::U8 => of_values::<u8>(operation, n, rounds),
                    Kind::U32 => of_values::<u32>(operation, n, rounds),
                    Kind::U64 => of_values::<u64>(operation, n, rounds),
                    Kind::Words4 => of_values::<[u64; 4]>(operation, n, rounds),
                    Kind::Words8 => of_values::<[u64; 8]>(operation, n, rounds),
                    Kind::Words32 => of_values::<[u64; 32]>(operation, n, rounds),
                    Kind::Text => of_values::<String>(operation, n, rounds),
                })
            }
        }
    };
}
valued_map!(basic, SlotMap);
valued_map!(dense, DenseSlotMap);
valued_map!(hop, HopSlotMap);
