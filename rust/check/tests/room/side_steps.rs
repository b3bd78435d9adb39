//! The iterators of SecondaryMap and SparseSecondaryMap, under slotmap's names and as they are proved.

use super::side::{full, holes, two, State};
use super::table::{assert_all, table, Entry};
use slotmap_proved::{fallible, DefaultKey, SecondaryMap, SparseSecondaryMap};
use std::fmt::Write;

type Tables = Vec<Vec<Entry>>;

/// The iterators under slotmap's names.
macro_rules! renamed {
    ($module:literal, $Map:ident) => {
        vec![
            steps!(walk concat!($module, "::Iter"), State<$Map<DefaultKey, u64>>, [full, holes], |s| s.map.iter(); next size_hint clone fmt),
            steps!(walk concat!($module, "::Keys"), State<$Map<DefaultKey, u64>>, [full, holes], |s| s.map.keys(); next size_hint clone fmt),
            steps!(walk concat!($module, "::Values"), State<$Map<DefaultKey, u64>>, [full, holes], |s| s.map.values(); next size_hint clone fmt),
            steps!(walk concat!($module, "::IterMut"), State<$Map<DefaultKey, u64>>, [full, holes], |s| s.map.iter_mut(); next size_hint fmt),
            steps!(walk concat!($module, "::ValuesMut"), State<$Map<DefaultKey, u64>>, [full, holes], |s| s.map.values_mut(); next size_hint fmt),
            steps!(once concat!($module, "::Drain"), State<$Map<DefaultKey, u64>>, [full, holes], |s| s.map.drain(); next size_hint fmt),
            steps!(once concat!($module, "::IntoIter"), State<$Map<DefaultKey, u64>>, [two], |s| s.other.take().expect("a map").into_iter();
                next size_hint fmt),
        ]
    };
}

/// The proved iterators.
macro_rules! proved {
    ($module:literal, $Map:ty) => {
        vec![
            steps!(walk concat!($module, "::Iter"), State<$Map>, [full, holes], |s| s.map.iter(); next size_hint len clone fmt),
            steps!(walk concat!($module, "::Keys"), State<$Map>, [full, holes], |s| s.map.keys(); next size_hint len clone fmt),
            steps!(walk concat!($module, "::Values"), State<$Map>, [full, holes], |s| s.map.values(); next size_hint len clone fmt),
            steps!(once concat!($module, "::Drain"), State<$Map>, [full, holes], |s| s.map.drain(); size_hint len drop fmt),
            steps!(once concat!($module, "::IntoIter"), State<$Map>, [two], |s| s.other.take().expect("a map").into_iter();
                next size_hint len fmt),
        ]
    };
}

fn secondary() -> Tables {
    let proved = proved!("fallible::secondary", fallible::SecondaryMap<DefaultKey, u64>);
    let drain = vec![
        steps!(once "fallible::secondary::Drain", State<fallible::SecondaryMap<DefaultKey, u64>>, [full, holes], |s| s.map.drain(); next),
    ];
    [renamed!("secondary", SecondaryMap), proved, drain].into_iter().flatten().collect()
}

/// The proved drain looks for the first pair at each step, which in Rust's hash map takes time linear in the capacity: some steps are made.
fn sparse() -> Tables {
    let proved = proved!("fallible::sparse_secondary", fallible::SparseSecondaryMap<DefaultKey, u64>);
    let drain = vec![table("fallible::sparse_secondary::Drain", rows![State<fallible::SparseSecondaryMap<DefaultKey, u64>>:
        once [full, holes] next => |s, _| {
            let mut walk = s.map.drain();
            for _ in 0..50 {
                assert!(walk.next().is_some());
            }
        };
    ])];
    [renamed!("sparse_secondary", SparseSecondaryMap), proved, drain].into_iter().flatten().collect()
}

pub fn all() -> Tables {
    [secondary(), sparse()].into_iter().flatten().collect()
}

#[test]
fn secondary_map() {
    assert_all(secondary());
}

#[test]
fn sparse_secondary_map() {
    assert_all(sparse());
}
