//! The iterators of SlotMap, DenseSlotMap and HopSlotMap, under slotmap's names and as they are proved.

use super::primary::{full, holes, two, State};
use super::table::{assert_all, table, Entry};
use slotmap_proved::{fallible, DefaultKey, DenseSlotMap, HopSlotMap, SlotMap};
use std::fmt::Write;

type Tables = Vec<Vec<Entry>>;

/// The iterators under slotmap's names.
macro_rules! renamed {
    ($module:literal, $Map:ident, $vectors:literal) => {
        vec![
            steps!(walk concat!($module, "::Iter"), State<$Map<DefaultKey, u64>>, [full, holes], |s| s.map.iter(); next size_hint clone fmt),
            steps!(walk concat!($module, "::Keys"), State<$Map<DefaultKey, u64>>, [full, holes], |s| s.map.keys(); next size_hint clone fmt),
            steps!(walk concat!($module, "::Values"), State<$Map<DefaultKey, u64>>, [full, holes], |s| s.map.values(); next size_hint clone fmt),
            steps!(walk concat!($module, "::IterMut"), State<$Map<DefaultKey, u64>>, [full, holes], |s| s.map.iter_mut(); next size_hint fmt),
            steps!(walk concat!($module, "::ValuesMut"), State<$Map<DefaultKey, u64>>, [full, holes], |s| s.map.values_mut(); next size_hint fmt),
            steps!(once concat!($module, "::Drain"), State<$Map<DefaultKey, u64>>, [full, holes], |s| s.map.drain(); next size_hint fmt),
            steps!(once concat!($module, "::IntoIter"), State<$Map<DefaultKey, u64>>, [two], |s| s.other.take().expect("a map").into_iter();
                next size_hint fmt),
            table(concat!($module, "::IntoIter"), rows![State<$Map<DefaultKey, u64>>:
                once [two] clone asks $vectors "the values that are left" => |s, _| s.other.take().expect("a map").into_iter().clone();
            ]),
        ]
    };
}

/// The proved iterators.
macro_rules! proved {
    ($module:literal, $Map:ty, $vectors:literal) => {
        vec![
            steps!(walk concat!($module, "::Iter"), State<$Map>, [full, holes], |s| s.map.iter(); next size_hint len clone fmt),
            steps!(walk concat!($module, "::Keys"), State<$Map>, [full, holes], |s| s.map.keys(); next size_hint len clone fmt),
            steps!(walk concat!($module, "::Values"), State<$Map>, [full, holes], |s| s.map.values(); next size_hint len clone fmt),
            steps!(once concat!($module, "::Drain"), State<$Map>, [full, holes], |s| s.map.drain(); next size_hint len drop fmt),
            steps!(once concat!($module, "::IntoIter"), State<$Map>, [two], |s| s.other.take().expect("a map").into_iter();
                next size_hint len fmt),
            table(concat!($module, "::IntoIter"), rows![State<$Map>:
                once [two] clone asks $vectors "the values that are left" => |s, _| s.other.take().expect("a map").into_iter().clone();
            ]),
        ]
    };
}

fn basic() -> Tables {
    [renamed!("basic", SlotMap, 2), proved!("fallible::basic", fallible::SlotMap<DefaultKey, u64>, 2)].into_iter().flatten().collect()
}

fn dense() -> Tables {
    let lending = vec![
        steps!(walk "fallible::dense::IterMut", State<fallible::DenseSlotMap<DefaultKey, u64>>, [full, holes], |s| s.map.iter_mut();
            next size_hint len fmt),
        steps!(walk "fallible::dense::ValuesMut", State<fallible::DenseSlotMap<DefaultKey, u64>>, [full, holes], |s| s.map.values_mut();
            next size_hint len fmt),
    ];
    let proved = proved!("fallible::dense", fallible::DenseSlotMap<DefaultKey, u64>, 2);
    [renamed!("dense", DenseSlotMap, 2), proved, lending].into_iter().flatten().collect()
}

fn hop() -> Tables {
    let counted = vec![
        steps!(walk "fallible::hop::Iter", State<fallible::HopSlotMap<DefaultKey, u64>>, [full, holes], |s| s.map.iter(); reads),
        steps!(walk "fallible::hop::Keys", State<fallible::HopSlotMap<DefaultKey, u64>>, [full, holes], |s| s.map.keys(); reads),
        steps!(walk "fallible::hop::Values", State<fallible::HopSlotMap<DefaultKey, u64>>, [full, holes], |s| s.map.values(); reads),
    ];
    [renamed!("hop", HopSlotMap, 1), proved!("fallible::hop", fallible::HopSlotMap<DefaultKey, u64>, 1), counted].into_iter().flatten().collect()
}

pub fn all() -> Tables {
    [basic(), dense(), hop()].into_iter().flatten().collect()
}

#[test]
fn slot_map() {
    assert_all(basic());
}

#[test]
fn dense_slot_map() {
    assert_all(dense());
}

#[test]
fn hop_slot_map() {
    assert_all(hop());
}
