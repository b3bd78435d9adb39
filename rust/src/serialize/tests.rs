//! The format, and lists that no map wrote. They run with the features `serde` and `json`.

use crate::{new_key_type, DefaultKey, DenseSlotMap, HopSlotMap, Key, KeyData, SecondaryMap, SlotMap, SparseSecondaryMap};
use alloc::collections::BTreeMap;
use alloc::vec::Vec;
use serde_json::{from_str, from_value, json, to_string, Value};

new_key_type! {
    struct CityKey;
}

const LAST: u32 = u32::MAX;

fn key(index: u32, version: u32) -> DefaultKey {
    DefaultKey::from(KeyData::new(index, version))
}

/// A list of slots as JSON, from their values and versions.
fn list(slots: &[(Option<i32>, u32)]) -> Value {
    slots.iter().map(|(value, version)| json!({"value": value, "version": version})).collect()
}

#[test]
fn keys() {
    let city = CityKey::from(KeyData::new(2, 3));
    assert_eq!(to_string(&city).ok().as_deref(), Some(r#"{"idx":2,"version":3}"#));
    assert_eq!(from_str::<CityKey>(r#"{"idx":2,"version":3}"#).ok(), Some(city));
    assert_eq!(from_str::<KeyData>(r#"{"idx":2,"version":4}"#).ok(), Some(key(2, 5).data()));
    assert_eq!(from_str::<CityKey>(r#"{"idx":4294967295,"version":9}"#).ok(), Some(CityKey::null()));
    assert!(from_str::<CityKey>(r#"{"idx":2}"#).is_err() && from_str::<CityKey>(r#"{"idx":-1,"version":1}"#).is_err());
}

/// Whether a list is one of a map's slots: the first is vacant, and a value stands where the version is odd.
fn is_list(slots: &[(Option<i32>, u32)]) -> bool {
    let first = slots.first().map(|(_, version)| version % 2);
    first == Some(0) && slots.iter().all(|(value, version)| value.is_some() == (version % 2 == 1))
}

/// Calls `test` with each list of up to three slots whose versions are at the ends, with a value or without.
fn each_list(mut test: impl FnMut(&[(Option<i32>, u32)])) {
    let mut slots = Vec::new();
    for version in [0, 1, 2, 3, LAST - 2, LAST - 1, LAST] {
        slots.extend([(None, version), (Some(version as i32), version)]);
    }
    test(&[]);
    for first in &slots {
        test(&[*first]);
        for second in &slots {
            test(&[*first, *second]);
            slots.iter().for_each(|third| test(&[*first, *second, *third]));
        }
    }
}

/// The pairs that a list holds.
fn pairs_of(slots: &[(Option<i32>, u32)]) -> BTreeMap<DefaultKey, i32> {
    let pairs = (0..).zip(slots).filter_map(|(index, (value, version))| Some((key(index, *version), (*value)?)));
    pairs.collect()
}

macro_rules! primary_lists {
    ($test:ident, $map:ident) => {
        #[test]
        fn $test() {
            each_list(|slots| {
                let read = from_value::<$map<DefaultKey, i32>>(list(slots));
                assert_eq!(read.is_ok(), is_list(slots), "{slots:?}");
                let Ok(mut map) = read else { return };
                let mut pairs = pairs_of(slots);
                assert_eq!(map.iter().map(|(key, value)| (key, *value)).collect::<BTreeMap<_, _>>(), pairs, "{slots:?}");
                let copy: $map<DefaultKey, i32> = from_str(&to_string(&map).unwrap()).unwrap();
                assert!(copy.iter().eq(map.iter()), "{slots:?}");
                // Each vacant slot is used once more, but not one of version 0 behind the first: that one is retired.
                for value in 0..4 {
                    let made = map.insert(value);
                    let before = slots.get(made.data().idx() as usize).map_or(0, |slot| slot.1);
                    assert!(made.data().version() == before + 1 && (before > 0 || made.data().idx() as usize >= slots.len()), "{slots:?}");
                    assert_eq!(pairs.insert(made, value), None, "{slots:?}");
                }
                assert!(pairs.iter().all(|(key, value)| map.get(*key) == Some(value)) && map.len() == pairs.len());
                for (key, value) in &pairs {
                    assert_eq!((map.remove(*key), map.remove(*key)), (Some(*value), None), "{slots:?}");
                }
                assert!(map.is_empty());
                for value in 0..4 {
                    assert!(!pairs.contains_key(&map.insert(value)), "{slots:?}");
                }
            });
        }
    };
}

primary_lists!(lists_of_slot_maps, SlotMap);
primary_lists!(lists_of_dense_slot_maps, DenseSlotMap);
primary_lists!(lists_of_hop_slot_maps, HopSlotMap);

macro_rules! side_lists {
    ($test:ident, $map:ident) => {
        #[test]
        fn $test() {
            each_list(|slots| {
                let read = from_value::<$map<DefaultKey, i32>>(list(slots));
                assert_eq!(read.is_ok(), is_list(slots), "{slots:?}");
                let Ok(mut map) = read else { return };
                let pairs = pairs_of(slots);
                assert_eq!(map.iter().map(|(key, value)| (key, *value)).collect::<BTreeMap<_, _>>(), pairs, "{slots:?}");
                assert_eq!(from_str::<$map<DefaultKey, i32>>(&to_string(&map).unwrap()).ok().as_ref(), Some(&map));
                for (key, value) in &pairs {
                    assert_eq!((map.insert(*key, 9), map.remove(*key), map.get(*key)), (Some(*value), Some(9), None), "{slots:?}");
                }
                assert!(map.is_empty());
            });
        }
    };
}

side_lists!(lists_of_secondary_maps, SecondaryMap);
side_lists!(lists_of_sparse_secondary_maps, SparseSecondaryMap);

#[test]
fn what_is_written() {
    let mut map = SlotMap::new();
    assert_eq!(to_string(&map).ok().as_deref(), Some(r#"[{"value":null,"version":0}]"#));
    let keys = [5, 6, 7].map(|value| map.insert(value));
    map.remove(keys[1]);
    map.detach(keys[2]);
    let text = r#"[{"value":null,"version":0},{"value":5,"version":1},{"value":null,"version":2},{"value":null,"version":2}]"#;
    assert_eq!(to_string(&map).ok().as_deref(), Some(text));
    let side: SecondaryMap<DefaultKey, i32> = [(key(2, 7), 5)].into_iter().collect();
    let sparse: SparseSecondaryMap<DefaultKey, i32> = [(key(2, 7), 5)].into_iter().collect();
    let text = r#"[{"value":null,"version":0},{"value":null,"version":0},{"value":5,"version":7}]"#;
    assert_eq!((to_string(&side).ok().as_deref(), to_string(&sparse).ok().as_deref()), (Some(text), Some(text)));
}

#[test]
fn what_is_no_list() {
    let numbers = [r#"[{"value":null}]"#, r#"[{"value":null,"version":-1}]"#, r#"[{"value":null,"version":4294967296}]"#];
    for text in ["{}", "[null]", "[[]]", "5", r#"[{"version":0,"version":0,"value":null}]"#].into_iter().chain(numbers) {
        assert!(from_str::<SlotMap<DefaultKey, i32>>(text).is_err(), "{text}");
        assert!(from_str::<SparseSecondaryMap<DefaultKey, i32>>(text).is_err(), "{text}");
    }
}
