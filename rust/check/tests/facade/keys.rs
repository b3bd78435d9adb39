//! Keys: their numbers, debug texts, order and hash.

use slotmap_proved::graph::EdgeKey;
use slotmap_proved::list::Cursor;
use slotmap_proved::{is_older_version, DefaultKey, Key, KeyData, NodeKey};
use std::collections::HashSet;

slotmap_proved::new_key_type! {
    struct OwnKey;
}

/// Numbers, and the index, the version and the number of the key that is read from each.
const NUMBERS: [(u64, u32, u32, u64); 6] = [
    (0, 0, 1, 4294967296),
    (4294967297, 1, 1, 4294967297),
    (12884901889, 1, 3, 12884901889),
    (17179869184, 0, 5, 21474836480),
    (17179869183, 4294967295, 1, 8589934591),
    (18446744069414584321, 1, 4294967295, 18446744069414584321),
];

#[test]
fn numbers_are_read_as_keys() {
    for (number, index, version, again) in NUMBERS {
        let data = KeyData::from_ffi(number);
        assert_eq!((data.idx(), data.version(), data.as_ffi()), (index, version, again), "{number}");
        assert_eq!(KeyData::new(index, version), data, "{number}");
    }
}

#[test]
fn keys_are_read_as_numbers() {
    assert_eq!(KeyData::default().as_ffi(), 8589934591);
    assert_eq!(KeyData::new(0, 4).as_ffi(), 21474836480);
    assert_eq!(KeyData::new(4294967295, 9).as_ffi(), 8589934591);
}

#[test]
fn debug_texts() {
    let data = KeyData::new(2, 3);
    assert_eq!(format!("{:?} {data:?}", KeyData::default()), "null 2v3");
    assert_eq!(format!("{:?}", DefaultKey::from(data)), "DefaultKey(2v3)");
    assert_eq!(format!("{:?} {:?}", NodeKey::from(data), NodeKey::null()), "NodeKey(2v3) NodeKey(null)");
}

#[test]
fn ages_of_versions() {
    let table = [
        (42, 42, false),
        (0, 1, true),
        (0, 2147483648, true),
        (0, 2147483649, false),
        (4294967295, 0, true),
    ];
    for (a, b, is_older) in table {
        assert_eq!(is_older_version(a, b), is_older, "{a} and {b}");
    }
}

fn assert_as_data<K: Key>() {
    let (early, late): (K, K) = (KeyData::new(1, 5).into(), KeyData::new(2, 3).into());
    assert!(K::null().is_null() && K::null() == K::default() && !late.is_null() && late < K::null());
    assert!(late == K::from(late.data()) && late != early && early < late);
    let seen = HashSet::from([late]);
    assert!(seen.contains(&K::from(late.data())) && !seen.contains(&K::null()));
}

#[test]
fn key_types_are_as_their_data() {
    assert_as_data::<DefaultKey>();
    assert_as_data::<NodeKey>();
    assert_as_data::<Cursor>();
    assert_as_data::<EdgeKey>();
    assert_as_data::<OwnKey>();
}

#[test]
fn keys_of_no_data_are_null() {
    fn assert_null<K: Key>() {
        let key = K::from(KeyData::default());
        assert!(key.is_null() && K::null() == key);
        assert_eq!(key.data().version(), 1);
    }
    assert_null::<DefaultKey>();
    assert_null::<NodeKey>();
}
