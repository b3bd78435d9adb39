//! Names that no other test uses: the types of iterators and entries, those of the layer with slotmap's names and the proved ones. What
//! iterators, entries and maps print is tested here too.

use super::key;
use slotmap_proved::fallible::{self, OrPut};
use slotmap_proved::{basic, dense, hop, secondary, sparse_secondary, DefaultKey, Global};
use std::fmt::Debug;
use std::iter::FusedIterator;

/// What an iterator prints, what it yields then, and what it prints after that.
fn walk_text<I>(mut walk: I) -> String
where
    I: ExactSizeIterator + FusedIterator + Debug,
    I::Item: Debug,
{
    let before = format!("{walk:?}");
    let item = walk.next();
    format!("{before} {item:?} {walk:?}")
}

/// The iterators of a map of 7 under the key 1v1, by their names in the map's module. `$drain` is the type of its `drain`.
macro_rules! assert_walks {
    ($($module:ident)::+, $drain:ty, $made:expr) => {{
        let mut map = $made;
        assert_eq!(format!("{map:?}"), "{DefaultKey(1v1): 7}");
        let pairs = walk_text::<$($module)::+::Iter<_, _>>(map.iter());
        assert_eq!(pairs, "Iter { remaining: 1 } Some((DefaultKey(1v1), 7)) Iter { remaining: 0 }");
        let keys = walk_text::<$($module)::+::Keys<_, _>>(map.keys());
        assert_eq!(keys, "Keys { remaining: 1 } Some(DefaultKey(1v1)) Keys { remaining: 0 }");
        let values = walk_text::<$($module)::+::Values<_, _>>(map.values());
        assert_eq!(values, "Values { remaining: 1 } Some(7) Values { remaining: 0 }");
        let drain = walk_text::<$drain>(map.drain());
        assert_eq!(drain, "Drain { remaining: 1 } Some((DefaultKey(1v1), 7)) Drain { remaining: 0 }");
        assert_eq!(format!("{map:?}"), "{}");
        let owner = walk_text::<$($module)::+::IntoIter<_, _>>($made.into_iter());
        assert_eq!(owner, "IntoIter { remaining: 1 } Some((DefaultKey(1v1), 7)) IntoIter { remaining: 0 }");
    }};
}

/// The same, and the iterators that write.
macro_rules! assert_writing_walks {
    ($($module:ident)::+, $made:expr) => {{
        let mut map = $made;
        let pairs = walk_text::<$($module)::+::IterMut<_, _>>(map.iter_mut());
        assert_eq!(pairs, "IterMut { remaining: 1 } Some((DefaultKey(1v1), 7)) IterMut { remaining: 0 }");
        let values = walk_text::<$($module)::+::ValuesMut<_, _>>(map.values_mut());
        assert_eq!(values, "ValuesMut { remaining: 1 } Some(7) ValuesMut { remaining: 0 }");
    }};
}

/// A map of 7 under the key 1v1, by the name that the module has for it.
macro_rules! one {
    (fallible::$module:ident::$map:ident) => {{
        let mut map: fallible::$module::$map<DefaultKey, u64> = fallible::$map::new(Global).expect("memory");
        assert_eq!(map.insert(7).ok(), Some(key(1, 1)));
        map
    }};
    ($module:ident::$map:ident) => {{
        let mut map: $module::$map<DefaultKey, u64> = slotmap_proved::$map::new();
        assert_eq!(map.insert(7), key(1, 1));
        map
    }};
}

/// The same of a map beside another one.
macro_rules! one_beside {
    (fallible::$module:ident::$map:ident) => {{
        let mut map: fallible::$module::$map<DefaultKey, u64> = fallible::$map::new(Global).expect("memory");
        assert_eq!(map.insert(key(1, 1), 7).ok(), Some(None));
        map
    }};
    ($module:ident::$map:ident) => {{
        let mut map: $module::$map<DefaultKey, u64> = slotmap_proved::$map::new();
        assert_eq!(map.insert(key(1, 1), 7), None);
        map
    }};
}

#[test]
fn walks_have_their_names() {
    assert_walks!(basic, basic::Drain<_, _>, one!(basic::SlotMap));
    assert_walks!(dense, dense::Drain<_, _>, one!(dense::DenseSlotMap));
    assert_walks!(hop, hop::Drain<_, _>, one!(hop::HopSlotMap));
    assert_walks!(secondary, secondary::Drain<_, _>, one_beside!(secondary::SecondaryMap));
    assert_walks!(sparse_secondary, sparse_secondary::Drain<_, _>, one_beside!(sparse_secondary::SparseSecondaryMap));
}

#[test]
fn proved_walks_have_their_names() {
    use fallible::{basic, dense, hop, secondary, sparse_secondary};
    assert_walks!(basic, basic::Drain<_, _>, one!(fallible::basic::SlotMap));
    assert_walks!(dense, dense::Drain<_, _>, one!(fallible::dense::DenseSlotMap));
    assert_walks!(hop, hop::Drain<_, _>, one!(fallible::hop::HopSlotMap));
    assert_walks!(secondary, secondary::Drain<_, _>, one_beside!(fallible::secondary::SecondaryMap));
    let sparse = || one_beside!(fallible::sparse_secondary::SparseSecondaryMap);
    assert_walks!(sparse_secondary, sparse_secondary::Drain<_, _, _>, sparse());
}

#[test]
fn walks_that_write_have_their_names() {
    assert_writing_walks!(basic, one!(basic::SlotMap));
    assert_writing_walks!(dense, one!(dense::DenseSlotMap));
    assert_writing_walks!(hop, one!(hop::HopSlotMap));
    assert_writing_walks!(secondary, one_beside!(secondary::SecondaryMap));
    assert_writing_walks!(sparse_secondary, one_beside!(sparse_secondary::SparseSecondaryMap));
    assert_writing_walks!(fallible::dense, one!(fallible::dense::DenseSlotMap));
}

/// The entries of a map of 7 under the key 1v1 beside another one, by the names of their types. `$open` takes an entry out of what the
/// map's call returns.
macro_rules! assert_entries {
    ($($module:ident)::+, $made:expr, $($open:tt)+) => {{
        let mut map = $made;
        let occupied = "Occupied(OccupiedEntry { key: DefaultKey(1v1), value: 7 })";
        assert_eq!(format!("{:?}", map.try_entry(key(1, 1)).expect("a place")), occupied);
        let vacant = "Vacant(VacantEntry { key: DefaultKey(2v3) })";
        assert_eq!(format!("{:?}", map.try_entry(key(2, 3)).expect("a place")), vacant);
        match map.entry(key(1, 1)) $($open)+ {
            $($module)::+::Entry::Occupied(entry) => assert_eq!($($module)::+::OccupiedEntry::get(&entry), &7),
            $($module)::+::Entry::Vacant(_) => panic!("there is a value"),
        }
        match map.entry(key(2, 3)) $($open)+ {
            $($module)::+::Entry::Occupied(_) => panic!("there is no value"),
            $($module)::+::Entry::Vacant(entry) => assert_eq!($($module)::+::VacantEntry::key(&entry), key(2, 3)),
        }
        map
    }};
}

#[test]
fn entries_have_their_names() {
    assert_entries!(secondary, one_beside!(secondary::SecondaryMap), .expect("a place"));
    let sparse = one_beside!(sparse_secondary::SparseSecondaryMap);
    assert_entries!(sparse_secondary, sparse, .expect("a place"));
}

#[test]
fn proved_entries_have_their_names() {
    use fallible::{secondary, sparse_secondary};
    let made = one_beside!(fallible::secondary::SecondaryMap);
    let mut map = assert_entries!(secondary, made, .expect("memory").expect("a place"));
    assert!(matches!(map.or_put(key(2, 1), 6), OrPut::Placed));
    let made = one_beside!(fallible::sparse_secondary::SparseSecondaryMap);
    let mut map = assert_entries!(sparse_secondary, made, .expect("memory").expect("a place"));
    assert!(matches!(map.or_put(key(2, 1), 6), OrPut::Placed));
}
