//! A struct that holds maps derives `Clone`, and iterators are cloned where values can't be. Calls of `clone` itself are in
//! `clones.rows` and `copies.rows`.

use super::key;
use slotmap_proved::{fallible, DefaultKey, DenseSlotMap, Global, HopSlotMap, SecondaryMap, SlotMap, SparseSecondaryMap};

#[derive(Clone)]
struct Names {
    plain: SlotMap<DefaultKey, String>,
    packed: DenseSlotMap<DefaultKey, String>,
}

#[test]
fn a_clone_goes_its_own_way() {
    let (mut plain, mut packed) = (SlotMap::new(), DenseSlotMap::new());
    let ada = plain.insert("Ada".to_string());
    assert_eq!(packed.insert("Ada".to_string()), ada);
    let mut names = Names { plain, packed };
    let copy = names.clone();
    assert!(names.plain.remove(ada).is_some() && names.packed.remove(ada).is_some());
    assert!(names.plain.is_empty() && names.packed.is_empty());
    assert_eq!((copy.plain[ada].as_str(), copy.packed[ada].as_str()), ("Ada", "Ada"));
}

/// The same of the proved maps, whose clone may fail for want of memory.
#[test]
fn a_proved_clone_goes_its_own_way() {
    let mut map = fallible::SlotMap::new(Global).expect("memory");
    let ada = map.insert("Ada".to_string()).expect("memory");
    let copy = fallible::TryClone::clone(&map).expect("memory");
    assert!(map.remove(ada).is_some() && map.is_empty());
    assert_eq!(copy[ada], "Ada");
}

/// A value that can't be cloned.
#[derive(Debug, PartialEq)]
struct Ticket(u32);

/// An iterator over two items and its clone after the first both yield the second one, and then nothing.
macro_rules! assert_cloned {
    ($($walk:expr),*) => {
        $({
            let mut walk = $walk;
            assert!(walk.next().is_some());
            let mut copy = fallible::TryClone::clone(&walk).expect("memory");
            assert_eq!((walk.len(), copy.len()), (1, 1));
            assert_eq!((copy.next().is_some(), copy.next().is_none()), (true, true));
            assert_eq!((walk.next().is_some(), walk.next().is_none()), (true, true));
        })*
    };
}

/// The iterators of a map of two tickets, under slotmap's names and of the proved map.
macro_rules! assert_lends_clones {
    ($map:expr) => {{
        let map = $map;
        assert_cloned!(map.iter(), map.keys(), map.values());
        let map = map.as_ref();
        assert_cloned!(map.iter(), map.keys(), map.values());
    }};
}

#[test]
fn iterators_of_primary_maps() {
    let mut basic = SlotMap::new();
    assert_ne!(basic.insert(Ticket(1)), basic.insert(Ticket(2)));
    assert_lends_clones!(basic);
    let mut dense = DenseSlotMap::new();
    assert_ne!(dense.insert(Ticket(1)), dense.insert(Ticket(2)));
    assert_lends_clones!(dense);
    let mut hop = HopSlotMap::new();
    assert_ne!(hop.insert(Ticket(1)), hop.insert(Ticket(2)));
    assert_lends_clones!(hop);
}

#[test]
fn iterators_of_secondary_maps() {
    let tickets = || [(key(1, 1), Ticket(1)), (key(2, 1), Ticket(2))];
    assert_lends_clones!(tickets().into_iter().collect::<SecondaryMap<_, _>>());
    assert_lends_clones!(tickets().into_iter().collect::<SparseSecondaryMap<_, _>>());
}
