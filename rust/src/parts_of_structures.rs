//! Tests of what the structures are made of: linked lists of numbers, and the map whose indices stay within a bound. Calls that ask
//! something of their caller are this crate's own, so their tests are here.

use crate::errors::ReserveError;
use crate::proved::slotmap_bounded::BoundedMap;
use crate::proved::slotmap_links::Links;
use crate::rt::TryClone;
use crate::{DefaultKey, Global, Key};
use alloc::format;

/// The list 2, 7, 3, 5 of one owner, and eight numbers that may be members.
fn four_linked() -> Links {
    let mut links = Links::new(Global);
    links.cover_owners(1).expect("memory");
    links.cover_members(8).expect("memory");
    links.put_last(0, 5);
    links.put_first(0, 2);
    links.put_behind(0, 2, 7);
    links.put_before(0, 5, 3);
    links
}

#[test]
fn a_list_is_looked_at() {
    let links = four_linked();
    assert_eq!((links.len(0), links.first(0), links.last(0)), (4, Some(2), Some(5)));
    assert_eq!((links.next(7), links.prev(7), links.next(5)), (Some(3), Some(2), None));
    assert_eq!((links.owners(), links.members(), links.is_empty(0)), (1, 8, false));
}

#[test]
fn a_list_is_walked() {
    let links = four_linked().clone().expect("memory");
    let mut members = links.iter(0);
    assert_eq!((members.next(), members.next_back(), members.len()), (Some(2), Some(5), 2));
    assert_eq!(members.size_hint(), (2, Some(2)));
    let mut copy = members.clone().expect("memory");
    assert_eq!((copy.next(), copy.next(), copy.next()), (Some(7), Some(3), None));
    assert!(members.eq([7, 3]));
    let mut rest = links.iter_from(3);
    let (least, most) = rest.size_hint();
    assert!(least <= 2 && most.map_or(true, |most| most >= 2));
    assert_eq!((rest.next(), rest.next(), rest.next()), (Some(3), Some(5), None));
}

#[test]
fn a_member_is_taken_out() {
    let mut links = four_linked();
    let copy = links.clone().expect("memory");
    links.take_out(0, 7);
    assert_eq!((links.len(0), links.next(2), links.prev(3)), (3, Some(3), Some(2)));
    links.clear();
    assert_eq!((links.first(0), links.owners()), (None, 1));
    assert_eq!((copy.len(0), copy.next(2)), (4, Some(7)));
}

#[test]
fn a_member_is_handed_over() {
    let mut links = four_linked();
    links.cover_owners(2).expect("memory");
    links.take_out(0, 7);
    links.put_last(1, 7);
    links.take_out(0, 2);
    links.put_last(1, 2);
    assert!(links.iter(0).eq([3, 5]) && links.iter(1).eq([7, 2]));
}

type Map = BoundedMap<DefaultKey, u64>;

/// A map that has room for two, and has two.
fn full_of_two() -> (Map, DefaultKey, DefaultKey) {
    let mut map = Map::with_capacity(Global, 2).expect("memory");
    let (first, second) = (map.insert_reserved(7), map.insert_reserved(8));
    (map, first, second)
}

#[test]
fn a_bounded_map_fills_its_room() {
    let (mut map, first, second) = full_of_two();
    assert_eq!((map.len(), map.capacity(), map.has_room()), (2, 2, false));
    assert_eq!((map.get(first), map.get(second)), (Some(&7), Some(&8)));
    assert_eq!((map.key_at(second.data().idx()), map.key_at(3)), (Some(second), None));
    *map.get_mut(first).expect("a value") = 9;
    assert_eq!((map.iter().next(), map.keys().len()), (Some((first, &9)), 2));
    assert_eq!(format!("{map:?}"), "{DefaultKey(1v1): 9, DefaultKey(2v1): 8}");
}

/// The capacity that a map would have with room for so many more.
fn capacity_for(map: &Map, additional: usize) -> usize {
    map.capacity_for(additional).expect("a capacity")
}

/// It keeps the room of what is removed.
#[test]
fn a_bounded_map_grows_by_what_is_asked_for() {
    let mut map = Map::with_capacity(Global, 2).expect("memory");
    let key = map.insert_reserved(7);
    assert_eq!((capacity_for(&map, 1), capacity_for(&map, 5)), (2, 6));
    assert!(matches!(map.capacity_for(4294967295), Err(ReserveError::TooGreat)));
    map.reserve(5).expect("memory");
    assert_eq!(map.capacity(), 6);
    assert_eq!((map.remove(key), map.contains_key(key)), (Some(7), false));
    assert_eq!((capacity_for(&map, 6), capacity_for(&map, 7)), (6, 7));
}

#[test]
fn a_copied_bounded_map_is_cleared() {
    let (mut map, key, _) = full_of_two();
    let copy = map.clone().expect("memory");
    map.clear();
    assert_eq!((map.len(), map.capacity()), (0, 2));
    assert_eq!((capacity_for(&map, 1), capacity_for(&map, 2)), (2, 2));
    assert_eq!((copy.len(), copy.capacity(), copy.get(key)), (2, 2, Some(&7)));
}
