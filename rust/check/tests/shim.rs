//! The shim beside the contracts of what it stands for: room, failure, and panics in the middle of a call.

use slotmap_proved::rt;
use slotmap_proved::rt::hash_map::HashMap;
use slotmap_proved::rt::std::alloc::Global;
use slotmap_proved::rt::std::hash::{BuildHasherDefault, FoldHasher};
use slotmap_proved::rt::vec::{Vec as Vector, VecDeque};
use std::cell::Cell;
use std::panic::{catch_unwind, AssertUnwindSafe};
use std::rc::Rc;

type Map<V> = HashMap<u32, (u32, V), BuildHasherDefault<FoldHasher>, Global>;

fn map<V>(capacity: usize) -> Map<V> {
    Map::with_capacity_and_hasher(Global, capacity, BuildHasherDefault::new()).expect("room")
}

fn vector<T>(items: impl IntoIterator<Item = T>) -> Vector<T> {
    Vector::from_std(items.into_iter().collect())
}

/// Counts its drops and its clones. The one with the number `BAD` panics in both.
struct Counted(u32, Rc<Cell<u32>>);

const BAD: u32 = 3;

impl Clone for Counted {
    fn clone(&self) -> Self {
        assert!(self.0 != BAD, "a clone panics");
        self.1.set(self.1.get() + 1);
        Counted(self.0, Rc::clone(&self.1))
    }
}

impl Drop for Counted {
    fn drop(&mut self) {
        self.1.set(self.1.get() - 1);
        assert!(self.0 != BAD || std::thread::panicking(), "a drop panics");
    }
}

/// So many counted values, and how many of them are alive.
fn counted(count: u32) -> (Vec<Counted>, Rc<Cell<u32>>) {
    let alive = Rc::new(Cell::new(count));
    ((0..count).map(|number| Counted(number, Rc::clone(&alive))).collect(), alive)
}

fn panics<R>(call: impl FnOnce() -> R) -> bool {
    catch_unwind(AssertUnwindSafe(call)).is_err()
}

#[test]
fn room_of_a_vector() {
    assert_eq!(Vector::<u32>::new(Global).capacity(), 0);
    for capacity in [0, 1, 2, 3, 7, 1_000] {
        assert_eq!(Vector::<u32>::with_capacity(Global, capacity).expect("room").capacity(), capacity);
    }
    let mut items = vector([1, 2, 3]);
    items.reserve(100).expect("room");
    let capacity = items.capacity();
    assert!(capacity >= 103);
    items.reserve(100).expect("room");
    items.extend_from_slice(&[4; 100]).expect("room");
    assert_eq!((items.len(), items.capacity()), (103, capacity));
    items.truncate(2);
    items.truncate(5);
    items.clear();
    assert_eq!((items.len(), items.capacity()), (0, capacity));
}

#[test]
fn what_a_vector_has_no_room_for() {
    let mut items = vector([1u64, 2]);
    let before = items.capacity();
    assert!(items.reserve(usize::MAX).is_err() && items.reserve(usize::MAX / 8).is_err());
    assert!(items.resize(usize::MAX, 0).is_err());
    assert!(Vector::<u64>::with_capacity(Global, usize::MAX / 8).is_err());
    assert_eq!((items.as_slice(), items.capacity()), (&[1, 2][..], before));
}

#[test]
fn items_of_no_size() {
    let mut items = vector([(); 5]);
    assert_eq!((items.len(), items.capacity()), (5, isize::MAX as usize));
    items.push(()).expect("room");
    items.push_reserved(());
    assert_eq!(items.len(), 7);
}

#[test]
fn changes_of_a_vector() {
    let mut items = vector([1, 2, 3, 4, 5]);
    assert_eq!((items.remove(1), items.swap_remove(0), items.pop(), items.take_last()), (2, 1, Some(4), 3));
    assert_eq!(items.as_slice(), [5]);
    items.insert(0, 7).expect("room");
    items.insert(2, 8).expect("room");
    let mut others = vector([9, 10]);
    let capacity = others.capacity();
    items.append(&mut others).expect("room");
    assert_eq!((items.as_slice(), others.len(), others.capacity()), (&[7, 5, 8, 9, 10][..], 0, capacity));
    items.retain(|item| item % 2 == 1);
    items.resize(5, 1).expect("room");
    assert_eq!(items.as_slice(), [7, 5, 9, 1, 1]);
    items.resize(1, 0).expect("room");
    items.as_mut_slice()[0] += 1;
    assert_eq!(items.as_slice(), [8]);
    let mut queue = rt::TryClone::clone(&VecDeque::from_vec(vector([1, 2]))).expect("room");
    assert_eq!((queue.len(), queue.pop_front(), queue.pop_front(), queue.pop_front()), (2, Some(1), Some(2), None));
}

#[test]
fn premises_of_a_vector_are_tested() {
    let mut full = Vector::<u32>::with_capacity(Global, 1).expect("room");
    full.push_reserved(1);
    assert!(panics(|| full.push_reserved(2)));
    assert!(panics(|| full.remove(1)) && panics(|| full.swap_remove(1)) && panics(|| full.insert(2, 0).is_ok()));
    assert_eq!((full.take_last(), full.len()), (1, 0));
    assert!(panics(|| full.take_last()));
}

#[test]
fn panics_in_a_vector() {
    let (items, alive) = counted(6);
    let mut items = Vector::from_std(items);
    assert!(panics(|| rt::TryClone::clone(&items).is_ok()));
    assert_eq!((items.len(), alive.get()), (6, 6));
    assert!(panics(|| items.retain(|item| item.0 != 0 && item.0 != BAD)));
    assert!(items.iter().all(|item| item.0 != 0 && item.0 != BAD));
    assert_eq!(items.len() as u32, alive.get());
    let (items, alive) = counted(6);
    let mut items = Vector::from_std(items);
    assert!(panics(|| items.truncate(2)));
    assert_eq!((items.len(), alive.get()), (2, 2));
}

#[test]
fn a_full_hash_map_takes_a_key_that_is_there() {
    let mut pairs = map(1);
    while pairs.len() < pairs.capacity() {
        assert_eq!(pairs.insert(pairs.len() as u32, (1, 10)).ok(), Some(None));
    }
    let (len, capacity) = (pairs.len(), pairs.capacity());
    for key in 0..len as u32 {
        assert_eq!(pairs.insert(key, (3, 20 + key)).ok(), Some(Some((1, 10))));
        assert_eq!((pairs.len(), pairs.capacity(), pairs.get(&key)), (len, capacity, Some(&(3, 20 + key))));
    }
    assert_eq!(pairs.insert(len as u32, (1, 30)).ok(), Some(None));
    assert!(pairs.capacity() > capacity);
}

#[test]
fn room_of_a_hash_map() {
    let mut pairs = map(100);
    let capacity = pairs.capacity();
    assert!(capacity >= 100 && pairs.reserve(usize::MAX).is_err() && pairs.reserve(capacity).is_ok());
    let capacity = pairs.capacity();
    for key in 0..capacity as u32 {
        assert!(pairs.insert(key, (1, key)).is_ok());
        assert_eq!(pairs.capacity(), capacity);
    }
    for key in 0..capacity as u32 / 2 {
        let spare = pairs.capacity() - pairs.len();
        assert_eq!(pairs.remove(&key), Some((1, key)));
        assert!(pairs.capacity() - pairs.len() >= spare);
    }
    let capacity = pairs.capacity();
    pairs.clear();
    assert_eq!(pairs.len(), 0);
    assert!(pairs.capacity() >= capacity);
}

#[test]
fn panics_in_a_hash_map() {
    let (items, alive) = counted(6);
    let mut pairs = map(6);
    for item in items {
        assert!(pairs.insert(item.0, (1, item)).is_ok());
    }
    assert!(panics(|| pairs.clone().is_ok()));
    assert_eq!((pairs.len(), alive.get()), (6, 6));
    assert!(panics(|| pairs.retain(|key, _| *key != BAD)));
    assert_eq!((pairs.get(&BAD).is_none(), pairs.len() as u32, pairs.iter().count() as u32), (true, alive.get(), alive.get()));
    let (items, alive) = counted(6);
    for item in items {
        drop(pairs.remove(&item.0));
        assert!(pairs.insert(item.0, (1, item)).is_ok());
    }
    assert!(panics(|| pairs.clear()));
    assert_eq!((pairs.len(), pairs.iter().count(), pairs.get(&0).is_none()), (0, 0, true));
    assert!(alive.get() < 6);
}
