//! Each exported type can be sent to another thread and shared between threads, if its values can.

use slotmap_proved::entities::{First, Second, With, WithBoth, WithOptional, WithThree, WithWithout, World};
use slotmap_proved::*;
use std::rc::Rc;

fn both<T: Send + Sync>() {}

/// The types of a module of maps, with keys of one type and values of another.
macro_rules! types {
    ($($module:path: $($name:ident)*;)*) => {
        $({
            use $module as module;
            $(both::<module::$name<DefaultKey, u64>>();)*
        })*
    };
}

#[test]
fn maps() {
    types! {
        basic: SlotMap Iter IterMut Keys Values ValuesMut Drain IntoIter;
        dense: DenseSlotMap Iter IterMut Keys Values ValuesMut Drain IntoIter;
        hop: HopSlotMap Iter IterMut Keys Values ValuesMut Drain IntoIter;
        secondary: SecondaryMap Iter IterMut Keys Values ValuesMut Drain IntoIter Entry OccupiedEntry VacantEntry;
        sparse_secondary: SparseSecondaryMap Iter IterMut Keys Values ValuesMut Drain IntoIter Entry OccupiedEntry VacantEntry;
        fallible::basic: SlotMap Iter Keys Values Drain IntoIter;
        fallible::dense: DenseSlotMap Iter IterMut Keys Values ValuesMut Drain IntoIter;
        fallible::hop: HopSlotMap Iter Keys Values Drain IntoIter;
        fallible::secondary: SecondaryMap Iter Keys Values Drain IntoIter Entry OccupiedEntry VacantEntry;
    }
    both::<fallible::SparseSecondaryMap<DefaultKey, u64>>();
    both::<fallible::sparse_secondary::Drain<DefaultKey, u64, std::collections::hash_map::RandomState>>();
    both::<fallible::Vec<u64>>();
}

#[test]
fn structures() {
    types! {
        list: StableList Iter IterFrom Cursors Values Drain IntoIter;
        lists: StableLists Iter;
        scene: Scene Ancestors Roots KeysBelow ChildKeys Iter Keys Values Walk;
        scheduler: Scheduler Iter Keys Values Drain IntoIter;
    }
    both::<graph::Graph<NodeKey, u64, u64>>();
    both::<(graph::Edge<u64>, graph::EdgesAt<u64>, graph::Neighbours<NodeKey, u64>)>();
    both::<(graph::EdgeReferences<NodeKey, u64>, graph::EdgeReferencesAt<NodeKey, u64>)>();
    type Table = fallible::SecondaryMap<DefaultKey, u64>;
    both::<World<DefaultKey, u64, (Table, (Table, ()))>>();
    both::<(With<DefaultKey, u64, Table>, WithBoth<DefaultKey, u64, Table, Table>, WithThree<DefaultKey, u64, Table, Table, Table>)>();
    both::<(WithOptional<DefaultKey, u64, Table, Table>, WithWithout<DefaultKey, u64, Table, Table>, First, Second)>();
    both::<(paths::Costs, paths::Paths<NodeKey>, paths::PathError, paths::Reached)>();
}

#[test]
fn keys_and_errors() {
    both::<(DefaultKey, NodeKey, KeyData, graph::EdgeKey, list::Cursor)>();
    both::<(errors::InsertError<u64>, errors::InsertWithError, errors::TryInsertError<u64>, errors::ReattachError<u64>)>();
    both::<(errors::ReserveError, errors::PutError<u64>, errors::SlotsError, errors::OutOfMemory, errors::NoEntry)>();
    both::<(list::PushError<u64>, list::PlaceError<u64>, lists::AddError<u64>, graph::EdgeError<u64>, graph::OrderError)>();
    both::<(scene::AddError<u64>, scene::MoveError, scene::ReparentError, scheduler::ScheduleError<u64>)>();
    both::<(entities::AttachError<u64>, entities::SpawnError<u64, u64>, serial::SlotRecord<u64>, json::JsonError)>();
    both::<(runs::Command<DefaultKey, u64>, runs::DetachCommand<DefaultKey, u64>, runs::Reply<DefaultKey, u64, u64, ()>)>();
}

/// Whether a type is `Send`: that of a value counts for the map of it.
macro_rules! is_send {
    ($of:ty) => {{
        #[allow(dead_code)]
        trait Otherwise {
            const IS_SEND: bool = false;
        }
        impl<T> Otherwise for T {}
        struct Asked<T>(std::marker::PhantomData<T>);
        #[allow(dead_code)]
        impl<T: Send> Asked<T> {
            const IS_SEND: bool = true;
        }
        Asked::<$of>::IS_SEND
    }};
}

#[test]
fn values_that_stay_in_their_thread() {
    assert!(is_send!(SlotMap<DefaultKey, u64>) && !is_send!(SlotMap<DefaultKey, Rc<u64>>));
    assert!(!is_send!(DenseSlotMap<DefaultKey, Rc<u64>>) && !is_send!(HopSlotMap<DefaultKey, Rc<u64>>));
    assert!(!is_send!(SecondaryMap<DefaultKey, Rc<u64>>) && !is_send!(SparseSecondaryMap<DefaultKey, Rc<u64>>));
    assert!(!is_send!(list::StableList<list::Cursor, Rc<u64>>) && !is_send!(graph::Graph<NodeKey, Rc<u64>, ()>));
}

/// A map goes to another thread and back, and is read by several at once.
#[test]
fn in_threads() {
    let mut map = SlotMap::new();
    let keys: Vec<DefaultKey> = (0..100).map(|value| map.insert(value)).collect();
    let map = std::thread::spawn(move || {
        let mut map = map;
        map.values_mut().for_each(|value| *value += 1);
        map
    });
    let map = map.join().expect("the thread ends");
    std::thread::scope(|scope| {
        for chunk in keys.chunks(25) {
            scope.spawn(|| assert!(chunk.iter().all(|key| map.contains_key(*key))));
        }
    });
    assert_eq!(map.values().sum::<u64>(), 5050);
}
