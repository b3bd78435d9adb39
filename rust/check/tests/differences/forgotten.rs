//! An iterator that takes elements out, and is forgotten before its end, as by `mem::forget`: nobody removes the rest then. What it has
//! yielded is gone; all else is as before, but in a `SparseSecondaryMap`, which is empty. The map or structure goes on.

use super::common::keys::{key_of, Issued};
use slotmap_proved::list::{Cursor, StableList};
use slotmap_proved::scheduler::Scheduler;
use slotmap_proved::{fallible, DefaultKey, DenseSlotMap, Global, HopSlotMap, SecondaryMap, SlotMap, SparseSecondaryMap};
use std::collections::BTreeMap;
use std::mem::forget;

const COUNT: u64 = 20;

/// Takes so many pairs out of a drain, and forgets it.
fn take_and_forget<I: Iterator>(mut drain: I, count: usize) -> Vec<I::Item> {
    let taken = drain.by_ref().take(count).collect();
    forget(drain);
    taken
}

/// What a primary map has to have after a drain was forgotten.
macro_rules! primary {
    ($($test:ident $map:ident;)*) => {
        $(#[test]
        fn $test() {
            for count in [0, 1, 7, COUNT as usize, COUNT as usize + 1] {
                let (mut map, mut issued) = ($map::<DefaultKey, String>::new(), Issued::new());
                let mut model = BTreeMap::new();
                for value in 0..COUNT {
                    let key = map.insert(value.to_string());
                    issued.note(key);
                    model.insert(key, value.to_string());
                }
                for (key, value) in take_and_forget(map.drain(), count) {
                    assert_eq!(model.remove(&key), Some(value));
                    assert!(!map.contains_key(key));
                }
                assert_eq!(model.len(), (COUNT as usize).saturating_sub(count));
                assert_eq!(map.iter().map(|(key, value)| (key, value.clone())).collect::<BTreeMap<_, _>>(), model);
                assert_eq!((map.len(), map.iter().len(), map.iter().count()), (model.len(), model.len(), model.len()));
                for value in 0..COUNT {
                    let key = map.insert(value.to_string());
                    issued.note(key);
                    model.insert(key, value.to_string());
                }
                assert!(model.iter().all(|(key, value)| map.get(*key) == Some(value)));
                model.iter().step_by(2).for_each(|(key, value)| assert_eq!(map.remove(*key).as_ref(), Some(value)));
                assert_eq!(map.drain().count(), model.len() / 2);
                let mut fallible: fallible::$map<DefaultKey, String> = map.into();
                forget(fallible.drain());
                assert!(fallible.is_empty() && fallible.insert("last".into()).is_ok());
            }
        })*
    };
}

primary! {
    basic SlotMap;
    dense DenseSlotMap;
    hop HopSlotMap;
}

/// What wasn't yielded is still in the map.
fn stays(_: &mut BTreeMap<DefaultKey, String>) {}

/// The drain is that of std's hash map, which is empty from its start on.
fn goes(rest: &mut BTreeMap<DefaultKey, String>) {
    rest.clear();
}

macro_rules! side {
    ($($test:ident $map:ident, $rest:ident;)*) => {
        $(#[test]
        fn $test() {
            for count in [0, 1, 7, COUNT as usize, COUNT as usize + 1] {
                let mut model: BTreeMap<DefaultKey, String> = (1..=COUNT as u32).map(|index| (key_of(index, 1), index.to_string())).collect();
                let mut map: $map<DefaultKey, String> = model.clone().into_iter().collect();
                for (key, value) in take_and_forget(map.drain(), count) {
                    assert_eq!(model.remove(&key), Some(value));
                    assert!(!map.contains_key(key));
                }
                assert_eq!(model.len(), (COUNT as usize).saturating_sub(count));
                $rest(&mut model);
                assert_eq!(map.iter().map(|(key, value)| (key, value.clone())).collect::<BTreeMap<_, _>>(), model);
                assert_eq!((map.len(), map.iter().len(), map.iter().count()), (model.len(), model.len(), model.len()));
                for index in 1..=2 * COUNT as u32 {
                    assert_eq!(map.insert(key_of(index, 1), "new".into()), model.insert(key_of(index, 1), "new".into()));
                }
                assert_eq!((map.len(), map.drain().count(), map.len()), (model.len(), model.len(), 0));
            }
        })*
    };
}

side! {
    secondary SecondaryMap, stays;
    sparse_secondary SparseSecondaryMap, goes;
}

#[test]
fn list() {
    for count in [0, 1, 7, COUNT as usize, COUNT as usize + 1] {
        let (mut list, mut issued) = (StableList::<Cursor, u64>::new(Global).expect("memory"), Issued::new());
        let mut model = Vec::new();
        for value in 0..COUNT {
            let cursor = list.push_back(value).ok().expect("memory");
            issued.note(cursor);
            model.push((cursor, value));
        }
        let taken = take_and_forget(list.drain(), count);
        assert_eq!(taken, model[..taken.len()]);
        let left = &model[taken.len()..];
        assert!(list.iter().eq(left.iter().map(|element| (element.0, &element.1))));
        assert_eq!((list.len(), list.first(), list.last()), (left.len(), left.first().map(|end| end.0), left.last().map(|end| end.0)));
        issued.note(list.push_front(7).ok().expect("memory"));
        assert!(list.iter().rev().skip(left.len()).map(|element| *element.1).eq([7]));
        assert_eq!((list.drain().count(), list.len()), (left.len() + 1, 0));
    }
}

#[test]
fn scheduler() {
    for count in [0, 1, 7, COUNT as usize, COUNT as usize + 1] {
        let (mut scheduler, mut issued) = (Scheduler::<DefaultKey, u64>::new(Global).expect("memory"), Issued::new());
        let mut model = Vec::new();
        for job in 0..COUNT {
            let (time, handle) = (job * 7 % 5, scheduler.schedule(job * 7 % 5, job).ok().expect("memory"));
            issued.note(handle);
            model.push((handle, time, job));
        }
        model.sort_by_key(|job| job.1);
        let taken = take_and_forget(scheduler.drain(), count);
        assert_eq!(taken, model[..taken.len()]);
        let left = &model[taken.len()..];
        assert_eq!((scheduler.len(), scheduler.iter().count()), (left.len(), left.len()));
        assert!(left.iter().all(|job| scheduler.get(job.0) == Some(&job.2)));
        issued.note(scheduler.schedule(9, 9).ok().expect("memory"));
        for job in left {
            assert_eq!(scheduler.pop_next(), Some((job.1, job.0, job.2)));
        }
        assert_eq!((scheduler.pop_next().map(|last| last.2), scheduler.len()), (Some(9), 0));
    }
}
