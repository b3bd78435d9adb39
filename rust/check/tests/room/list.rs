//! StableList.

use super::table::{assert_all, done, table, Entry, Nowhere};
use slotmap_proved::list::{Cursor, StableList};
use slotmap_proved::{Global, NodeKey};
use std::fmt::Write;
use std::ops::Index;

type List = StableList<Cursor, u64>;

/// What the rows are made on: a list, its cursors, and other lists where a call takes one.
struct State {
    list: List,
    cursors: Vec<Cursor>,
    other: Option<StableList<NodeKey, u64>>,
    spare: Option<List>,
}

impl State {
    /// Another element than that of this number.
    fn beside(&self, at: usize) -> Cursor {
        self.cursors[(at * 7 + 1) % self.cursors.len()]
    }
}

/// An empty list with room.
fn room(size: usize) -> State {
    State { list: List::with_capacity(Global, size).expect("memory"), cursors: Vec::new(), other: None, spare: None }
}

/// A list without room for more.
fn full(size: usize) -> State {
    let mut state = room(size);
    while state.list.len() < state.list.capacity() {
        state.cursors.push(state.list.push_back(state.list.len() as u64).ok().expect("room"));
    }
    assert!(state.cursors.len() >= size);
    state
}

/// A list with one element, for which room was made later.
fn reserved(size: usize) -> State {
    let mut state = room(0);
    state.cursors.push(state.list.push_back(7).ok().expect("memory"));
    assert!(state.list.reserve(size).is_ok());
    state
}

/// A list that was full, whose slots are all free.
fn freed(size: usize) -> State {
    let mut state = full(size);
    state.cursors.iter().for_each(|cursor| assert!(state.list.remove(*cursor).is_some()));
    state
}

/// A full list, and the cursors that it had before.
fn stale(size: usize) -> State {
    let mut state = freed(size);
    state.cursors.iter().for_each(|_| assert!(state.list.push_front(7).is_ok()));
    state
}

/// A list of one element, with room for more.
fn of_one(size: usize) -> State {
    let mut state = room(size + 1);
    state.cursors.push(state.list.push_back(7).ok().expect("room"));
    state
}

/// A list of one element whose other slots are free.
fn left_alone(size: usize) -> State {
    let mut state = full(size + 1);
    state.cursors.drain(1..).for_each(|cursor| assert!(state.list.remove(cursor).is_some()));
    state
}

/// An empty list with room, and another list to append to it.
fn beside_another(size: usize) -> State {
    let mut other: StableList<NodeKey, u64> = StableList::with_capacity_and_key(Global, size).expect("memory");
    assert!(other.extend(0..size as u64).is_ok());
    State { other: Some(other), ..room(size) }
}

/// Two lists.
fn two(size: usize) -> State {
    State { spare: Some(full(size).list), ..full(size) }
}

fn of_list() -> Vec<Entry> {
    table("list::StableList", rows![State:
        look [full, stale] contains => |s, at| s.list.contains(s.cursors[at]);
        look [full, stale] get => |s, at| s.list.get(s.cursors[at]);
        look [full, stale] get_mut => |s, at| s.list.get_mut(s.cursors[at]).map(|value| *value += 1);
        look [full] index => |s, at| s.list.index(s.cursors[at]);
        look [full, stale] next => |s, at| s.list.next(s.cursors[at]);
        look [full, stale] prev => |s, at| s.list.prev(s.cursors[at]);
        look [full, stale] next_element => |s, at| s.list.next_element(s.cursors[at]);
        look [full, stale] prev_element => |s, at| s.list.prev_element(s.cursors[at]);
        look [room, full, freed] len => |s, _| s.list.len();
        look [room, full, freed] is_empty => |s, _| s.list.is_empty();
        look [room, full, freed] capacity => |s, _| s.list.capacity();
        look [room, full, freed] reserve => |s, _| done(s.list.reserve(s.list.capacity() - s.list.len()));
        look [room, full, freed] first => |s, _| s.list.first();
        look [room, full, freed] last => |s, _| s.list.last();
        look [room, full, freed] front => |s, _| s.list.front();
        look [room, full, freed] back => |s, _| s.list.back();
        look [room, full, freed] front_mut => |s, _| s.list.front_mut().map(|value| *value += 1);
        look [room, full, freed] back_mut => |s, _| s.list.back_mut().map(|value| *value += 1);
        each [room, reserved, freed] push_back => |s, _| done(s.list.push_back(7));
        each [room, reserved, freed] push_front => |s, _| done(s.list.push_front(7));
        each [of_one, reserved, left_alone] insert_after => |s, _| done(s.list.insert_after(s.cursors[0], 7));
        each [of_one, reserved, left_alone] insert_before => |s, _| done(s.list.insert_before(s.cursors[0], 7));
        once [room, freed] extend => |s, _| done(s.list.extend(0..s.list.capacity() as u64));
        once [beside_another] append => |s, _| done(s.list.append(s.other.as_mut().expect("a list")));
        look [full, stale] move_to_front => |s, at| s.list.move_to_front(s.cursors[at]);
        look [full, stale] move_to_back => |s, at| s.list.move_to_back(s.cursors[at]);
        look [full, stale] move_after => |s, at| s.list.move_after(s.cursors[at], s.beside(at));
        look [full, stale] move_before => |s, at| s.list.move_before(s.cursors[at], s.beside(at));
        look [full, stale] swap => |s, at| s.list.swap(s.cursors[at], s.beside(at));
        each [full, stale] remove => |s, at| s.list.remove(s.cursors[at]);
        each [full, freed] pop_front => |s, _| s.list.pop_front();
        each [full, freed] pop_back => |s, _| s.list.pop_back();
        once [full] clear => |s, _| s.list.clear();
        once [full] retain => |s, _| s.list.retain(|_, value| *value % 2 == 0);
        once [full] drain => |s, _| s.list.drain().count();
        walk [full] iter => |s, _| s.list.iter().count();
        walk [full, stale] iter_from => |s, _| s.list.iter_from(s.cursors[0]).count();
        walk [full] cursors => |s, _| s.list.cursors().count();
        walk [full] values => |s, _| s.list.values().count();
        walk [full] into_iter => |s, _| (&s.list).into_iter().count();
        walk [full] fmt => |s, _| write!(Nowhere, "{:?}", s.list);
        walk [room] new asks 5 "slot 0 of each vector" => |_, _| done(List::new(Global));
        walk [room] with_key asks 5 "slot 0 of each vector" => |_, _| done(StableList::<NodeKey, u64>::with_key(Global));
        walk [room] with_capacity asks 5 "the room" => |s, _| done(List::with_capacity(Global, s.list.capacity()));
        walk [room] with_capacity_and_key asks 5 "the room"
            => |s, _| done(StableList::<NodeKey, u64>::with_capacity_and_key(Global, s.list.capacity()));
        walk [room] from_iter asks up to 60 "the list, which grows" => |s, _| done(List::from_iter(Global, 0..s.list.capacity() as u64));
        walk [full] clone asks 5 "the copy" => |s, _| done(s.list.clone());
        walk [full] to_vec asks up to 20 "the vector, which grows" => |s, _| done(s.list.to_vec(Global));
    ])
}

fn steps() -> Vec<Vec<Entry>> {
    vec![
        steps!(walk "list::Iter", State, [full], |s| s.list.iter(); next next_back size_hint len),
        steps!(walk "list::Cursors", State, [full], |s| s.list.cursors(); next next_back size_hint len),
        steps!(walk "list::Values", State, [full], |s| s.list.values(); next next_back size_hint len),
        steps!(walk "list::IterFrom", State, [full, stale], |s| s.list.iter_from(s.cursors[0]); next size_hint),
        steps!(once "list::Drain", State, [full], |s| s.list.drain(); next size_hint len drop),
        steps!(once "list::IntoIter", State, [two], |s| s.spare.take().expect("a list").into_iter();
            next next_back size_hint len fmt),
    ]
}

pub fn all() -> Vec<Vec<Entry>> {
    let mut all = steps();
    all.push(of_list());
    all
}

#[test]
fn list() {
    assert_all(all());
}
