//! StableLists.

use super::table::{assert_all, done, table, Entry, Nowhere};
use slotmap_proved::lists::{Cursor, StableLists};
use slotmap_proved::{Global, NodeKey};
use std::fmt::Write;
use std::ops::Index;

type Lists = StableLists<Cursor, u64>;

const LISTS: usize = 8;

/// What the rows are made on: some lists, and their cursors.
struct State {
    lists: Lists,
    cursors: Vec<Cursor>,
}

impl State {
    /// Another element than that of this number.
    fn beside(&self, at: usize) -> Cursor {
        self.cursors[(at * 7 + 1) % self.cursors.len()]
    }
}

/// Empty lists with room.
fn room(size: usize) -> State {
    State { lists: Lists::with_capacity(Global, LISTS, size).expect("memory"), cursors: Vec::new() }
}

/// Lists without room for more.
fn full(size: usize) -> State {
    let mut state = room(size);
    while state.lists.len() < state.lists.capacity() {
        let list = state.lists.len() % LISTS;
        state.cursors.push(state.lists.push_back(list, 7).ok().expect("room"));
    }
    assert!(state.cursors.len() >= size);
    state
}

/// Lists with one element, for which room was made later.
fn reserved(size: usize) -> State {
    let mut state = room(0);
    state.cursors.push(state.lists.push_back(0, 7).ok().expect("memory"));
    assert!(state.lists.reserve(size).is_ok());
    state
}

/// Lists that were full, whose slots are all free.
fn freed(size: usize) -> State {
    let mut state = full(size);
    state.cursors.iter().for_each(|cursor| assert!(state.lists.remove(*cursor).is_some()));
    state
}

/// Full lists, and the cursors that they had before.
fn stale(size: usize) -> State {
    let mut state = freed(size);
    (0..state.cursors.len()).for_each(|at| assert!(state.lists.push_front(at % LISTS, 7).is_ok()));
    state
}

/// Lists with one element, and room for more.
fn of_one(size: usize) -> State {
    let mut state = room(size + 1);
    state.cursors.push(state.lists.push_back(1, 7).ok().expect("room"));
    state
}

/// Lists with one element, whose other slots are free.
fn left_alone(size: usize) -> State {
    let mut state = full(size + 1);
    state.cursors.drain(1..).for_each(|cursor| assert!(state.lists.remove(cursor).is_some()));
    state
}

fn of_lists() -> Vec<Entry> {
    table("lists::StableLists", rows![State:
        look [full, stale] contains => |s, at| s.lists.contains(s.cursors[at]);
        look [full, stale] list_of => |s, at| s.lists.list_of(s.cursors[at]);
        look [full, stale] get => |s, at| s.lists.get(s.cursors[at]);
        look [full, stale] get_mut => |s, at| s.lists.get_mut(s.cursors[at]).map(|value| *value += 1);
        look [full] index => |s, at| s.lists.index(s.cursors[at]);
        look [full, stale] next => |s, at| s.lists.next(s.cursors[at]);
        look [full, stale] prev => |s, at| s.lists.prev(s.cursors[at]);
        look [room, full, freed] lists => |s, _| s.lists.lists();
        look [room, full, freed] len => |s, _| s.lists.len();
        look [room, full, freed] list_len => |s, at| s.lists.list_len(at % (LISTS + 1));
        look [room, full, freed] is_empty => |s, _| s.lists.is_empty();
        look [room, full, freed] capacity => |s, _| s.lists.capacity();
        look [room, full, freed] reserve => |s, _| done(s.lists.reserve(s.lists.capacity() - s.lists.len()));
        look [room, full, freed] first => |s, at| s.lists.first(at % (LISTS + 1));
        look [room, full, freed] last => |s, at| s.lists.last(at % (LISTS + 1));
        each [room, reserved, freed] push_back => |s, at| done(s.lists.push_back(at % LISTS, 7));
        each [room, reserved, freed] push_front => |s, at| done(s.lists.push_front(at % LISTS, 7));
        each [of_one, reserved, left_alone] insert_after => |s, _| done(s.lists.insert_after(s.cursors[0], 7));
        each [of_one, reserved, left_alone] insert_before => |s, _| done(s.lists.insert_before(s.cursors[0], 7));
        look [full, stale] move_to_front => |s, at| s.lists.move_to_front(s.cursors[at], at * 5 % (LISTS + 1));
        look [full, stale] move_to_back => |s, at| s.lists.move_to_back(s.cursors[at], at * 5 % (LISTS + 1));
        look [full, stale] move_after => |s, at| s.lists.move_after(s.cursors[at], s.beside(at));
        look [full, stale] move_before => |s, at| s.lists.move_before(s.cursors[at], s.beside(at));
        once [full, freed] append => |s, _| s.lists.append(1, 2);
        each [full, stale] remove => |s, at| s.lists.remove(s.cursors[at]);
        each [full, freed] pop_front => |s, at| s.lists.pop_front(at % LISTS);
        each [full, freed] pop_back => |s, at| s.lists.pop_back(at % LISTS);
        once [full, freed] clear_list => |s, _| s.lists.clear_list(1);
        walk [full] iter => |s, _| s.lists.iter(1).expect("a list").count();
        walk [full] fmt => |s, _| write!(Nowhere, "{:?}", s.lists);
        walk [room] new asks 6 "slot 0 of each vector" => |_, _| done(Lists::new(Global, LISTS));
        walk [room] with_key asks 6 "slot 0 of each vector" => |_, _| done(StableLists::<NodeKey, u64>::with_key(Global, LISTS));
        walk [room] with_capacity asks 6 "the room" => |s, _| done(Lists::with_capacity(Global, LISTS, s.lists.capacity()));
        walk [room] with_capacity_and_key asks 6 "the room"
            => |s, _| done(StableLists::<NodeKey, u64>::with_capacity_and_key(Global, LISTS, s.lists.capacity()));
        walk [full] clone asks 6 "the copy" => |s, _| done(s.lists.clone());
    ])
}

pub fn all() -> Vec<Vec<Entry>> {
    vec![of_lists(), steps!(walk "lists::Iter", State, [full], |s| s.lists.iter(1).expect("a list"); next next_back size_hint len)]
}

#[test]
fn lists() {
    assert_all(all());
}
