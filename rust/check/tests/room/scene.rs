//! Scene.

use super::table::{assert_all, done, table, Entry, Nowhere};
use slotmap_proved::scene::world::Offset;
use slotmap_proved::scene::Scene;
use slotmap_proved::{DefaultKey, Global, NodeKey};
use std::fmt::Write;
use std::ops::Index;

type Tree = Scene<DefaultKey, Offset>;

const VALUE: Offset = Offset { x: 1, y: 2 };

/// What the rows are made on: a scene and its nodes.
struct State {
    scene: Tree,
    nodes: Vec<DefaultKey>,
}

impl State {
    /// Another node than that of this number.
    fn beside(&self, at: usize) -> DefaultKey {
        self.nodes[(at * 7 + 1) % self.nodes.len()]
    }
}

/// An empty scene with room.
fn room(size: usize) -> State {
    State { scene: Tree::with_capacity(Global, size).expect("memory"), nodes: Vec::new() }
}

/// One tree without room for more: each node has four children.
fn full(size: usize) -> State {
    let mut state = room(size);
    state.nodes.push(state.scene.add_root(VALUE).ok().expect("room"));
    while state.scene.len() < state.scene.capacity() {
        let parent = state.nodes[(state.nodes.len() - 1) / 4];
        state.nodes.push(state.scene.add_child(parent, VALUE).ok().expect("room"));
    }
    assert!(state.nodes.len() >= size);
    state
}

/// A scene of one tree of two nodes, for which room was made later.
fn reserved(size: usize) -> State {
    let mut state = room(0);
    state.nodes.push(state.scene.add_root(VALUE).ok().expect("memory"));
    state.nodes.push(state.scene.add_child(state.nodes[0], VALUE).ok().expect("memory"));
    assert!(state.scene.reserve(size).is_ok());
    state
}

/// A scene that was full, whose slots are all free.
fn freed(size: usize) -> State {
    let mut state = full(size);
    assert!(state.scene.remove(state.nodes[0]).is_some() && state.scene.is_empty());
    state
}

/// A scene of roots, and the nodes that it had before.
fn stale(size: usize) -> State {
    let mut state = freed(size);
    state.nodes.iter().for_each(|_| assert!(state.scene.add_root(VALUE).is_ok()));
    state
}

/// A scene of one tree of two nodes, with room for more.
fn of_two(size: usize) -> State {
    let mut state = room(size + 2);
    state.nodes.push(state.scene.add_root(VALUE).ok().expect("room"));
    state.nodes.push(state.scene.add_child(state.nodes[0], VALUE).ok().expect("room"));
    state
}

/// A scene of one tree of two nodes, whose other slots are free.
fn left_alone(size: usize) -> State {
    let mut state = freed(size + 2);
    let root = state.scene.add_root(VALUE).ok().expect("room");
    state.nodes = vec![root, state.scene.add_child(root, VALUE).ok().expect("room")];
    state
}

fn change() -> Vec<Entry> {
    table("scene::Scene", rows![State:
        each [room, reserved, freed] add_root => |s, _| done(s.scene.add_root(VALUE));
        each [of_two, reserved, left_alone] add_child => |s, _| done(s.scene.add_child(s.nodes[0], VALUE));
        each [of_two, reserved, left_alone] insert_before => |s, _| done(s.scene.insert_before(s.nodes[1], VALUE));
        each [of_two, reserved, left_alone] insert_after => |s, _| done(s.scene.insert_after(s.nodes[1], VALUE));
        each [full, stale] reparent => |s, at| s.scene.reparent(s.beside(at), s.nodes[at]);
        each [full, stale] make_root => |s, at| s.scene.make_root(s.nodes[at]);
        each [full, stale] move_before => |s, at| s.scene.move_before(s.nodes[at], s.beside(at));
        each [full, stale] move_after => |s, at| s.scene.move_after(s.nodes[at], s.beside(at));
        each [full, stale] move_to_front => |s, at| s.scene.move_to_front(s.nodes[at]);
        each [full, stale] move_to_back => |s, at| s.scene.move_to_back(s.nodes[at]);
        each [full, stale] remove => |s, at| s.scene.remove(s.nodes[s.nodes.len() - 1 - at]);
        once [full] clear => |s, _| s.scene.clear();
        look [full, stale] get_mut => |s, at| s.scene.get_mut(s.nodes[at]).map(|value| value.x += 1);
        look [room, full, freed] reserve => |s, _| done(s.scene.reserve(s.scene.capacity() - s.scene.len()));
        walk [room] new asks 6 "slot 0 of each vector" => |_, _| done(Tree::new(Global));
        walk [room] with_key asks 6 "slot 0 of each vector" => |_, _| done(Scene::<NodeKey, u64>::with_key(Global));
        walk [room] with_capacity asks 6 "the room" => |s, _| done(Tree::with_capacity(Global, s.scene.capacity()));
        walk [room] with_capacity_and_key asks 6 "the room"
            => |s, _| done(Scene::<NodeKey, u64>::with_capacity_and_key(Global, s.scene.capacity()));
        walk [full] clone asks 6 "the copy" => |s, _| done(s.scene.clone());
    ])
}

fn looks() -> Vec<Entry> {
    table("scene::Scene", rows![State:
        look [full, stale] contains_key => |s, at| s.scene.contains_key(s.nodes[at]);
        look [full, stale] get => |s, at| s.scene.get(s.nodes[at]);
        look [full] index => |s, at| s.scene.index(s.nodes[at]);
        look [room, full] len => |s, _| s.scene.len();
        look [room, full] is_empty => |s, _| s.scene.is_empty();
        look [room, full] capacity => |s, _| s.scene.capacity();
        look [full, stale] parent => |s, at| s.scene.parent(s.nodes[at]);
        look [full, stale] first_child => |s, at| s.scene.first_child(s.nodes[at]);
        look [full, stale] last_child => |s, at| s.scene.last_child(s.nodes[at]);
        look [full, stale] next_sibling => |s, at| s.scene.next_sibling(s.nodes[at]);
        look [full, stale] prev_sibling => |s, at| s.scene.prev_sibling(s.nodes[at]);
        look [full, stale] depth => |s, at| s.scene.depth(s.nodes[at]);
        look [full, stale] is_within => |s, at| s.scene.is_within(s.nodes[at], s.nodes[0]);
        look [full, stale] fold_up => |s, at| s.scene.fold_up(s.nodes[at], 0, |sum, _| sum + 1);
        look [full, stale] world => |s, at| s.scene.world(s.nodes[at]);
        look [full, stale] world_transform => |s, at| s.scene.world_transform(s.nodes[at]);
        look [full, stale] ancestors => |s, at| s.scene.ancestors(s.nodes[at]).count();
        look [full, stale] children => |s, at| s.scene.children(s.nodes[at]).count();
        look [full, stale] next_below => |s, at| s.scene.next_below(s.nodes[0], s.nodes[at]);
        walk [full, stale] keys_below => |s, _| s.scene.keys_below(s.nodes[0]).count();
        walk [full, stale] walk => |s, _| s.scene.walk(s.nodes[0]).count();
        walk [full, stale] roots => |s, _| s.scene.roots().count();
        walk [full] iter => |s, _| s.scene.iter().count();
        walk [full] keys => |s, _| s.scene.keys().count();
        walk [full] values => |s, _| s.scene.values().count();
        walk [full] into_iter => |s, _| (&s.scene).into_iter().count();
        walk [full, stale] fmt => |s, _| write!(Nowhere, "{:?}", s.scene);
        walk [full] descendants asks up to 20 "the nodes" => |s, _| done(s.scene.descendants(s.nodes[0]));
        walk [full] world_transforms asks 1 "the transforms" => |s, _| done(s.scene.world_transforms());
    ])
}

fn steps() -> Vec<Vec<Entry>> {
    vec![
        steps!(walk "scene::Ancestors", State, [full, stale], |s| s.scene.ancestors(s.nodes[s.nodes.len() - 1]); next),
        steps!(walk "scene::ChildKeys", State, [full, stale], |s| s.scene.children(s.nodes[0]); next next_back size_hint len clone fmt),
        steps!(walk "scene::KeysBelow", State, [full, stale], |s| s.scene.keys_below(s.nodes[0]); next),
        steps!(walk "scene::Walk", State, [full, stale], |s| s.scene.walk(s.nodes[0]); next),
        steps!(walk "scene::Roots", State, [full, stale], |s| s.scene.roots(); next),
        steps!(walk "scene::Iter", State, [full], |s| s.scene.iter(); next size_hint len),
        steps!(walk "scene::Keys", State, [full], |s| s.scene.keys(); next size_hint len),
        steps!(walk "scene::Values", State, [full], |s| s.scene.values(); next size_hint len),
    ]
}

pub fn all() -> Vec<Vec<Entry>> {
    let mut all = steps();
    all.extend([change(), looks()]);
    all
}

#[test]
fn scene() {
    assert_all(all());
}
