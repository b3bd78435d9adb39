//! World, with tables of both kinds.

use super::table::{assert_all, done, table, Entry, Nowhere};
use slotmap_proved::entities::{First, Second, Third, World};
use slotmap_proved::fallible::{SecondaryMap, SparseSecondaryMap};
use slotmap_proved::{DefaultKey, Global, NodeKey};
use std::fmt::Write;
use std::ops::Index;

type Tables<K> = (SecondaryMap<K, u64>, (SparseSecondaryMap<K, u64>, (SecondaryMap<K, u64>, ())));
type OfThree = World<DefaultKey, u64, Tables<DefaultKey>>;

/// What the rows are made on: a world, and the keys of its entities.
struct State {
    world: OfThree,
    keys: Vec<DefaultKey>,
}

/// An empty world with room for entities and their components.
fn room(size: usize) -> State {
    with_tables(OfThree::with_capacity(Global, size).expect("memory"))
}

/// Makes room for the components of as many entities as there is room for. Where components go and others come, a hash map sets itself in
/// order now and then: in place, if half of its room is free.
fn with_tables(mut world: OfThree) -> State {
    let size = world.capacity();
    assert!(world.reserve_components::<First>(0, size).is_ok() && world.reserve_components::<Second>(2 * size, 0).is_ok());
    assert!(world.reserve_components::<Third>(0, size).is_ok());
    State { world, keys: Vec::new() }
}

/// A world with an entity, for which room was made later.
fn reserved(size: usize) -> State {
    let mut world = OfThree::new(Global).expect("memory");
    assert!(world.spawn_with_three::<First, Second, Third>(7, 1, 2, 3).is_ok() && world.reserve(size).is_ok());
    with_tables(world)
}

/// A world without room for more entities, and without components.
fn plain(size: usize) -> State {
    let mut state = room(size);
    while state.world.len() < state.world.capacity() {
        state.keys.push(state.world.spawn(7).ok().expect("room"));
    }
    assert!(state.keys.len() >= size);
    state
}

/// A world whose entities have a component of each kind, the third one only every other.
fn full(size: usize) -> State {
    let mut state = plain(size);
    for (at, key) in state.keys.iter().enumerate() {
        assert!(state.world.attach::<First>(*key, at as u64).is_ok() && state.world.attach::<Second>(*key, at as u64).is_ok());
        assert!(at % 2 == 1 || state.world.attach::<Third>(*key, at as u64).is_ok());
    }
    state
}

/// A world that was full, whose slots are all free.
fn freed(size: usize) -> State {
    let mut state = full(size);
    state.keys.iter().for_each(|key| assert!(state.world.despawn(*key).is_some()));
    state
}

/// A world of new entities, and the keys that it had before.
fn stale(size: usize) -> State {
    let mut state = freed(size);
    state.keys.iter().for_each(|_| assert!(state.world.spawn(7).is_ok()));
    state
}

fn change() -> Vec<Entry> {
    table("entities::World", rows![State:
        each [room, reserved, freed] spawn => |s, _| done(s.world.spawn(7));
        each [room, reserved, freed] spawn_with => |s, at| match at % 2 {
            0 => done(s.world.spawn_with::<First>(7, 1)),
            _ => done(s.world.spawn_with::<Second>(7, 1)),
        };
        each [room, reserved, freed] spawn_with_both => |s, _| done(s.world.spawn_with_both::<First, Second>(7, 1, 2));
        each [room, reserved, freed] spawn_with_three => |s, _| done(s.world.spawn_with_three::<Third, First, Second>(7, 1, 2, 3));
        each [full, stale] despawn => |s, at| s.world.despawn(s.keys[at]);
        once [full, stale] clear => |s, _| s.world.clear();
        each [plain, full] attach => |s, at| match at % 3 {
            0 => done(s.world.attach::<First>(s.keys[at], 1)),
            1 => done(s.world.attach::<Second>(s.keys[at], 1)),
            _ => done(s.world.attach::<Third>(s.keys[at], 1)),
        };
        each [full, stale] detach => |s, at| match at % 2 {
            0 => s.world.detach::<First>(s.keys[at]),
            _ => s.world.detach::<Second>(s.keys[at]),
        };
        look [full, stale] get_mut => |s, at| s.world.get_mut(s.keys[at]).map(|entity| *entity += 1);
        look [full, stale] component_mut => |s, at| match at % 2 {
            0 => s.world.component_mut::<First>(s.keys[at]).map(|component| *component += 1),
            _ => s.world.component_mut::<Second>(s.keys[at]).map(|component| *component += 1),
        };
        look [full, stale] replace_both => |s, at| s.world.replace_both::<First, Second>(s.keys[at], 8, 9);
        once [full] retain_components => |s, _| {
            s.world.retain_components::<First, _>(|_, component| *component % 2 == 0);
            s.world.retain_components::<Second, _>(|_, component| *component % 2 == 0);
        };
        look [room, full, freed] reserve => |s, _| done(s.world.reserve(s.world.capacity() - s.world.len()));
        look [room, full, freed] reserve_components => |s, _| match s.world.len() {
            0 => done(s.world.reserve_components::<Second>(2 * s.world.capacity(), 0)),
            _ => done(s.world.reserve_components::<First>(0, s.world.capacity())),
        };
        walk [room] new asks 3 "slot 0 of the map and of two tables" => |_, _| done(OfThree::new(Global));
        walk [room] with_key asks 3 "slot 0 of the map and of two tables" => |_, _| done(World::<NodeKey, u64, Tables<NodeKey>>::with_key(Global));
        walk [room] with_capacity asks 5 "the room" => |s, _| done(OfThree::with_capacity(Global, s.world.capacity()));
        walk [room] with_capacity_and_key asks 5 "the room"
            => |s, _| done(World::<NodeKey, u64, Tables<NodeKey>>::with_capacity_and_key(Global, s.world.capacity()));
        walk [full] clone asks 6 "the copy" => |s, _| done(s.world.clone());
    ])
}

fn looks() -> Vec<Entry> {
    table("entities::World", rows![State:
        look [full, stale] contains_key => |s, at| s.world.contains_key(s.keys[at]);
        look [full, stale] get => |s, at| s.world.get(s.keys[at]);
        look [full] index => |s, at| s.world.index(s.keys[at]);
        look [full, stale] has => |s, at| s.world.has::<First>(s.keys[at]) && s.world.has::<Second>(s.keys[at]);
        look [full, stale] component => |s, at| {
            s.world.component::<First>(s.keys[at]).is_some() && s.world.component::<Second>(s.keys[at]).is_some()
        };
        look [full, stale] both => |s, at| s.world.both::<First, Second>(s.keys[at]);
        look [room, full] len => |s, _| s.world.len();
        look [room, full] is_empty => |s, _| s.world.is_empty();
        look [room, full] capacity => |s, _| s.world.capacity();
        look [room, full] tables => |s, _| s.world.tables().0.len();
        look [room, full] keys_as_slice => |s, _| s.world.keys_as_slice().len();
        walk [full] iter => |s, _| s.world.iter().count();
        walk [full] keys => |s, _| s.world.keys().count();
        walk [full] values => |s, _| s.world.values().count();
        walk [full] into_iter => |s, _| (&s.world).into_iter().count();
        walk [full, stale] with => |s, _| s.world.with::<First>().count() + s.world.with::<Second>().count();
        walk [full, stale] with_both => |s, _| s.world.with_both::<First, Second>().count();
        walk [full, stale] with_optional => |s, _| s.world.with_optional::<First, Third>().count();
        walk [full, stale] with_without => |s, _| s.world.with_without::<First, Third>().count();
        walk [full, stale] with_three => |s, _| s.world.with_three::<First, Second, Third>().count();
        walk [full] fmt => |s, _| write!(Nowhere, "{:?}", s.world);
    ])
}

fn steps() -> Vec<Vec<Entry>> {
    vec![
        steps!(walk "entities::With", State, [full, stale], |s| s.world.with::<Second>(); next size_hint),
        steps!(walk "entities::WithBoth", State, [full, stale], |s| s.world.with_both::<First, Second>(); next size_hint),
        steps!(walk "entities::WithOptional", State, [full, stale], |s| s.world.with_optional::<First, Third>(); next size_hint),
        steps!(walk "entities::WithWithout", State, [full, stale], |s| s.world.with_without::<First, Third>(); next size_hint),
        steps!(walk "entities::WithThree", State, [full, stale], |s| s.world.with_three::<First, Second, Third>(); next size_hint),
    ]
}

pub fn all() -> Vec<Vec<Entry>> {
    let mut all = steps();
    all.extend([change(), looks()]);
    all
}

#[test]
fn world() {
    assert_all(all());
}
