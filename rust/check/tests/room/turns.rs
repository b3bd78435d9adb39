//! Turns: calls of every kind, one after the other, within the room of a structure that was filled and emptied before. None of them may ask
//! for memory. The rows make each call on a fresh structure; here each finds what the others left.

use super::common::random::Random;
use super::watching::count;
use slotmap_proved::fallible::Vec as ProvedVec;
use slotmap_proved::graph::{EdgeKey, Graph};
use slotmap_proved::list::{Cursor, StableList};
use slotmap_proved::scene::Scene;
use slotmap_proved::scheduler::Scheduler;
use slotmap_proved::{DefaultKey, Global, NodeKey};

/// For how many elements there is room.
const ROOM: usize = 100;
const TURNS: usize = 200;

type List = StableList<Cursor, u64>;
type Net = Graph<NodeKey, u64, u64>;
type Trees = Scene<DefaultKey, u64>;
type Jobs = Scheduler<DefaultKey, u64>;

/// Turns may ask for nothing.
fn assert_turns(mut turn: impl FnMut(&mut Random)) {
    let (mut random, before) = (Random::new(1), count());
    (0..TURNS).for_each(|_| turn(&mut random));
    assert_eq!(count(), before);
}

fn fill_list(list: &mut List, cursors: &mut Vec<Cursor>) {
    cursors.clear();
    for number in 0..ROOM as u64 / 2 {
        cursors.push(list.push_back(number).expect("room"));
        cursors.push(list.push_front(number).expect("room"));
    }
}

fn move_in_list(list: &mut List, cursors: &[Cursor], random: &mut Random) {
    for cursor in cursors {
        let other = *random.pick(cursors);
        list.move_to_front(*cursor);
        list.move_to_back(other);
        list.move_after(*cursor, other);
        list.move_before(other, *cursor);
        list.swap(*cursor, other);
    }
}

fn replace_in_list(list: &mut List, cursors: &[Cursor]) {
    for cursor in cursors {
        if list.remove(*cursor).is_some() {
            list.insert_after(list.first().unwrap_or_default(), 1).expect("room");
        }
        assert!(list.pop_back().is_some());
        list.insert_before(list.last().unwrap_or_default(), 3).expect("room");
        assert!(list.pop_front().is_some());
        list.push_back(2).expect("room");
    }
}

#[test]
fn list() {
    let (mut list, mut cursors) = (List::with_capacity(Global, ROOM).expect("memory"), Vec::with_capacity(ROOM));
    assert_turns(|random| {
        fill_list(&mut list, &mut cursors);
        move_in_list(&mut list, &cursors, random);
        replace_in_list(&mut list, &cursors);
        list.retain(|_, value| *value % 3 != 0);
        assert!(list.drain().count() > 0);
        list.clear();
    });
}

fn fill_graph(graph: &mut Net, nodes: &mut Vec<NodeKey>, random: &mut Random) {
    nodes.clear();
    for number in 0..ROOM as u64 {
        nodes.push(graph.add_node(number).expect("room"));
        graph.add_edge(*random.pick(nodes), *random.pick(nodes), number).expect("room");
    }
}

/// Removes an edge, and puts another one in its place.
fn replace_edge(graph: &mut Net, edge: EdgeKey, from: NodeKey) {
    let (_, to) = graph.edge_ends(edge).expect("an edge");
    assert!(graph.remove_edge(edge).is_some());
    graph.add_edge(from, to, 1).expect("room");
}

#[test]
fn graph() {
    let (mut graph, mut nodes) = (Net::with_capacity(Global, ROOM, ROOM).expect("memory"), Vec::with_capacity(ROOM));
    assert_turns(|random| {
        fill_graph(&mut graph, &mut nodes, random);
        for node in &nodes {
            if let Some(edge) = graph.first_from(*node) {
                replace_edge(&mut graph, edge, *random.pick(&nodes));
            }
            graph.remove_edges_of(*random.pick(&nodes));
        }
        for node in &nodes {
            assert!(graph.remove_node(*node).is_some());
            graph.add_node(1).expect("room");
        }
        graph.clear();
    });
}

/// Two roots, and children of nodes by chance.
fn fill_scene(scene: &mut Trees, nodes: &mut Vec<DefaultKey>, random: &mut Random) {
    nodes.clear();
    nodes.push(scene.add_root(0).expect("room"));
    nodes.push(scene.add_root(1).expect("room"));
    for number in 2..ROOM as u64 {
        nodes.push(scene.add_child(*random.pick(nodes), number).expect("room"));
    }
}

/// Moves each node in each way. Some moves are refused, since they would make a cycle.
fn move_in_scene(scene: &mut Trees, nodes: &[DefaultKey], random: &mut Random) {
    for node in nodes {
        let other = *random.pick(nodes);
        let _ = scene.reparent(*node, other);
        let _ = scene.move_before(*node, other);
        let _ = scene.move_after(other, *node);
        scene.move_to_front(*node);
        scene.move_to_back(other);
        scene.make_root(*random.pick(nodes));
    }
}

/// Adds a node below or beside another one, or as a root where that one is gone, or is a root.
fn add_at(scene: &mut Trees, at: DefaultKey, value: u64) {
    let is_added = match value % 3 {
        0 => scene.add_child(at, value).is_ok(),
        1 => scene.insert_before(at, value).is_ok(),
        _ => scene.insert_after(at, value).is_ok(),
    };
    if !is_added {
        scene.add_root(value).expect("room");
    }
}

#[test]
fn scene() {
    let (mut scene, mut nodes) = (Trees::with_capacity(Global, ROOM).expect("memory"), Vec::with_capacity(ROOM));
    assert_turns(|random| {
        fill_scene(&mut scene, &mut nodes, random);
        move_in_scene(&mut scene, &nodes, random);
        for node in &nodes {
            scene.remove(*node);
            (scene.len()..ROOM).for_each(|number| add_at(&mut scene, *random.pick(&nodes), number as u64));
        }
        scene.clear();
    });
}

fn schedule(scheduler: &mut Jobs, random: &mut Random, number: u64) -> DefaultKey {
    scheduler.schedule(random.draw() % 1000, number).expect("room")
}

/// Moves each job to another time, and replaces it and others.
fn replace_jobs(scheduler: &mut Jobs, handles: &[DefaultKey], random: &mut Random) {
    for handle in handles {
        assert!(scheduler.reschedule(*handle, random.draw() % 1000).is_ok());
    }
    for handle in handles {
        assert!(scheduler.cancel(*handle).is_some());
        schedule(scheduler, random, 1);
    }
    for _ in handles {
        assert!(scheduler.pop_next().is_some());
        schedule(scheduler, random, 2);
        if scheduler.pop_due(500).is_some() {
            schedule(scheduler, random, 3);
        }
    }
}

#[test]
fn scheduler() {
    let (mut scheduler, mut handles) = (Jobs::with_capacity(Global, ROOM).expect("memory"), Vec::with_capacity(ROOM));
    let mut taken = ProvedVec::with_capacity(Global, ROOM).expect("memory");
    assert_turns(|random| {
        handles.clear();
        (0..ROOM as u64).for_each(|number| handles.push(schedule(&mut scheduler, random, number)));
        replace_jobs(&mut scheduler, &handles, random);
        taken.clear();
        scheduler.pop_all_due(300, &mut taken).expect("room");
        scheduler.retain(|_: DefaultKey, time, _| time % 3 != 0);
        assert!(scheduler.drain().count() > 0);
        scheduler.clear();
    });
}
