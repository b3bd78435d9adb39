//! Graph.

use super::table::{assert_all, done, table, Entry, Nowhere};
use slotmap_proved::graph::{EdgeKey, Graph};
use slotmap_proved::{DefaultKey, Global, Key, NodeKey};
use std::fmt::Write;
use std::ops::Index;

pub type Net = Graph<NodeKey, u64, u64>;

/// What the rows are made on: a graph, its nodes and its edges.
pub struct State {
    pub graph: Net,
    pub nodes: Vec<NodeKey>,
    pub edges: Vec<EdgeKey>,
}

/// An empty graph with room: for two edges a node.
fn room(size: usize) -> State {
    State { graph: Net::with_capacity(Global, size, 2 * size).expect("memory"), nodes: Vec::new(), edges: Vec::new() }
}

/// A graph with as many nodes as it has room for.
fn of_nodes(size: usize) -> State {
    let mut state = room(size);
    while state.graph.node_count() < state.graph.node_capacity() {
        state.nodes.push(state.graph.add_node(7).ok().expect("room"));
    }
    state
}

/// The ends of the edge of this number, which begins at the node of half of it.
fn ends(state: &State, at: usize) -> (NodeKey, NodeKey) {
    let count = state.nodes.len();
    (state.nodes[at / 2 % count], state.nodes[(at / 2 + if at % 2 == 0 { 1 } else { at * 7 }) % count])
}

/// A graph without room for more.
pub fn full(size: usize) -> State {
    let mut state = of_nodes(size);
    while state.graph.edge_count() < state.graph.edge_capacity() {
        let (from, to) = ends(&state, state.edges.len());
        state.edges.push(state.graph.add_edge(from, to, 7).ok().expect("room"));
    }
    assert!(state.nodes.len() >= size && state.edges.len() >= 2 * size);
    state
}

/// A graph with a node, for which room was made later.
fn reserved(size: usize) -> State {
    let mut state = room(0);
    state.nodes.push(state.graph.add_node(7).ok().expect("memory"));
    assert!(state.graph.reserve_nodes(size).is_ok() && state.graph.reserve_edges(size).is_ok());
    state
}

/// A graph that was full: its nodes are left, and the slots of its edges are free.
fn of_freed_edges(size: usize) -> State {
    let mut state = full(size);
    state.edges.iter().for_each(|edge| assert!(state.graph.remove_edge(*edge).is_some()));
    state
}

/// A graph that was full, whose slots are all free.
fn freed(size: usize) -> State {
    let mut state = full(size);
    state.nodes.iter().for_each(|node| assert!(state.graph.remove_node(*node).is_some()));
    assert_eq!((state.graph.node_count(), state.graph.edge_count()), (0, 0));
    state
}

/// A graph with nodes alone, and the nodes and edges that it had before.
fn stale(size: usize) -> State {
    let mut state = freed(size);
    (0..state.nodes.len()).for_each(|_| assert!(state.graph.add_node(7).is_ok()));
    state
}

fn change() -> Vec<Entry> {
    table("graph::Graph", rows![State:
        each [room, reserved, freed] add_node => |s, _| done(s.graph.add_node(7));
        each [of_nodes, reserved, of_freed_edges] add_edge => |s, at| done(s.graph.add_edge(ends(s, at).0, ends(s, at).1, 7));
        each [full, stale] remove_edge => |s, at| s.graph.remove_edge(s.edges[at]);
        each [full, stale] remove_edges_of => |s, at| s.graph.remove_edges_of(s.nodes[at]);
        each [full, stale] remove_node => |s, at| s.graph.remove_node(s.nodes[at]);
        once [full, stale] clear => |s, _| s.graph.clear();
        look [full, stale] node_mut => |s, at| s.graph.node_mut(s.nodes[at]).map(|value| *value += 1);
        look [full, stale] edge_mut => |s, at| s.graph.edge_mut(s.edges[at]).map(|value| *value += 1);
        look [room, full] reserve_nodes => |s, _| done(s.graph.reserve_nodes(s.graph.node_capacity() - s.graph.node_count()));
        look [room, full] reserve_edges => |s, _| done(s.graph.reserve_edges(s.graph.edge_capacity() - s.graph.edge_count()));
        walk [room] new asks 10 "slot 0 of each vector" => |_, _| done(Net::new(Global));
        walk [room] with_key asks 10 "slot 0 of each vector" => |_, _| done(Graph::<DefaultKey, u64, u64>::with_key(Global));
        walk [room] with_capacity asks 10 "the room" => |s, _| done(Net::with_capacity(Global, s.graph.node_capacity(), 9));
        walk [room] with_capacity_and_key asks 10 "the room"
            => |s, _| done(Graph::<DefaultKey, u64, u64>::with_capacity_and_key(Global, s.graph.node_capacity(), 9));
        walk [full] clone asks 10 "the copy" => |s, _| done(s.graph.clone());
    ])
}

fn looks() -> Vec<Entry> {
    table("graph::Graph", rows![State:
        look [full, stale] contains_node => |s, at| s.graph.contains_node(s.nodes[at]);
        look [full, stale] contains_edge => |s, at| s.graph.contains_edge(s.edges[at]);
        look [full, stale] node => |s, at| s.graph.node(s.nodes[at]);
        look [full, stale] edge => |s, at| s.graph.edge(s.edges[at]);
        look [full] index => |s, at| s.graph.index(s.nodes[at]);
        look [full, stale] edge_ends => |s, at| s.graph.edge_ends(s.edges[at]);
        look [room, full] node_count => |s, _| s.graph.node_count();
        look [room, full] edge_count => |s, _| s.graph.edge_count();
        look [room, full] is_empty => |s, _| s.graph.is_empty();
        look [room, full] node_capacity => |s, _| s.graph.node_capacity();
        look [room, full] edge_capacity => |s, _| s.graph.edge_capacity();
        look [full, stale] out_degree => |s, at| s.graph.out_degree(s.nodes[at]);
        look [full, stale] in_degree => |s, at| s.graph.in_degree(s.nodes[at]);
        look [full, stale] find_edge => |s, at| s.graph.find_edge(ends(s, at).0, ends(s, at).1);
        look [full, stale] first_from => |s, at| s.graph.first_from(s.nodes[at]);
        look [full, stale] first_to => |s, at| s.graph.first_to(s.nodes[at]);
        look [full, stale] next_from => |s, at| s.graph.next_from(s.edges[at]);
        look [full, stale] next_to => |s, at| s.graph.next_to(s.edges[at]);
        look [full] next_node => |s, at| s.graph.next_node(Some(s.nodes[at]));
        look [full] next_edge => |s, at| s.graph.next_edge(Some(s.edges[at]));
        look [full, stale] edges_from => |s, at| s.graph.edges_from(s.nodes[at]).count();
        look [full, stale] edges_to => |s, at| s.graph.edges_to(s.nodes[at]).count();
        look [full, stale] neighbours_from => |s, at| s.graph.neighbours_from(s.nodes[at]).count();
        look [full, stale] neighbours_to => |s, at| s.graph.neighbours_to(s.nodes[at]).count();
        look [full, stale] edge_references_from => |s, at| s.graph.edge_references_from(s.nodes[at]).count();
        look [full, stale] edge_references_to => |s, at| s.graph.edge_references_to(s.nodes[at]).count();
        walk [full] nodes => |s, _| s.graph.nodes().count();
        walk [full] edges => |s, _| s.graph.edges().count();
        walk [full] node_references => |s, _| s.graph.node_references().count();
        walk [full] edge_references => |s, _| s.graph.edge_references().count();
        walk [full] fmt => |s, _| write!(Nowhere, "{:?}", s.graph);
        walk [full] neighbours asks 1 "the nodes" => |s, _| done(s.graph.neighbours(Global, s.nodes[0]));
        walk [full] reachable asks up to 60 "the nodes, and what was seen" => |s, _| done(s.graph.reachable(Global, s.nodes[0]));
        walk [of_nodes] topological_order asks up to 60 "the nodes, and their degrees" => |s, _| done(s.graph.topological_order(Global));
    ])
}

/// A node of a full graph with all of its edges, and one that every edge has.
fn steps() -> Vec<Vec<Entry>> {
    vec![
        steps!(look "graph::EdgesAt", State, [full], |s| s.graph.edges_from(s.nodes[0]); next next_back size_hint len clone),
        steps!(look "graph::Neighbours", State, [full], |s| s.graph.neighbours_to(s.nodes[0]); next size_hint),
        steps!(look "graph::EdgeReferencesAt", State, [full], |s| s.graph.edge_references_to(s.nodes[0]); next size_hint len),
        steps!(walk "graph::EdgeReferences", State, [full], |s| s.graph.edge_references(); next size_hint len),
    ]
}

pub fn all() -> Vec<Vec<Entry>> {
    let mut all = steps();
    all.extend([change(), looks()]);
    all
}

#[test]
fn graph() {
    assert!(NodeKey::null().is_null());
    assert_all(all());
}
