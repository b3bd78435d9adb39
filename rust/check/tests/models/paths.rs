//! `graph` is a Graph, and the searches are those along its edges: their models relax each edge as often as there are nodes, go
//! depth first by recursion, and compare what is reachable from where.

use slotmap_proved::fallible::SecondaryMap;
use slotmap_proved::graph::EdgeKey;
use slotmap_proved::paths::{kosaraju_scc, path_to, post_order, post_order_from, shortest_paths, Costs, PathError, Reached};
use slotmap_proved::{Global, Key, NodeKey};
use std::collections::BTreeMap;
use super::common::random::Random;
use super::common::seeds::each_seed;
use super::graph::{Beside, Model};

const SEEDS: u64 = 40;
/// Graphs of a seed. Each is searched from some nodes.
const GRAPHS: usize = 100;
const SEARCHES: usize = 8;

/// The distance of each node that is found: each edge is relaxed as often as there are nodes.
fn distances(model: &Model, costs: &BTreeMap<EdgeKey, u64>, from: NodeKey) -> BTreeMap<NodeKey, u128> {
    let mut found: BTreeMap<NodeKey, u128> = model.has_node(from).then_some((from, 0)).into_iter().collect();
    for _ in 0..model.nodes.len() {
        for (edge, begin, end, _) in &model.edges {
            if let (Some(distance), Some(cost)) = (found.get(begin).copied(), costs.get(edge)) {
                let length = distance + u128::from(*cost);
                let known = found.entry(*end).or_insert(length);
                *known = length.min(*known);
            }
        }
    }
    found
}

/// Whether the search comes to a path that costs too much. It settles the nearest node, the one that has waited longest among
/// several, and goes along its edges to nodes that aren't settled.
fn is_too_long(model: &Model, costs: &BTreeMap<EdgeKey, u64>, from: NodeKey) -> bool {
    let mut waiting: Vec<(u64, NodeKey)> = model.has_node(from).then_some((0, from)).into_iter().collect();
    let mut settled = Vec::new();
    while let Some(at) = (0..waiting.len()).min_by_key(|at| waiting[*at].0) {
        let (distance, node) = waiting.remove(at);
        if settled.contains(&node) {
            continue;
        }
        settled.push(node);
        for edge in model.edges_from(node) {
            let cost = costs.get(&edge.0).filter(|_| !settled.contains(&edge.2));
            match cost.map(|cost| distance.checked_add(*cost)) {
                Some(Some(length)) => waiting.push((length, edge.2)),
                Some(None) => return true,
                None => {}
            }
        }
    }
    false
}

fn leave(model: &Model, node: NodeKey, seen: &mut Vec<NodeKey>, order: &mut Vec<NodeKey>) {
    if seen.contains(&node) {
        return;
    }
    seen.push(node);
    for edge in model.edges_from(node) {
        leave(model, edge.2, seen, order);
    }
    order.push(node);
}

/// The order in which a search from each of these nodes leaves the nodes.
fn left_by(model: &Model, starts: &[NodeKey]) -> Vec<NodeKey> {
    let (mut seen, mut order) = (Vec::new(), Vec::new());
    starts.iter().filter(|start| model.has_node(**start)).for_each(|start| leave(model, *start, &mut seen, &mut order));
    order
}

/// Costs of the edges, and some keys more. Some edges have none; where `are_great` holds, some paths are too long.
fn costs(random: &mut Random, model: &Model, are_great: bool) -> (Costs, BTreeMap<EdgeKey, u64>) {
    let (mut table, mut known) = (SecondaryMap::new(Global).expect("memory"), BTreeMap::new());
    for edge in &model.edges {
        let cost = match random.below(if are_great { 8 } else { 6 }) {
            0 => continue,
            1 => 0,
            6 => u64::MAX / 2,
            7 => u64::MAX,
            _ => random.draw() % 20,
        };
        assert!(table.insert(edge.0, cost).is_ok());
        known.insert(edge.0, cost);
    }
    (table, known)
}

fn assert_paths(beside: &mut Beside<'_>, are_great: bool) {
    let (table, known) = costs(beside.random, &beside.model, are_great);
    let from = beside.node();
    let (graph, model) = (&beside.graph, &beside.model);
    let paths = match (shortest_paths(Global, graph, from, &table), is_too_long(model, &known, from)) {
        (Err(PathError::TooLong), true) => return,
        (Ok(paths), false) => paths,
        (found, too_long) => panic!("found: {}, too long: {too_long}", found.is_ok()),
    };
    let found: BTreeMap<NodeKey, u128> = paths.iter().map(|(node, reached)| (node, u128::from(reached.distance))).collect();
    assert_eq!(found, distances(model, &known, from));
    for (node, reached) in paths.iter() {
        let path = path_to(Global, graph, &paths, node).expect("memory").expect("it was found");
        let mut at = from;
        let mut distance = 0;
        for edge in path.iter() {
            let (begin, end) = graph.edge_ends(*edge).expect("an edge of the graph");
            assert_eq!(begin, at);
            (at, distance) = (end, distance + known[edge]);
        }
        assert_eq!((at, distance, path.last().copied()), (node, reached.distance, reached.by));
    }
    let other = beside.node();
    let found = path_to(Global, &beside.graph, &paths, other).expect("memory");
    assert_eq!(found.is_some(), paths.contains_key(other));
}

/// In a table that was made up the last edges may lead nowhere, or in a circle.
fn assert_made_up(beside: &mut Beside<'_>) {
    let mut paths = SecondaryMap::new(Global).expect("memory");
    for (node, _) in beside.model.nodes.clone() {
        let by = (!beside.random.one_of(8)).then(|| beside.edge());
        let distance = beside.random.draw() % 4;
        assert!(paths.insert(node, Reached { distance, by }).is_ok());
    }
    let node = beside.node();
    // Each edge ends where the next one begins, and the last one at the node.
    if let Some(path) = path_to(Global, &beside.graph, &paths, node).expect("memory") {
        let ends: Vec<_> = path.iter().map(|edge| beside.graph.edge_ends(*edge).expect("an edge of the graph")).collect();
        assert!(ends.windows(2).all(|two| two[0].1 == two[1].0));
        assert_eq!(ends.last().map_or(node, |last| last.1), node);
    }
}

fn assert_orders(beside: &mut Beside<'_>) {
    let nodes: Vec<NodeKey> = beside.model.nodes_by_index().iter().map(|node| node.0).collect();
    let order = post_order(Global, &beside.graph).expect("memory");
    assert_eq!(order.as_slice(), left_by(&beside.model, &nodes));
    let start = beside.node();
    let order = post_order_from(Global, &beside.graph, start).expect("memory");
    assert_eq!(order.as_slice(), left_by(&beside.model, &[start]));
}

fn assert_components(beside: &Beside<'_>) {
    let components = kosaraju_scc(Global, &beside.graph).expect("memory");
    let model = &beside.model;
    let mut place = BTreeMap::new();
    for (number, component) in components.iter().enumerate() {
        assert!(!component.is_empty());
        for node in component.iter() {
            assert_eq!(place.insert(*node, number), None, "a node is in two components");
        }
    }
    assert_eq!(place.len(), model.nodes.len());
    let reachable: BTreeMap<NodeKey, Vec<NodeKey>> = model.nodes.iter().map(|node| (node.0, model.reachable(node.0))).collect();
    for (one, found) in &reachable {
        for (other, back) in &reachable {
            let leads = found.contains(other);
            assert_eq!(leads && back.contains(one), place[one] == place[other]);
            assert!(!leads || place[one] <= place[other], "a path leads to a component before");
        }
    }
}

#[test]
fn beside_simple_searches() {
    each_seed("the searches", SEEDS, |random| {
        for size in 0..GRAPHS {
            let mut beside = Beside::new(random);
            let (nodes, edges) = (1 + size % 12, beside.random.below(24));
            (0..nodes).for_each(|_| beside.add_node());
            (0..edges).for_each(|_| beside.add_edge());
            if size % 3 == 0 {
                // Indices that are used again, and searches from nodes that are gone.
                (0..2).for_each(|_| beside.remove_node());
                beside.add_node();
                (0..4).for_each(|_| beside.add_edge());
            }
            (0..SEARCHES).for_each(|turn| assert_paths(&mut beside, turn % 2 == 1));
            assert_made_up(&mut beside);
            assert_orders(&mut beside);
            assert_components(&beside);
        }
    });
}

#[test]
fn of_no_graph() {
    let graph = slotmap_proved::graph::Graph::<NodeKey, u64, u64>::new(Global).expect("memory");
    let costs = SecondaryMap::new(Global).expect("memory");
    let paths = shortest_paths(Global, &graph, NodeKey::null(), &costs).expect("memory");
    assert!(paths.is_empty());
    assert!(path_to(Global, &graph, &paths, NodeKey::null()).expect("memory").is_none());
    assert!(post_order(Global, &graph).expect("memory").is_empty());
    assert!(post_order_from(Global, &graph, NodeKey::null()).expect("memory").is_empty());
    assert!(kosaraju_scc(Global, &graph).expect("memory").is_empty());
}
