//! Graphs of numbers.

use super::random::Random;
use super::sums::{add_exact, add_within, increment, Report, Sum};
use slotmap_proved::fallible::TryClone as _;
use slotmap_proved::graph::{EdgeKey, EdgesAt, Graph};
use slotmap_proved::{Global, NodeKey};

type Numbers = Graph<NodeKey, u64, u64>;

/// Adds edges between nodes by chance, each from the greater number to the lesser one.
fn add_edges(graph: &mut Numbers, nodes: &[NodeKey], random: &mut Random, count: u64) {
    for value in 0..count {
        let (a, b) = (random.pick(nodes), random.pick(nodes));
        let (from, to) = if graph[a] > graph[b] { (a, b) } else { (b, a) };
        if from != to {
            graph.add_edge(from, to, value).expect("memory");
        }
    }
}

/// Each of these nodes that is there, with its number of edges, and the numbers of the edges from it and to it.
fn sum_of(graph: &Numbers, nodes: &[NodeKey]) -> Sum {
    let mut sum = Sum::new();
    for node in nodes {
        if let Some(number) = graph.node(*node) {
            sum.add(*number);
            sum.add(graph.out_degree(*node) as u64);
            graph.edges_from(*node).for_each(|edge| sum.add_found(graph.edge(edge)));
            graph.edges_to(*node).for_each(|edge| sum.add_found(graph.edge(edge)));
        }
    }
    sum
}

/// The numbers of nodes in their order.
fn sum_of_nodes(graph: &Numbers, nodes: &[NodeKey]) -> Sum {
    nodes.iter().map(|node| graph[*node]).collect()
}

/// The numbers of the nodes beside a node: those to which its edges lead, and those from which edges lead to it.
fn sum_beside(graph: &Numbers, node: NodeKey) -> Sum {
    graph.neighbours_from(node).chain(graph.neighbours_to(node)).map(|node| graph[node]).collect()
}

/// Edges: the numbers of their ends, and their own, which are also found by their keys.
fn add_with_ends<'a>(sum: &mut Sum, graph: &Numbers, edges: impl Iterator<Item = (EdgeKey, NodeKey, NodeKey, &'a u64)>) {
    for (edge, from, to, value) in edges {
        sum.extend([graph[from], graph[to], *value]);
        sum.add_found(graph.edge(edge));
    }
}

/// Each edge.
fn sum_of_edges(graph: &Numbers) -> Sum {
    let mut sum = Sum::new();
    add_with_ends(&mut sum, graph, graph.edge_references());
    sum
}

/// Each edge from a node, and each edge to it.
fn sum_of_edges_at(graph: &Numbers, node: NodeKey) -> Sum {
    let mut sum = Sum::new();
    add_with_ends(&mut sum, graph, graph.edge_references_from(node));
    add_with_ends(&mut sum, graph, graph.edge_references_to(node));
    sum
}

/// The number of each node, twice: the second one is found by its key.
fn sum_of_all_nodes(graph: &Numbers) -> Sum {
    let mut sum = Sum::new();
    for (node, number) in graph.node_references() {
        sum.add(*number);
        sum.add_found(graph.node(node));
    }
    sum
}

/// The numbers of the edges from a node and to it, one after the other.
fn sum_along(graph: &Numbers, node: NodeKey) -> Sum {
    let mut sum = Sum::new();
    let mut edge = graph.first_from(node).unwrap_or_default();
    for _ in 0..graph.out_degree(node) {
        sum.add_found(graph.edge(edge));
        edge = graph.next_from(edge).unwrap_or_default();
    }
    let mut edge = graph.first_to(node).unwrap_or_default();
    for _ in 0..graph.in_degree(node) {
        sum.add_found(graph.edge(edge));
        edge = graph.next_to(edge).unwrap_or_default();
    }
    sum
}

/// How many edges there are, and their numbers from the last one on.
fn sum_from_back(graph: &Numbers, edges: EdgesAt<'_, u64>) -> Sum {
    let mut sum = Sum::new();
    sum.add(edges.len() as u64);
    edges.rev().for_each(|edge| sum.add_found(graph.edge(edge)));
    sum
}

/// The numbers of all nodes and edges by steps, and 1 where these end.
fn sum_by_steps(graph: &Numbers) -> Sum {
    let mut sum = Sum::new();
    let mut node = None;
    for _ in 0..graph.node_count() {
        node = graph.next_node(node);
        sum.extend(node.map(|node| graph[node]));
    }
    sum.add_if(graph.next_node(node).is_none());
    let mut edge = None;
    for _ in 0..graph.edge_count() {
        edge = graph.next_edge(edge);
        sum.extend(edge.and_then(|edge| graph.edge(edge).copied()));
    }
    sum.add_if(graph.next_edge(edge).is_none());
    sum
}

/// The lengths of the iterators over edges after so many, and of that over nodes to its end.
fn sum_of_lengths(graph: &Numbers, node: NodeKey, steps: usize) -> Sum {
    let mut sum = Sum::new();
    add_exact(&mut sum, graph.edge_references(), steps);
    add_exact(&mut sum, graph.edge_references_from(node), steps);
    add_exact(&mut sum, graph.edge_references_to(node), steps);
    add_exact(&mut sum, graph.edges_from(node), steps);
    add_within(&mut sum, graph.neighbours_to(node), graph.edge_count());
    sum
}

/// The numbers of all nodes and edges by their keys.
fn sum_by_keys(graph: &Numbers) -> Sum {
    let mut sum = Sum::new();
    graph.nodes().for_each(|node| sum.add_found(graph.node(node)));
    graph.edges().for_each(|edge| sum.add_found(graph.edge(edge)));
    sum
}

/// Which of these nodes and edges are in the graph.
fn sum_of_live(graph: &Numbers, nodes: &[NodeKey], edges: &[EdgeKey]) -> Sum {
    let mut sum = Sum::new();
    nodes.iter().for_each(|node| sum.add_if(graph.contains_node(*node)));
    edges.iter().for_each(|edge| sum.add_if(graph.contains_edge(*edge)));
    sum
}

/// What the searches from a node find.
fn search(report: &mut Report, graph: &Numbers, node: NodeKey) {
    report.tell("neighbours", sum_of_nodes(graph, &graph.neighbours(Global, node).expect("memory")));
    report.tell("beside", sum_beside(graph, node));
    report.tell("along", sum_along(graph, node));
    report.tell("from back", sum_from_back(graph, graph.edges_to(node).clone().expect("it asks for none")));
    report.tell("with ends", sum_of_edges_at(graph, node));
    report.tell("lengths", sum_of_lengths(graph, node, 2));
    report.tell("reachable", sum_of_nodes(graph, &graph.reachable(Global, node).expect("memory")));
}

/// The order of the nodes.
fn sort(report: &mut Report, graph: &Numbers) {
    let Ok(order) = graph.topological_order(Global) else { panic!("no cycle, and memory") };
    report.tell("in order", sum_of_nodes(graph, &order));
}

/// Adds an edge that closes a cycle, and removes it. Of the edge that stands in the way of an order: how many nodes are reachable from its
/// end, and whether its start is one of them.
fn close(report: &mut Report, graph: &mut Numbers, from: NodeKey, to: NodeKey) {
    let back = graph.add_edge(from, to, 0).expect("memory");
    let closing = graph.topological_order(Global).err().and_then(|error| error.edge()).expect("a cycle");
    let (start, end) = graph.edge_ends(closing).expect("an edge");
    let found = graph.reachable(Global, end).expect("memory");
    report.tell_all("in a cycle", [found.len() as u64, u64::from(found.contains(&start))]);
    assert!(graph.remove_edge(back).is_some());
}

/// The numbers of the first edges from a node to others.
fn find(graph: &Numbers, from: NodeKey, nodes: &[NodeKey], random: &mut Random, turns: u64) -> Sum {
    let mut sum = Sum::new();
    for _ in 0..turns {
        let edge = graph.find_edge(from, random.pick(nodes));
        sum.add_found(graph.edge(edge.unwrap_or_default()));
    }
    sum
}

/// Searches, and sorts.
fn look(report: &mut Report, graph: &mut Numbers, nodes: &[NodeKey], random: &mut Random, hub: NodeKey) {
    let mut edge = graph.first_from(hub);
    while let Some(at) = edge {
        increment(graph.edge_mut(at));
        edge = graph.next_from(at);
    }
    let (first, last) = (nodes[0], nodes[nodes.len() - 1]);
    search(report, graph, hub);
    search(report, graph, last);
    sort(report, graph);
    close(report, graph, first, last);
    close(report, graph, last, last);
    sort(report, graph);
    report.tell("found", find(graph, hub, nodes, random, 10));
}

/// Removes nodes by chance.
fn remove_nodes(graph: &mut Numbers, nodes: &[NodeKey], random: &mut Random, turns: u64) -> Sum {
    let mut sum: Sum = (0..turns).filter_map(|_| graph.remove_node(random.pick(nodes))).collect();
    sum.add(graph.edge_count() as u64);
    sum
}

/// Adds 1 to the number of each node, doubles that of each edge, and removes some.
fn change(report: &mut Report, graph: &mut Numbers, nodes: &[NodeKey], random: &mut Random) {
    let edges: Vec<EdgeKey> = graph.edges().collect();
    nodes.iter().for_each(|node| increment(graph.node_mut(*node)));
    for edge in &edges {
        *graph.edge_mut(*edge).expect("an edge") *= 2;
    }
    let turns = nodes.len() as u64;
    report.tell_all("removed edges", (0..turns).filter_map(|_| graph.remove_edge(random.pick(&edges))));
    report.tell("removed nodes", remove_nodes(graph, nodes, random, turns / 2));
    report.tell("left", sum_of(graph, nodes));
    report.tell("by keys", sum_by_keys(graph));
    report.tell("by steps", sum_by_steps(graph));
    report.tell("live", sum_of_live(graph, nodes, &edges));
}

/// Copies a graph, and removes all from the first one.
fn copy(report: &mut Report, graph: &mut Numbers, nodes: &[NodeKey], hub: NodeKey) {
    let copy = graph.clone().expect("memory");
    graph.remove_edges_of(hub);
    report.tell("without the hub", sum_of(graph, nodes));
    graph.clear();
    assert!(graph.is_empty());
    report.tell_all("cleared", [graph.node_count() as u64, graph.edge_count() as u64]);
    report.tell("copied", sum_of(&copy, nodes));
}

/// Makes nodes of the numbers from 0 on in an empty graph, a path through them, and edges by chance.
fn build(graph: &mut Numbers, random: &mut Random, size: u64) -> Vec<NodeKey> {
    let nodes: Vec<NodeKey> = (0..size).map(|number| graph.add_node(number).expect("memory")).collect();
    for (at, pair) in (1..).zip(nodes.windows(2)) {
        graph.add_edge(pair[1], pair[0], at).expect("memory");
    }
    graph.reserve_edges(size as usize).expect("memory");
    add_edges(graph, &nodes, random, size);
    graph.reserve_nodes(1).expect("memory");
    nodes
}

/// Makes a graph in each way: an empty one, with room for so many nodes and edges.
fn make_all(nodes: usize, edges: usize) {
    let made = [
        (Graph::new(Global), 0, 0),
        (Graph::with_key(Global), 0, 0),
        (Graph::with_capacity(Global, nodes, edges), nodes, edges),
        (Graph::with_capacity_and_key(Global, nodes, edges), nodes, edges),
    ];
    for (graph, nodes, edges) in made {
        let graph: Numbers = graph.expect("memory");
        assert!(graph.is_empty() && graph.node_capacity() >= nodes && graph.edge_capacity() >= edges);
    }
}

/// The calls of a graph that may ask for memory or go over all elements.
pub fn run(size: u64) -> Report {
    let (mut report, mut random, count) = (Report::of("graph"), Random::new(2), size as usize);
    make_all(count, count / 2);
    let mut graph = Graph::with_capacity_and_key(Global, count, count).expect("memory");
    let nodes = build(&mut graph, &mut random, size);
    let hub = graph.add_node(size).expect("memory");
    for node in &nodes {
        graph.add_edge(hub, *node, graph[*node]).expect("memory");
    }
    report.tell("built", sum_of(&graph, &nodes));
    report.tell("edges", sum_of_edges(&graph));
    report.tell("nodes", sum_of_all_nodes(&graph));
    look(&mut report, &mut graph, &nodes, &mut random, hub);
    change(&mut report, &mut graph, &nodes, &mut random);
    copy(&mut report, &mut graph, &nodes, hub);
    report
}
