//! A graph in two vectors, in which each edge names the next edge at both of its ends. No link leads back, and a vacant place has no
//! mark. The operations are those of port/graph.template. `ordered.rs` has the same with links both ways, and `stable.rs` petgraph's
//! `StableGraph`.

use crate::operations::Graph as Operation;
use crate::shuffler::Shuffler;
use crate::value::Sum;
use std::collections::VecDeque;

pub const END: u32 = u32::MAX;

/// A graph of nodes with values, whose edges have values too.
pub trait Network {
    fn new() -> Self;
    fn with_room(nodes: usize, edges: usize) -> Self;
    fn add_node(&mut self, value: u64);
    fn add_edge(&mut self, from: u32, to: u32, value: u64) -> u32;
    fn remove_edge(&mut self, edge: u32) -> u64;
    fn ends(&self, edge: u32) -> [u32; 2];
    /// The nodes to which the edges from a node lead.
    fn far_ends(&self, from: u32) -> impl Iterator<Item = u32>;
    fn value(&self, node: u32) -> u64;
    fn node_count(&self) -> usize;
    fn edge_count(&self) -> u64;

    /// The sum of the values of all nodes to which a path leads.
    fn search(&self, start: u32) -> u64
    where
        Self: Sized,
    {
        search(self, start)
    }
}

/// The far ends of the edges from `first` on. `step` tells where an edge leads, and which one is behind it.
pub fn along<F: Fn(u32) -> Option<(u32, u32)>>(first: u32, step: F) -> impl Iterator<Item = u32> {
    let mut at = first;
    std::iter::from_fn(move || {
        let (to, next) = step(at)?;
        at = next;
        Some(to)
    })
}

pub struct Node {
    value: u64,
    /// The first outgoing and the first incoming edge.
    pub edges: [u32; 2],
}

pub struct Edge {
    pub value: u64,
    pub ends: [u32; 2],
    pub next: [u32; 2],
}

/// An edge is put in front of the others, and is looked for where it is removed.
pub struct Net {
    pub nodes: Vec<Node>,
    pub edges: Vec<Edge>,
    vacant: u32,
    edge_count: u64,
}

impl Net {
    fn unlink(&mut self, edge: u32, side: usize) {
        let (end, next) = (self.edges[edge as usize].ends[side] as usize, self.edges[edge as usize].next[side]);
        let mut at = self.nodes[end].edges[side];
        if at == edge {
            self.nodes[end].edges[side] = next;
            return;
        }
        while self.edges[at as usize].next[side] != edge {
            at = self.edges[at as usize].next[side];
        }
        self.edges[at as usize].next[side] = next;
    }
}

impl Network for Net {
    fn new() -> Net {
        Net::with_room(0, 0)
    }

    fn with_room(nodes: usize, edges: usize) -> Net {
        Net { nodes: Vec::with_capacity(nodes), edges: Vec::with_capacity(edges), vacant: END, edge_count: 0 }
    }

    fn add_node(&mut self, value: u64) {
        self.nodes.push(Node { value, edges: [END, END] });
    }

    fn add_edge(&mut self, from: u32, to: u32, value: u64) -> u32 {
        let next = [self.nodes[from as usize].edges[0], self.nodes[to as usize].edges[1]];
        let edge = Edge { value, ends: [from, to], next };
        let mut at = self.vacant;
        if at == END {
            at = self.edges.len() as u32;
            self.edges.push(edge);
        } else {
            self.vacant = self.edges[at as usize].next[0];
            self.edges[at as usize] = edge;
        }
        self.nodes[from as usize].edges[0] = at;
        self.nodes[to as usize].edges[1] = at;
        self.edge_count += 1;
        at
    }

    fn remove_edge(&mut self, edge: u32) -> u64 {
        self.unlink(edge, 0);
        self.unlink(edge, 1);
        self.edges[edge as usize].next[0] = self.vacant;
        self.vacant = edge;
        self.edge_count -= 1;
        self.edges[edge as usize].value
    }

    fn ends(&self, edge: u32) -> [u32; 2] {
        self.edges[edge as usize].ends
    }

    fn far_ends(&self, from: u32) -> impl Iterator<Item = u32> {
        along(self.nodes[from as usize].edges[0], |edge| {
            let edge = self.edges.get(edge as usize)?;
            Some((edge.ends[1], edge.next[0]))
        })
    }

    fn value(&self, node: u32) -> u64 {
        self.nodes[node as usize].value
    }

    fn node_count(&self) -> usize {
        self.nodes.len()
    }

    fn edge_count(&self) -> u64 {
        self.edge_count
    }
}

fn filled<N: Network>(n: u64, has_room: bool) -> (N, Vec<u32>) {
    let (nodes, room) = if has_room { (n as usize, 4 * n as usize) } else { (0, 0) };
    let mut net = if has_room { N::with_room(nodes, room) } else { N::new() };
    let (mut edges, mut shuffler) = (Vec::with_capacity(room), Shuffler::new());
    for value in 0..n {
        net.add_node(value);
    }
    for from in 0..n as u32 {
        for _ in 0..4 {
            let to = shuffler.below(n as usize) as u32;
            edges.push(net.add_edge(from, to, 1));
        }
    }
    (net, edges)
}

fn ends<N: Network>(net: &N) -> u64 {
    let mut sum = Sum::default();
    for from in 0..net.node_count() as u32 {
        for to in net.far_ends(from) {
            sum.add(net.value(to));
        }
    }
    sum.0
}

fn search<N: Network>(net: &N, start: u32) -> u64 {
    let mut seen = vec![false; net.node_count()];
    let mut left = VecDeque::from([start]);
    let mut sum = Sum::default();
    seen[start as usize] = true;
    while let Some(node) = left.pop_front() {
        sum.add(net.value(node));
        for to in net.far_ends(node) {
            if !std::mem::replace(&mut seen[to as usize], true) {
                left.push_back(to);
            }
        }
    }
    sum.0
}

fn churn<N: Network>(net: &mut N, edges: &mut [u32]) -> u64 {
    let mut sum = Sum::default();
    for edge in edges {
        let [from, to] = net.ends(*edge);
        let value = net.remove_edge(*edge);
        sum.add(value);
        *edge = net.add_edge(from, to, value.wrapping_add(1));
    }
    sum.0
}

/// Graphs that are built in a process that has done nothing before.
fn built_first<N: Network>(n: u64, rounds: u64, has_room: bool) -> u64 {
    (0..rounds).map(|_| filled::<N>(n, has_room).0.edge_count()).sum()
}

fn steady<N: Network>(operation: Operation, n: u64, rounds: u64) -> u64 {
    let (mut net, mut edges) = filled::<N>(n, false);
    let mut sum = Sum::default();
    for _ in 0..rounds {
        sum.add(match operation {
            Operation::Ends => ends(&net),
            Operation::Search => net.search(0),
            Operation::Churn => churn(&mut net, &mut edges),
            _ => filled::<N>(n, false).0.edge_count(),
        });
    }
    sum.0
}

pub fn workload_of<N: Network>(operation: Operation, n: u64, rounds: u64) -> u64 {
    match operation {
        Operation::BuildFirst => built_first::<N>(n, rounds, false),
        Operation::BuildRoom => built_first::<N>(n, rounds, true),
        _ => steady::<N>(operation, n, rounds),
    }
}

pub fn workload(operation: Operation, n: u64, rounds: u64) -> u64 {
    workload_of::<Net>(operation, n, rounds)
}
