//! A graph as in `graph.rs`, in which each edge names its two neighbours at both of its ends. A new edge is put behind the
//! others, and is removed without a search, as in the port.

use crate::graph::{END, Network, along, workload_of};
use crate::operations::Graph as Operation;

struct Node {
    value: u64,
    // The first and the last edge of the outgoing ones, and of the incoming ones.
    edges: [[u32; 2]; 2],
}

struct Edge {
    value: u64,
    ends: [u32; 2],
    next: [u32; 2],
    prev: [u32; 2],
}

struct Net {
    nodes: Vec<Node>,
    edges: Vec<Edge>,
    vacant: u32,
    edge_count: u64,
}

impl Net {
    /// Lets the edge before a place lead on, or the node begin with another edge.
    fn set_next(&mut self, end: u32, side: usize, at: u32, next: u32) {
        if at == END {
            self.nodes[end as usize].edges[side][0] = next;
        } else {
            self.edges[at as usize].next[side] = next;
        }
    }

    /// Lets the edge behind a place lead back, or the node end with another edge.
    fn set_prev(&mut self, end: u32, side: usize, at: u32, prev: u32) {
        if at == END {
            self.nodes[end as usize].edges[side][1] = prev;
        } else {
            self.edges[at as usize].prev[side] = prev;
        }
    }
}

impl Network for Net {
    fn new() -> Net {
        Net::with_room(0, 0)
    }

    fn with_room(nodes: usize, edges: usize) -> Net {
        Net { nodes: Vec::with_capacity(nodes), edges: Vec::with_capacity(edges), vacant: END, edge_count: 0 }
    }

    fn add_node(&mut self, value: u64) {
        self.nodes.push(Node { value, edges: [[END, END]; 2] });
    }

    fn add_edge(&mut self, from: u32, to: u32, value: u64) -> u32 {
        let ends = [from, to];
        let prev = [self.nodes[from as usize].edges[0][1], self.nodes[to as usize].edges[1][1]];
        let edge = Edge { value, ends, next: [END, END], prev };
        let mut at = self.vacant;
        if at == END {
            at = self.edges.len() as u32;
            self.edges.push(edge);
        } else {
            self.vacant = self.edges[at as usize].next[0];
            self.edges[at as usize] = edge;
        }
        for side in 0..2 {
            self.set_next(ends[side], side, prev[side], at);
            self.nodes[ends[side] as usize].edges[side][1] = at;
        }
        self.edge_count += 1;
        at
    }

    fn remove_edge(&mut self, edge: u32) -> u64 {
        for side in 0..2 {
            let Edge { ends, next, prev, .. } = self.edges[edge as usize];
            self.set_next(ends[side], side, prev[side], next[side]);
            self.set_prev(ends[side], side, next[side], prev[side]);
        }
        self.edges[edge as usize].next[0] = self.vacant;
        self.vacant = edge;
        self.edge_count -= 1;
        self.edges[edge as usize].value
    }

    fn ends(&self, edge: u32) -> [u32; 2] {
        self.edges[edge as usize].ends
    }

    fn far_ends(&self, from: u32) -> impl Iterator<Item = u32> {
        along(self.nodes[from as usize].edges[0][0], |edge| {
            let edge = self.edges.get(edge as usize)?;
            Some((edge.ends[1], edge.next[0]))
        })
    }

    fn value(&self, node: u32) -> u64 {
        self.nodes[node as usize].value
    }

    fn node_count(&self) -> usize {
        self.nodes.len()
    }

    fn edge_count(&self) -> u64 {
        self.edge_count
    }
}

pub fn workload(operation: Operation, n: u64, rounds: u64) -> u64 {
    workload_of::<Net>(operation, n, rounds)
}
