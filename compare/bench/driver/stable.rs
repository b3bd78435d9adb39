//! petgraph's `StableGraph` behind the calls of `graph.rs`. The crate is taken from Debian's package; none of its code is here.

use crate::graph::{END, Network, workload_of};
use crate::operations::Graph as Operation;
use crate::value::Sum;
use petgraph::Direction::Outgoing;
use petgraph::stable_graph::{EdgeIndex, NodeIndex, StableGraph};
use petgraph::visit::Bfs;

struct Net(StableGraph<u64, u64>);

fn node_of(node: u32) -> NodeIndex {
    NodeIndex::from(node)
}

fn edge_of(edge: u32) -> EdgeIndex {
    EdgeIndex::from(edge)
}

fn place_of(node: NodeIndex) -> u32 {
    node.index() as u32
}

impl Network for Net {
    fn new() -> Net {
        Net(StableGraph::new())
    }

    fn with_room(nodes: usize, edges: usize) -> Net {
        Net(StableGraph::with_capacity(nodes, edges))
    }

    fn add_node(&mut self, value: u64) {
        self.0.add_node(value);
    }

    fn add_edge(&mut self, from: u32, to: u32, value: u64) -> u32 {
        self.0.add_edge(node_of(from), node_of(to), value).index() as u32
    }

    fn remove_edge(&mut self, edge: u32) -> u64 {
        self.0.remove_edge(edge_of(edge)).unwrap_or(0)
    }

    fn ends(&self, edge: u32) -> [u32; 2] {
        let ends = self.0.edge_endpoints(edge_of(edge));
        ends.map_or([END; 2], |(from, to)| [place_of(from), place_of(to)])
    }

    fn far_ends(&self, from: u32) -> impl Iterator<Item = u32> {
        self.0.neighbors_directed(node_of(from), Outgoing).map(place_of)
    }

    fn value(&self, node: u32) -> u64 {
        self.0[node_of(node)]
    }

    fn node_count(&self) -> usize {
        self.0.node_count()
    }

    fn edge_count(&self) -> u64 {
        self.0.edge_count() as u64
    }

    fn search(&self, start: u32) -> u64 {
        let (mut found, mut sum) = (Bfs::new(&self.0, node_of(start)), Sum::default());
        while let Some(node) = found.next(&self.0) {
            sum.add(self.0[node]);
        }
        sum.0
    }
}

pub fn workload(operation: Operation, n: u64, rounds: u64) -> u64 {
    workload_of::<Net>(operation, n, rounds)
}
