//! `graph` and `copy` are a Graph. Its model is a vector of nodes and one of edges, in the order in which they were added.

use slotmap_proved::errors::ReserveError;
use slotmap_proved::graph::{EdgeError, EdgeKey, Graph, OrderError};
use slotmap_proved::{DefaultKey, Global, NodeKey};
use super::common::keys::{parts, Issued};
use super::common::random::Random;
use super::common::seeds::each_seed;
use super::common::{take_first, take_last};

const SEEDS: u64 = 20;
const CALLS: usize = 10_000;

/// An edge: its key, the nodes where it begins and ends, and its value.
pub type EdgeOf = (EdgeKey, NodeKey, NodeKey, u64);

/// What a graph has.
#[derive(Clone, Default)]
pub struct Model {
    pub nodes: Vec<(NodeKey, u64)>,
    pub edges: Vec<EdgeOf>,
}

impl Model {
    pub fn has_node(&self, node: NodeKey) -> bool {
        self.nodes.iter().any(|other| other.0 == node)
    }

    pub fn edges_from(&self, node: NodeKey) -> Vec<EdgeOf> {
        self.edges.iter().filter(|edge| edge.1 == node).copied().collect()
    }

    pub fn edges_to(&self, node: NodeKey) -> Vec<EdgeOf> {
        self.edges.iter().filter(|edge| edge.2 == node).copied().collect()
    }

    /// The nodes by ascending index.
    pub fn nodes_by_index(&self) -> Vec<(NodeKey, u64)> {
        let mut nodes = self.nodes.clone();
        nodes.sort_by_key(|node| parts(node.0).0);
        nodes
    }

    fn edges_by_index(&self) -> Vec<EdgeOf> {
        let mut edges = self.edges.clone();
        edges.sort_by_key(|edge| parts(edge.0).0);
        edges
    }

    /// The nodes that are reachable from one, breadth first.
    pub fn reachable(&self, from: NodeKey) -> Vec<NodeKey> {
        let mut found: Vec<NodeKey> = self.has_node(from).then_some(from).into_iter().collect();
        let mut at = 0;
        while at < found.len() {
            for edge in self.edges_from(found[at]) {
                if !found.contains(&edge.2) {
                    found.push(edge.2);
                }
            }
            at += 1;
        }
        found
    }
}

pub struct Beside<'a> {
    pub random: &'a mut Random,
    pub graph: Graph<NodeKey, u64, u64>,
    pub model: Model,
    nodes: Issued<NodeKey>,
    edges: Issued<EdgeKey>,
}

impl<'a> Beside<'a> {
    pub fn new(random: &'a mut Random) -> Self {
        let graph = Graph::new(Global).expect("memory");
        Beside { random, graph, model: Model::default(), nodes: Issued::new(), edges: Issued::new() }
    }

    pub fn node(&mut self) -> NodeKey {
        let live: Vec<NodeKey> = self.model.nodes.iter().map(|node| node.0).collect();
        self.nodes.pick(self.random, &live)
    }

    pub fn edge(&mut self) -> EdgeKey {
        let live: Vec<EdgeKey> = self.model.edges.iter().map(|edge| edge.0).collect();
        self.edges.pick(self.random, &live)
    }

    pub fn add_node(&mut self) {
        let value = self.random.draw() % 100;
        let node = self.graph.add_node(value).ok().expect("memory");
        self.nodes.note(node);
        self.model.nodes.push((node, value));
    }

    pub fn add_edge(&mut self) {
        let (from, to, value) = (self.node(), self.node(), self.random.draw() % 100);
        let exist = self.model.has_node(from) && self.model.has_node(to);
        match self.graph.add_edge(from, to, value) {
            Ok(edge) if exist => {
                self.edges.note(edge);
                self.model.edges.push((edge, from, to, value));
            }
            Err(EdgeError::Gone(back)) if !exist => assert_eq!(back, value),
            other => panic!("{other:?}"),
        }
    }

    fn remove_edge(&mut self) {
        let edge = self.edge();
        let place = self.model.edges.iter().position(|other| other.0 == edge);
        assert_eq!(self.graph.remove_edge(edge), place.map(|at| self.model.edges.remove(at).3));
    }

    pub fn remove_node(&mut self) {
        let node = self.node();
        self.model.edges.retain(|edge| edge.1 != node && edge.2 != node);
        if self.random.one_of(3) {
            self.graph.remove_edges_of(node);
            return;
        }
        let place = self.model.nodes.iter().position(|other| other.0 == node);
        assert_eq!(self.graph.remove_node(node), place.map(|at| self.model.nodes.remove(at).1));
    }

    fn look_at_node(&mut self) {
        let (node, other) = (self.node(), self.node());
        let value = self.model.nodes.iter().find(|known| known.0 == node).map(|known| known.1);
        let (out, into) = (self.model.edges_from(node), self.model.edges_to(node));
        let graph = &self.graph;
        assert_eq!((graph.contains_node(node), graph.node(node).copied()), (value.is_some(), value));
        if let Some(value) = value {
            assert_eq!(graph[node], value);
        }
        assert_eq!((graph.out_degree(node), graph.in_degree(node)), (out.len(), into.len()));
        assert!(graph.neighbours_from(node).eq(out.iter().map(|edge| edge.2)));
        assert!(graph.neighbours_to(node).eq(into.iter().map(|edge| edge.1)));
        assert!(graph.edge_references_from(node).eq(out.iter().map(|edge| (edge.0, edge.1, edge.2, &edge.3))));
        assert!(graph.edge_references_to(node).eq(into.iter().map(|edge| (edge.0, edge.1, edge.2, &edge.3))));
        assert_eq!(graph.edge_references_from(node).len(), out.len());
        assert!(graph.neighbours(Global, node).expect("memory").iter().copied().eq(out.iter().map(|edge| edge.2)));
        assert_eq!(graph.find_edge(node, other), out.iter().find(|edge| edge.2 == other).map(|edge| edge.0));
        assert_eq!(graph.reachable(Global, node).expect("memory").as_slice(), self.model.reachable(node));
    }

    /// Goes along the edges at a node, from both ends by turns, and by steps.
    fn walk_at_node(&mut self) {
        let node = self.node();
        let sides = [(self.graph.edges_from(node), self.model.edges_from(node)), (self.graph.edges_to(node), self.model.edges_to(node))];
        for (mut iter, edges) in sides {
            let mut left = edges.as_slice();
            loop {
                assert_eq!((iter.len(), iter.size_hint()), (left.len(), (left.len(), Some(left.len()))));
                let (edge, wanted) = match self.random.one_of(2) {
                    true => (iter.next(), take_first(&mut left)),
                    false => (iter.next_back(), take_last(&mut left)),
                };
                assert_eq!(edge, wanted.map(|edge| edge.0));
                if wanted.is_none() {
                    break;
                }
            }
        }
        let (mut at, mut steps) = (self.graph.first_from(node), Vec::new());
        while let Some(edge) = at {
            steps.push(edge);
            at = self.graph.next_from(edge);
        }
        assert!(steps.iter().eq(self.model.edges_from(node).iter().map(|edge| &edge.0)));
        (at, steps) = (self.graph.first_to(node), Vec::new());
        while let Some(edge) = at {
            steps.push(edge);
            at = self.graph.next_to(edge);
        }
        assert!(steps.iter().eq(self.model.edges_to(node).iter().map(|edge| &edge.0)));
    }

    fn look_at_edge(&mut self) {
        let edge = self.edge();
        let known = self.model.edges.iter().find(|known| known.0 == edge);
        assert_eq!(self.graph.contains_edge(edge), known.is_some());
        assert_eq!(self.graph.edge(edge), known.map(|known| &known.3));
        assert_eq!(self.graph.edge_ends(edge), known.map(|known| (known.1, known.2)));
        if known.is_none() {
            assert_eq!((self.graph.next_from(edge), self.graph.next_to(edge)), (None, None));
        }
    }

    fn write(&mut self) {
        let (node, edge, value) = (self.node(), self.edge(), self.random.draw() % 100);
        let known = self.model.nodes.iter_mut().find(|known| known.0 == node).map(|known| &mut known.1);
        let lent = self.graph.node_mut(node);
        assert_eq!(lent, known);
        if let (Some(lent), Some(known)) = (lent, known) {
            (*lent, *known) = (value, value);
        }
        let known = self.model.edges.iter_mut().find(|known| known.0 == edge).map(|known| &mut known.3);
        let lent = self.graph.edge_mut(edge);
        assert_eq!(lent, known);
        if let (Some(lent), Some(known)) = (lent, known) {
            (*lent, *known) = (value, value);
        }
    }

    fn look_at_all(&mut self) {
        let (nodes, edges) = (self.model.nodes_by_index(), self.model.edges_by_index());
        let graph = &self.graph;
        assert_eq!((graph.node_count(), graph.edge_count(), graph.is_empty()), (nodes.len(), edges.len(), nodes.is_empty()));
        assert!(graph.node_capacity() >= nodes.len() && graph.edge_capacity() >= edges.len());
        assert!(graph.nodes().eq(nodes.iter().map(|node| node.0)));
        assert!(graph.edges().eq(edges.iter().map(|edge| edge.0)));
        assert!(graph.node_references().eq(nodes.iter().map(|node| (node.0, &node.1))));
        assert!(graph.edge_references().eq(edges.iter().map(|edge| (edge.0, edge.1, edge.2, &edge.3))));
        assert_eq!((graph.nodes().len(), graph.edge_references().len()), (nodes.len(), edges.len()));
        let steps = std::iter::successors(graph.next_node(None), |node| graph.next_node(Some(*node)));
        assert!(steps.eq(nodes.iter().map(|node| node.0)));
        let steps = std::iter::successors(graph.next_edge(None), |edge| graph.next_edge(Some(*edge)));
        assert!(steps.eq(edges.iter().map(|edge| edge.0)));
        let (node, edge) = (self.node(), self.edge());
        let after = nodes.iter().find(|known| parts(known.0).0 > parts(node).0).map(|known| known.0);
        assert_eq!(self.graph.next_node(Some(node)), after);
        let after = edges.iter().find(|known| parts(known.0).0 > parts(edge).0).map(|known| known.0);
        assert_eq!(self.graph.next_edge(Some(edge)), after);
    }

    /// An order has each node once, and each edge goes forward. If there is none, the error's edge is on a cycle.
    fn order(&mut self) {
        let model = &self.model;
        match self.graph.topological_order(Global) {
            Ok(order) => {
                assert_eq!(order.len(), model.nodes.len());
                let place = |node: NodeKey| order.iter().position(|other| *other == node).expect("each node is there");
                assert!(model.nodes.iter().all(|node| place(node.0) < order.len()));
                assert!(model.edges.iter().all(|edge| place(edge.1) < place(edge.2)));
            }
            Err(error @ OrderError::Cycle(edge)) => {
                assert_eq!(error.edge(), Some(edge));
                let known = model.edges.iter().find(|known| known.0 == edge).expect("an edge of the graph");
                assert!(model.reachable(known.2).contains(&known.1), "no path leads back");
            }
            Err(OrderError::Memory) => panic!("memory"),
        }
    }

    /// A copy has the same nodes and edges, and returns the same new keys. The test goes on with the copy.
    fn copy(&mut self) {
        let mut copy = self.graph.clone().expect("memory");
        let node = copy.add_node(7).ok().expect("memory");
        assert_eq!(self.graph.add_node(7).ok(), Some(node));
        assert_eq!(format!("{copy:?}"), format!("{:?}", self.graph));
        self.nodes.note(node);
        self.model.nodes.push((node, 7));
        self.graph = copy;
    }

    fn room(&mut self) {
        let additional = self.random.below(50);
        match self.random.below(5) {
            0 => {
                assert!(self.graph.reserve_nodes(additional).is_ok());
                assert!(self.graph.node_capacity() >= self.model.nodes.len() + additional);
            }
            1 => {
                assert!(self.graph.reserve_edges(additional).is_ok());
                assert!(self.graph.edge_capacity() >= self.model.edges.len() + additional);
            }
            2 => assert!(matches!(self.graph.reserve_nodes(u32::MAX as usize), Err(ReserveError::TooGreat))),
            3 => assert!(matches!(self.graph.reserve_edges(u32::MAX as usize), Err(ReserveError::TooGreat))),
            _ => {
                self.graph.clear();
                self.model = Model::default();
            }
        }
    }

    fn call(&mut self) {
        match self.random.below(64) {
            0..=7 => self.add_node(),
            8..=27 => self.add_edge(),
            28..=33 => self.remove_edge(),
            34..=41 => self.remove_node(),
            42..=45 => self.look_at_node(),
            46..=49 => self.walk_at_node(),
            50..=53 => self.look_at_edge(),
            54 | 55 => self.write(),
            56..=58 => self.look_at_all(),
            59..=61 => self.order(),
            62 => self.copy(),
            _ => self.room(),
        }
    }
}

#[test]
fn beside_vectors() {
    each_seed("Graph", SEEDS, |random| {
        let mut beside = Beside::new(random);
        for _ in 0..CALLS {
            beside.call();
        }
        beside.look_at_all();
    });
}

#[test]
fn made_with_room() {
    let graph: Graph<NodeKey, u64, u64> = Graph::with_capacity(Global, 3, 5).expect("memory");
    assert!(graph.is_empty() && graph.node_capacity() >= 3 && graph.edge_capacity() >= 5);
    let graph: Graph<DefaultKey, u64, u64> = Graph::with_capacity_and_key(Global, 5, 3).expect("memory");
    assert!(graph.is_empty() && graph.node_capacity() >= 5 && graph.edge_capacity() >= 3);
    let graph: Graph<DefaultKey, u64, u64> = Graph::with_key(Global).expect("memory");
    assert!(graph.is_empty());
    for (nodes, edges) in [(u32::MAX as usize, 0), (0, u32::MAX as usize)] {
        assert!(matches!(Graph::<NodeKey, (), ()>::with_capacity(Global, nodes, edges), Err(ReserveError::TooGreat)));
    }
}

/// What is printed: the nodes and the edges under their keys.
#[test]
fn shown() {
    let mut graph: Graph<NodeKey, &str, u64> = Graph::new(Global).expect("memory");
    let (a, b) = (graph.add_node("a").ok().expect("memory"), graph.add_node("b").ok().expect("memory"));
    let edge = graph.add_edge(a, b, 7).ok().expect("memory");
    let text = format!("{graph:?}");
    let keys = [format!("{a:?}: \"a\""), format!("{b:?}: \"b\""), format!("{edge:?}: Edge")];
    for part in keys.iter().map(String::as_str).chain(["1v1), to: ", "2v1), value: 7"]) {
        assert!(text.contains(part), "{part} in {text}");
    }
}
