//! Shortest paths, depth first search and components of graphs of numbers.

use super::random::Random;
use super::sums::{Report, Sum};
use slotmap_proved::fallible::SecondaryMap;
use slotmap_proved::graph::{EdgeKey, Graph};
use slotmap_proved::paths::{kosaraju_scc, path_to, post_order, post_order_from, shortest_paths, Costs, Paths};
use slotmap_proved::{Global, NodeKey};

type Numbers = Graph<NodeKey, u64, u64>;

/// Adds nodes of the numbers below `count`.
fn add_nodes(graph: &mut Numbers, count: u64) -> Vec<NodeKey> {
    (0..count).map(|number| graph.add_node(number).expect("memory")).collect()
}

/// Adds edges between nodes by chance, with costs by chance.
fn add_roads(graph: &mut Numbers, costs: &mut Costs, nodes: &[NodeKey], random: &mut Random, count: u64) {
    for _ in 0..count {
        let (from, to) = (random.pick(nodes), random.pick(nodes));
        let cost = random.draw() % 1000;
        let edge = graph.add_edge(from, to, cost).expect("memory");
        costs.insert(edge, cost).expect("memory");
    }
}

/// The distance of each node. Where it wasn't found, it is the greatest number.
fn sum_of_distances(paths: &Paths<NodeKey>, nodes: &[NodeKey]) -> Sum {
    nodes.iter().map(|node| paths.get(*node).map_or(u64::MAX, |reached| reached.distance)).collect()
}

/// What these edges cost in all. They have to lead from the start to the end, one after the other.
fn cost_along(graph: &Numbers, costs: &Costs, edges: &[EdgeKey], start: NodeKey, end: NodeKey) -> u64 {
    let (mut at, mut cost) = (start, 0);
    for edge in edges {
        let (from, to) = graph.edge_ends(*edge).expect("an edge");
        assert_eq!(from, at);
        at = to;
        cost += costs[*edge];
    }
    assert_eq!(at, end);
    cost
}

/// Finds the paths from the first node: the distances, and what the edges of the paths cost.
fn find(report: &mut Report, graph: &Numbers, costs: &Costs, nodes: &[NodeKey], what: &str) {
    let paths = shortest_paths(Global, graph, nodes[0], costs).expect("memory, and no cost too great");
    report.tell(what, sum_of_distances(&paths, nodes));
    let cost_to = |node| match path_to(Global, graph, &paths, node).expect("memory") {
        Some(edges) => cost_along(graph, costs, &edges, nodes[0], node),
        None => u64::MAX,
    };
    report.tell_all("along routes", nodes.iter().map(|node| cost_to(*node)));
}

/// Shortest paths, by all edges and then by those of odd costs.
pub fn run_routes(size: u64) -> Report {
    let mut report = Report::of("routes");
    let (mut graph, mut costs) = (Graph::new(Global).expect("memory"), SecondaryMap::new(Global).expect("memory"));
    let nodes = add_nodes(&mut graph, size);
    add_roads(&mut graph, &mut costs, &nodes, &mut Random::new(7), size * 2);
    find(&mut report, &graph, &costs, &nodes, "distances");
    for edge in graph.edges() {
        if costs[edge] % 2 == 0 {
            costs.remove(edge);
        }
    }
    find(&mut report, &graph, &costs, &nodes, "by odd costs");
    report
}

/// For each node the least number of its component. No node is in two of them.
fn sum_of_leasts(graph: &Numbers, nodes: &[NodeKey], components: impl Iterator<Item = impl AsRef<[NodeKey]>>) -> Sum {
    let mut leasts = SecondaryMap::new(Global).expect("memory");
    for component in components {
        let least = component.as_ref().iter().map(|node| graph[*node]).min().expect("a node");
        for node in component.as_ref() {
            assert!(matches!(leasts.insert(*node, least), Ok(None)));
        }
    }
    let mut sum = Sum::new();
    nodes.iter().for_each(|node| sum.add_found(leasts.get(*node)));
    sum
}

/// Depth first search, and components.
pub fn run_searches(size: u64) -> Report {
    let mut report = Report::of("searches");
    let (mut graph, mut random) = (Graph::new(Global).expect("memory"), Random::new(8));
    let nodes = add_nodes(&mut graph, size);
    for _ in 0..size * 3 / 2 {
        let (from, to) = (random.pick(&nodes), random.pick(&nodes));
        graph.add_edge(from, to, 0).expect("memory");
    }
    let order = post_order(Global, &graph).expect("memory");
    report.tell_all("left", order.iter().map(|node| graph[*node]));
    let order = post_order_from(Global, &graph, nodes[nodes.len() - 1]).expect("memory");
    report.tell_all("left from the last", order.iter().map(|node| graph[*node]));
    let components = kosaraju_scc(Global, &graph).expect("memory");
    report.tell("components", sum_of_leasts(&graph, &nodes, components.iter().map(|component| component.as_slice())));
    report.tell_all("number", [components.len() as u64]);
    report
}
