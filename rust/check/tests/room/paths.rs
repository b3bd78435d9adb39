//! The searches of `paths`.

use super::graph::{full, State as Graph};
use super::table::{assert_all, done, table, Entry};
use slotmap_proved::fallible::SecondaryMap;
use slotmap_proved::paths::{self, Costs, Paths};
use slotmap_proved::{Global, NodeKey};

/// What the rows are made on: a graph, the costs of its edges, and the paths from its first node.
struct State {
    of: Graph,
    costs: Costs,
    paths: Paths<NodeKey>,
}

fn weighted(size: usize) -> State {
    let of = full(size);
    let mut costs = SecondaryMap::new(Global).expect("memory");
    of.edges.iter().enumerate().for_each(|(at, edge)| assert!(costs.insert(*edge, at as u64 * 7919 % 100).is_ok()));
    let paths = paths::shortest_paths(Global, &of.graph, of.nodes[0], &costs).expect("memory");
    State { of, costs, paths }
}

/// The last node is a path of some edges away.
pub fn all() -> Vec<Vec<Entry>> {
    vec![table("paths", rows![State:
        walk [weighted] shortest_paths asks up to 100 "what was found, and a queue"
            => |s, _| done(paths::shortest_paths(Global, &s.of.graph, s.of.nodes[0], &s.costs));
        walk [weighted] path_to asks up to 20 "the path"
            => |s, _| done(paths::path_to(Global, &s.of.graph, &s.paths, s.of.nodes[s.of.nodes.len() - 1]));
        walk [weighted] post_order asks up to 60 "the nodes, what was seen, and a stack" => |s, _| done(paths::post_order(Global, &s.of.graph));
        walk [weighted] post_order_from asks up to 60 "the nodes, what was seen, and a stack"
            => |s, _| done(paths::post_order_from(Global, &s.of.graph, s.of.nodes[0]));
        walk [weighted] kosaraju_scc asks up to 100 "the components, what was seen, and two stacks"
            => |s, _| done(paths::kosaraju_scc(Global, &s.of.graph));
    ])]
}

#[test]
fn searches() {
    assert_all(all());
}
