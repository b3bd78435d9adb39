//! Shortest paths, a depth first order and the strongly connected components of the graph of `graph.rs`, whose edges have their costs as
//! values: with std's heap, and with stacks in vectors. The operations are those of port/paths.template.

use crate::graph::{END, Net, Network};
use crate::operations::Paths as Operation;
use crate::shuffler::Shuffler;
use crate::value::Sum;
use std::cmp::Reverse;
use std::collections::BinaryHeap;

const OUT: usize = 0;
const IN: usize = 1;

fn filled(n: u64) -> Net {
    let (mut net, mut shuffler) = (Net::new(), Shuffler::new());
    for value in 0..n {
        net.add_node(value);
    }
    for from in 0..n as u32 {
        for _ in 0..4 {
            let to = shuffler.below(n as usize) as u32;
            net.add_edge(from, to, shuffler.below(1000) as u64);
        }
    }
    net
}

/// The sum of the distances of all nodes that are reached from the first one, by Dijkstra's way.
fn shortest(net: &Net) -> u64 {
    let mut distances: Vec<Option<u64>> = vec![None; net.nodes.len()];
    let mut waiting = BinaryHeap::from([Reverse((0u64, 0u32))]);
    let mut sum = Sum::default();
    while let Some(Reverse((distance, node))) = waiting.pop() {
        if distances[node as usize].is_some() {
            continue;
        }
        distances[node as usize] = Some(distance);
        sum.add(distance);
        let mut at = net.nodes[node as usize].edges[OUT];
        while let Some(edge) = net.edges.get(at as usize) {
            if distances[edge.ends[1] as usize].is_none() {
                waiting.push(Reverse((distance + edge.value, edge.ends[1])));
            }
            at = edge.next[OUT];
        }
    }
    sum.0
}

/// Pushes the nodes that are found from a node along the edges of a side, each behind those that it leads to.
fn leave_from(net: &Net, start: u32, side: usize, found: &mut [bool], left: &mut Vec<u32>) {
    if std::mem::replace(&mut found[start as usize], true) {
        return;
    }
    let mut open = vec![(start, net.nodes[start as usize].edges[side])];
    while let Some((node, at)) = open.last_mut() {
        if *at == END {
            left.push(*node);
            open.pop();
            continue;
        }
        let edge = &net.edges[*at as usize];
        *at = edge.next[side];
        let to = edge.ends[1 - side];
        if !std::mem::replace(&mut found[to as usize], true) {
            open.push((to, net.nodes[to as usize].edges[side]));
        }
    }
}

fn post_order(net: &Net) -> Vec<u32> {
    let (mut found, mut left) = (vec![false; net.nodes.len()], Vec::new());
    for node in 0..net.nodes.len() as u32 {
        leave_from(net, node, OUT, &mut found, &mut left);
    }
    left
}

/// The components, by Kosaraju's way.
fn components(net: &Net) -> Vec<Vec<u32>> {
    let mut found = vec![false; net.nodes.len()];
    let mut components = Vec::new();
    for node in post_order(net).into_iter().rev() {
        if !found[node as usize] {
            let mut component = Vec::new();
            leave_from(net, node, IN, &mut found, &mut component);
            components.push(component);
        }
    }
    components
}

fn round_of(net: &Net, operation: Operation) -> u64 {
    match operation {
        Operation::Shortest => shortest(net),
        Operation::PostOrder => post_order(net).into_iter().map(|node| net.value(node)).sum(),
        Operation::Components => components(net).iter().map(|it| it.len() as u64 * it.len() as u64).sum(),
    }
}

pub fn workload(operation: Operation, n: u64, rounds: u64) -> u64 {
    let net = filled(n);
    let mut sum = Sum::default();
    for _ in 0..rounds {
        sum.add(round_of(&net, operation));
    }
    sum.0
}
