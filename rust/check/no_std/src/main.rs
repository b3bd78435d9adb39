//! A program without std, over the crate without its feature `std`: it ends with status 0, or tells where a check failed.
#![no_std]
#![no_main]

extern crate alloc;

mod system;

use alloc::vec::Vec;
use slotmap_proved::errors::{InsertError, PutError};
use slotmap_proved::graph::{EdgeError, Graph};
use slotmap_proved::{new_key_type, DenseSlotMap, Global, HopSlotMap, Key, NodeKey, SecondaryMap, SlotMap};

new_key_type! {
    /// A key of one's own: the macro needs no std either.
    struct OwnKey;
}

/// How many calls of a map there are.
const CALLS: u64 = 2000;

/// Numbers that look random.
struct Random(u64);

impl Random {
    fn below(&mut self, end: usize) -> usize {
        self.0 = self.0.wrapping_mul(6364136223846793005).wrapping_add(1442695040888963407);
        (self.0 >> 33) as usize % end
    }
}

/// Random calls of a map, beside a vector with the pairs that it must have.
macro_rules! check_map {
    ($map:ident, $random:ident) => {
        let (mut map, mut pairs, mut removed): (_, Vec<(OwnKey, u64)>, Vec<OwnKey>) = ($map::with_key(), Vec::new(), Vec::new());
        for value in 0..CALLS {
            if !pairs.is_empty() && $random.below(3) == 0 {
                let (key, value) = pairs.swap_remove($random.below(pairs.len()));
                assert!(map.remove(key) == Some(value) && map.remove(key).is_none());
                removed.push(key);
            } else {
                pairs.push((map.insert(value), value));
            }
        }
        assert!(map.len() == pairs.len() && map.iter().count() == pairs.len());
        assert!(pairs.iter().all(|pair| map.get(pair.0) == Some(&pair.1) && map[pair.0] == pair.1));
        assert!(removed.iter().all(|key| !map.contains_key(*key)));
        map.values_mut().for_each(|value| *value += 1);
        let two = map.get_disjoint_mut([pairs[0].0, pairs[1].0]).map(|found| found.map(|value| *value));
        assert!(two == Some([pairs[0].1 + 1, pairs[1].1 + 1]));
        assert!(map.try_reserve(usize::MAX).is_err());
        check_refused!(map);
        drop(map.clone());
        assert!(map.drain().map(|pair| pair.1).sum::<u64>() == pairs.iter().map(|pair| pair.1 + 1).sum::<u64>());
    };
}

/// Without memory a full map hands the value back, and is as before.
macro_rules! check_refused {
    ($map:ident) => {
        while $map.len() < $map.capacity() {
            $map.insert(0);
        }
        let len = $map.len();
        system::refuse(true);
        assert!(matches!($map.try_insert(7), Err(InsertError::Memory(7))) && $map.try_clone().is_err());
        system::refuse(false);
        assert!($map.len() == len && $map.try_insert(0).is_ok());
    };
}

/// Values beside those of a map.
fn check_secondary(random: &mut Random) {
    let (mut names, mut side) = (SlotMap::new(), SecondaryMap::new());
    let keys: Vec<_> = (0..100).map(|name| names.insert(name)).collect();
    let mut expected = [None; 100];
    for value in 0..CALLS {
        let at = random.below(keys.len());
        let put = (value % 3 != 0).then_some(value);
        let before = match put {
            Some(value) => side.insert(keys[at], value),
            None => side.remove(keys[at]),
        };
        assert!(before == expected[at]);
        expected[at] = put;
    }
    assert!(keys.iter().zip(&expected).all(|(key, value)| side.get(*key) == value.as_ref()));
    assert!(side.len() == expected.iter().flatten().count());
    names.remove(keys[0]);
    let later = names.insert(0);
    assert!(!side.contains_key(later) && side.insert(later, 5).is_none() && !side.contains_key(keys[0]));
    let mut empty: SecondaryMap<_, u64> = SecondaryMap::new();
    system::refuse(true);
    assert!(matches!(empty.try_insert(later, 5), Err(PutError(5))));
    system::refuse(false);
}

/// A ring of nodes, with an edge from each to the next.
fn check_graph() {
    let Ok(mut graph) = Graph::new(Global) else { panic!() };
    let nodes: Vec<NodeKey> = (0..50).filter_map(|node| graph.add_node(node).ok()).collect();
    for at in 0..nodes.len() {
        assert!(graph.add_edge(nodes[at], nodes[(at + 1) % nodes.len()], at).is_ok());
    }
    assert!(graph.node_count() == 50 && graph.edge_count() == 50);
    assert!(graph.topological_order(Global).is_err() && reached(&graph, nodes[0]) == 50);
    assert!(graph.remove_node(nodes[10]) == Some(10));
    assert!(graph.edge_count() == 48 && reached(&graph, nodes[0]) == 10 && reached(&graph, nodes[11]) == 49);
    assert!(matches!(graph.topological_order(Global), Ok(order) if order.first() == Some(&nodes[11]) && order.len() == 49));
    assert!(matches!(graph.add_edge(nodes[0], nodes[10], 7), Err(EdgeError::Gone(7))));
}

/// How many nodes there are on ways from a node, itself among them.
fn reached(graph: &Graph<NodeKey, i32, usize>, from: NodeKey) -> usize {
    graph.reachable(Global, from).map_or(0, |found| found.len())
}

/// The program. Once all is dropped, no memory is held.
#[no_mangle]
pub extern "C" fn main() -> i32 {
    {
        let mut random = Random(1);
        check_map!(SlotMap, random);
        check_map!(DenseSlotMap, random);
        check_map!(HopSlotMap, random);
        check_secondary(&mut random);
        check_graph();
        assert!(OwnKey::null().is_null());
    }
    assert!(system::held() == 0 && system::asked() > 0);
    0
}
