//! No call calls itself: large and deep structures are walked, copied and dropped in a small stack.

use super::common::keys::key_of;
use slotmap_proved::entities::{First, World};
use slotmap_proved::fallible;
use slotmap_proved::graph::Graph;
use slotmap_proved::list::{Cursor, StableList};
use slotmap_proved::lists::StableLists;
use slotmap_proved::paths::{kosaraju_scc, path_to, post_order, shortest_paths};
use slotmap_proved::scene::world::Offset;
use slotmap_proved::scene::Scene;
use slotmap_proved::scheduler::Scheduler;
use slotmap_proved::{DefaultKey, DenseSlotMap, Global, HopSlotMap, Key, NodeKey, SecondaryMap, SlotMap, SparseSecondaryMap};

const COUNT: u64 = 100_000;

/// Runs a test in a thread with a stack of 64 KiB.
fn in_small_stack(test: fn()) {
    let thread = std::thread::Builder::new().stack_size(64 * 1024).spawn(test).expect("a thread");
    thread.join().expect("the stack is large enough");
}

macro_rules! primary {
    ($map:ident) => {
        in_small_stack(|| {
            let mut map: $map<DefaultKey, Box<u64>> = $map::new();
            (0..COUNT).for_each(|value| assert!(!map.insert(Box::new(value)).is_null()));
            map.retain(|_, value| **value % 2 == 0);
            let mut copy = map.clone();
            assert_eq!(copy.iter().count(), COUNT as usize / 2);
            copy.clear();
            drop(copy);
            drop(map);
        })
    };
}

#[test]
fn maps() {
    primary!(SlotMap);
    primary!(DenseSlotMap);
    primary!(HopSlotMap);
    in_small_stack(|| {
        let pairs = || (1..COUNT as u32).map(|index| (key_of::<DefaultKey>(index, 1), Box::new(index)));
        let (map, sparse): (SecondaryMap<_, _>, SparseSecondaryMap<_, _>) = (pairs().collect(), pairs().collect());
        assert_eq!((map.clone().len(), sparse.clone().len()), (COUNT as usize - 1, COUNT as usize - 1));
    });
}

#[test]
fn lists() {
    in_small_stack(|| {
        let mut list: StableList<Cursor, Box<u64>> = StableList::new(Global).expect("memory");
        (0..COUNT).for_each(|value| assert!(list.push_back(Box::new(value)).is_ok()));
        assert_eq!(list.clone().expect("memory").into_iter().rev().count(), COUNT as usize);
        drop(list);
        let mut lists: StableLists<Cursor, Box<u64>> = StableLists::new(Global, 1000).expect("memory");
        (0..COUNT).for_each(|value| assert!(lists.push_back(value as usize % 1000, Box::new(value)).is_ok()));
        (1..1000).for_each(|list| assert!(lists.append(0, list)));
    });
}

/// A long path, which closes to a circle in the end.
#[test]
fn graph() {
    in_small_stack(|| {
        let mut graph: Graph<NodeKey, u64, u64> = Graph::new(Global).expect("memory");
        let nodes: Vec<NodeKey> = (0..COUNT).map(|value| graph.add_node(value).ok().expect("memory")).collect();
        let mut costs = fallible::SecondaryMap::new(Global).expect("memory");
        for two in nodes.windows(2) {
            let edge = graph.add_edge(two[0], two[1], 1).ok().expect("memory");
            assert!(costs.insert(edge, 1).is_ok());
        }
        let last = nodes[nodes.len() - 1];
        assert_eq!(graph.topological_order(Global).expect("an order").as_slice(), nodes);
        assert_eq!(post_order(Global, &graph).expect("memory").first(), Some(&last));
        let paths = shortest_paths(Global, &graph, nodes[0], &costs).expect("memory");
        assert_eq!(path_to(Global, &graph, &paths, last).expect("memory").map(|path| path.len()), Some(nodes.len() - 1));
        assert!(graph.add_edge(last, nodes[0], 1).is_ok());
        assert_eq!(kosaraju_scc(Global, &graph).expect("memory").len(), 1);
        assert!(graph.topological_order(Global).is_err());
        assert_eq!(graph.clone().expect("memory").reachable(Global, last).expect("memory").len(), nodes.len());
    });
}

/// A tree as deep as it is large.
#[test]
fn scene() {
    in_small_stack(|| {
        let mut scene: Scene<DefaultKey, Offset> = Scene::new(Global).expect("memory");
        let root = scene.add_root(Offset { x: 1, y: 0 }).ok().expect("memory");
        let mut node = root;
        for _ in 1..COUNT {
            node = scene.add_child(node, Offset { x: 1, y: 0 }).ok().expect("memory");
        }
        assert_eq!((scene.depth(node), scene.world(node)), (Some(COUNT as usize - 1), Some(Offset { x: COUNT as i32, y: 0 })));
        assert_eq!((scene.keys_below(root).count(), scene.walk(root).count()), (COUNT as usize - 1, 2 * COUNT as usize));
        assert_eq!(scene.world_transforms().expect("memory").len(), COUNT as usize);
        assert!(format!("{scene:?}").len() > COUNT as usize);
        let mut copy = scene.clone().expect("memory");
        copy.clear();
        assert!(scene.remove(root).is_some() && scene.is_empty());
    });
}

#[test]
fn world_and_scheduler() {
    in_small_stack(|| {
        type Table = fallible::SecondaryMap<DefaultKey, Box<u64>>;
        let mut world: World<DefaultKey, Box<u64>, (Table, ())> = World::new(Global).expect("memory");
        (0..COUNT).for_each(|value| assert!(world.spawn_with::<First>(Box::new(value), Box::new(value)).is_ok()));
        world.clone().expect("memory").clear();
        let mut scheduler: Scheduler<DefaultKey, Box<u64>> = Scheduler::new(Global).expect("memory");
        (0..COUNT).for_each(|time| assert!(scheduler.schedule(COUNT - time, Box::new(time)).is_ok()));
        assert_eq!(scheduler.clone().expect("memory").into_iter().count(), COUNT as usize);
    });
}
