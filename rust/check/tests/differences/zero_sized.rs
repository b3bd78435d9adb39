//! Values without a size: a vector of them has room without memory, and their places are told apart all the same.

use super::common::keys::key_of;
use slotmap_proved::entities::{First, World};
use slotmap_proved::fallible;
use slotmap_proved::graph::Graph;
use slotmap_proved::list::{Cursor, StableList};
use slotmap_proved::lists::StableLists;
use slotmap_proved::scene::Scene;
use slotmap_proved::scheduler::Scheduler;
use slotmap_proved::{DefaultKey, DenseSlotMap, Global, HopSlotMap, NodeKey, SecondaryMap, SlotMap, SparseSecondaryMap};

const COUNT: usize = 1000;

macro_rules! primary {
    ($($test:ident $map:ident;)*) => {
        $(#[test]
        fn $test() {
            let mut map: $map<DefaultKey, ()> = $map::new();
            let keys: Vec<DefaultKey> = (0..COUNT).map(|_| map.insert(())).collect();
            keys[..COUNT / 2].iter().for_each(|key| assert_eq!((map.remove(*key), map.remove(*key)), (Some(()), None)));
            assert_eq!((map.len(), map.iter().count(), map.iter_mut().count(), map.drain().count()), (500, 500, 500, 500));
            let keys: Vec<DefaultKey> = (0..COUNT).map(|_| map.insert(())).collect();
            assert!(map.get_disjoint_mut([keys[0], keys[1]]).is_some() && map.get_disjoint_mut([keys[0], keys[0]]).is_none());
            map.retain(|key, _| key == keys[7]);
            assert_eq!((map.len(), map.contains_key(keys[7]), map.clone().into_iter().count()), (1, true, 1));
            map.reserve(COUNT);
            assert!(map.capacity() >= COUNT + 1);
            let copy = $map::from_slots(map.to_slots().expect("memory")).expect("it is a list of slots");
            assert_eq!(copy.get(keys[7]), Some(&()));
            map.clear();
            assert!(map.is_empty());
        })*
    };
}

primary! {
    basic SlotMap;
    dense DenseSlotMap;
    hop HopSlotMap;
}

macro_rules! side {
    ($($test:ident $map:ident;)*) => {
        $(#[test]
        fn $test() {
            let mut map: $map<DefaultKey, ()> = $map::new();
            (1..=COUNT as u32).for_each(|index| assert_eq!(map.insert(key_of(index, 1), ()), None));
            assert_eq!((map.insert(key_of(5, 1), ()), map.insert(key_of(5, 3), ()), map.remove(key_of(5, 1))), (Some(()), None, None));
            assert!(map.get_disjoint_mut([key_of(1, 1), key_of(2, 1)]).is_some());
            map.retain(|key, _| key != key_of(7, 1));
            assert_eq!((map.len(), map.iter().count(), map.clone() == map), (999, 999, true));
            assert_eq!((map.drain().count(), map.len()), (999, 0));
        })*
    };
}

side! {
    secondary SecondaryMap;
    sparse_secondary SparseSecondaryMap;
}

#[test]
fn list() {
    let mut list: StableList<Cursor, ()> = StableList::new(Global).expect("memory");
    let cursors: Vec<Cursor> = (0..COUNT).map(|_| list.push_back(()).ok().expect("memory")).collect();
    assert!(list.swap(cursors[0], cursors[9]) && list.move_to_front(cursors[5]));
    assert_eq!((list.first(), list.iter().count(), list.remove(cursors[5])), (Some(cursors[5]), COUNT, Some(())));
    assert_eq!((list.to_vec(Global).expect("memory").len(), list.drain().count(), list.len()), (COUNT - 1, COUNT - 1, 0));
    let mut lists: StableLists<Cursor, ()> = StableLists::new(Global, 2).expect("memory");
    (0..COUNT).for_each(|number| assert!(lists.push_back(number % 2, ()).is_ok()));
    assert!(lists.append(0, 1));
    assert_eq!((lists.list_len(0), lists.list_len(1)), (COUNT, 0));
}

#[test]
fn graph() {
    let mut graph: Graph<NodeKey, (), ()> = Graph::new(Global).expect("memory");
    let nodes: Vec<NodeKey> = (0..COUNT).map(|_| graph.add_node(()).ok().expect("memory")).collect();
    nodes.windows(2).for_each(|two| assert!(graph.add_edge(two[0], two[1], ()).is_ok()));
    assert_eq!((graph.edge_count(), graph.reachable(Global, nodes[0]).expect("memory").len()), (COUNT - 1, COUNT));
    assert_eq!((graph.remove_node(nodes[5]), graph.edge_count()), (Some(()), COUNT - 3));
}

#[test]
fn scene_world_scheduler() {
    let mut scene: Scene<DefaultKey, ()> = Scene::new(Global).expect("memory");
    let root = scene.add_root(()).ok().expect("memory");
    (1..COUNT).for_each(|_| assert!(scene.add_child(root, ()).is_ok()));
    assert_eq!((scene.keys_below(root).count(), scene.remove(root), scene.len()), (COUNT - 1, Some(()), 0));
    let mut world: World<DefaultKey, (), (fallible::SecondaryMap<DefaultKey, ()>, ())> = World::new(Global).expect("memory");
    (0..COUNT).for_each(|_| assert!(world.spawn_with::<First>((), ()).is_ok()));
    assert_eq!((world.len(), world.with::<First>().count()), (COUNT, COUNT));
    let mut scheduler: Scheduler<DefaultKey, ()> = Scheduler::new(Global).expect("memory");
    (0..COUNT as u64).for_each(|time| assert!(scheduler.schedule(COUNT as u64 - time, ()).is_ok()));
    assert_eq!((scheduler.peek().map(|next| next.0), scheduler.drain().count()), (Some(1), COUNT));
}
