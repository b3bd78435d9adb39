//! A closure, a drop, a clone or an iterator panics in the middle of a call of a structure, at each moment in turn. Then all its parts agree
//! still, and it is used on.

#[path = "panics/fuse.rs"]
mod fuse;

use fuse::{at_each_tick, tick, ticking, Hooked};
use slotmap_proved::entities::{First, Second, World};
use slotmap_proved::fallible::{SecondaryMap, SparseSecondaryMap};
use slotmap_proved::graph::Graph;
use slotmap_proved::list::StableList;
use slotmap_proved::lists::StableLists;
use slotmap_proved::scene::Scene;
use slotmap_proved::scheduler::Scheduler;
use slotmap_proved::{DefaultKey, Global};
use std::collections::BTreeSet;

type Call<S> = (&'static str, fn(&mut S));

/// Makes each call with a panic at each of its ticks, and checks what is left.
fn try_all<S>(make: fn() -> S, calls: &[Call<S>], check: fn(S)) {
    for (name, call) in calls {
        let panics = at_each_tick(make, call, check);
        println!("{name}: {panics} panics");
        assert!(panics > 0, "{name}: nothing in it panics");
    }
}

type List = StableList<DefaultKey, Hooked>;

fn a_list() -> List {
    let mut list = List::with_key(Global).unwrap();
    let cursors: Vec<_> = (0..8).map(|number| list.push_back(Hooked(number)).ok().unwrap()).collect();
    list.remove(cursors[3]);
    list.move_to_front(cursors[5]);
    list
}

/// The list is the same from both ends and by steps, and takes further elements.
fn list_is_whole(mut list: List) {
    let forward: Vec<_> = list.iter().map(|(cursor, value)| (cursor, value.0)).collect();
    let mut backward: Vec<_> = list.iter().rev().map(|(cursor, value)| (cursor, value.0)).collect();
    backward.reverse();
    assert_eq!((forward.len(), &forward), (list.len(), &backward));
    assert_eq!((list.first(), list.last()), (forward.first().map(|it| it.0), forward.last().map(|it| it.0)));
    for (at, (cursor, number)) in forward.iter().enumerate() {
        assert!(list.contains(*cursor) && list.get(*cursor).map(|value| value.0) == Some(*number));
        assert_eq!(list.next(*cursor), forward.get(at + 1).map(|it| it.0));
        assert_eq!(list.prev(*cursor), at.checked_sub(1).map(|before| forward[before].0));
    }
    let last = list.push_back(Hooked(100)).ok().unwrap();
    let first = list.push_front(Hooked(101)).ok().unwrap();
    assert!(forward.iter().all(|it| it.0 != last && it.0 != first));
    assert_eq!(list.to_vec_of_numbers(), [&[101][..], &forward.iter().map(|it| it.1).collect::<Vec<_>>(), &[100]].concat());
    assert_eq!(list.drain().count(), forward.len() + 2);
    assert!(list.is_empty() && list.first().is_none());
}

trait Numbers {
    fn to_vec_of_numbers(&self) -> Vec<u64>;
}

impl Numbers for List {
    fn to_vec_of_numbers(&self) -> Vec<u64> {
        self.values().map(|value| value.0).collect()
    }
}

#[test]
fn list() {
    let calls: &[Call<List>] = &[
        ("remove", |list| drop(list.first().and_then(|cursor| list.remove(cursor)))),
        ("pop_front, pop_back", |list| drop((list.pop_front(), list.pop_back()))),
        ("retain", |list| {
            list.retain(|_, value| {
                tick();
                value.0 % 2 == 0
            })
        }),
        ("clear", List::clear),
        ("drain", |list| list.drain().for_each(drop)),
        ("drain, dropped early", |list| drop(list.drain().next())),
        ("clone", |list| drop(list.clone())),
        ("extend", |list| assert!(list.extend(ticking((0..9).map(Hooked))).is_ok())),
        ("append", |list| {
            let mut other = a_list();
            list.append(&mut other).unwrap();
            list_is_whole(other);
        }),
        ("insert beside nothing", |list| drop(list.insert_after(DefaultKey::default(), Hooked(9)))),
        ("into_iter", |list| std::mem::replace(list, List::with_key(Global).unwrap()).into_iter().take(2).for_each(drop)),
    ];
    try_all(a_list, calls, list_is_whole);
}

type Lists = StableLists<DefaultKey, Hooked>;

fn some_lists() -> Lists {
    let mut lists = Lists::with_key(Global, 3).unwrap();
    for number in 0..12 {
        lists.push_back(number as usize % 2, Hooked(number)).ok().unwrap();
    }
    lists
}

fn lists_are_whole(mut lists: Lists) {
    let mut count = 0;
    for list in 0..3 {
        let forward: Vec<_> = lists.iter(list).unwrap().map(|(cursor, value)| (cursor, value.0)).collect();
        let mut backward: Vec<_> = lists.iter(list).unwrap().rev().map(|(cursor, value)| (cursor, value.0)).collect();
        backward.reverse();
        assert_eq!((forward.len(), &forward), (lists.list_len(list), &backward));
        assert!(forward.iter().all(|it| lists.list_of(it.0) == Some(list) && lists.get(it.0).map(|value| value.0) == Some(it.1)));
        count += forward.len();
    }
    assert_eq!(count, lists.len());
    let before = lists.list_len(2);
    let cursor = lists.push_front(2, Hooked(100)).ok().unwrap();
    assert_eq!((lists.first(2), lists.list_len(2)), (Some(cursor), before + 1));
    assert!(lists.append(2, 0) && lists.list_len(0) == 0);
    (0..3).for_each(|list| lists.clear_list(list));
    assert!(lists.is_empty());
}

#[test]
fn lists() {
    let calls: &[Call<Lists>] = &[
        ("remove", |lists| drop(lists.first(0).and_then(|cursor| lists.remove(cursor)))),
        ("pop_front, pop_back", |lists| drop((lists.pop_front(0), lists.pop_back(1)))),
        ("clear_list", |lists| lists.clear_list(1)),
        ("clone", |lists| drop(lists.clone())),
        ("push to no list", |lists| drop(lists.push_back(9, Hooked(9)))),
    ];
    try_all(some_lists, calls, lists_are_whole);
}

type Hooks = Graph<DefaultKey, Hooked, Hooked>;

fn a_graph() -> Hooks {
    let mut graph = Hooks::with_key(Global).unwrap();
    let nodes: Vec<_> = (0..6).map(|number| graph.add_node(Hooked(number)).ok().unwrap()).collect();
    for (at, (from, to)) in [(0, 1), (1, 2), (2, 0), (3, 3), (4, 0), (0, 4), (1, 1), (5, 0)].into_iter().enumerate() {
        graph.add_edge(nodes[from], nodes[to], Hooked(at as u64)).ok().unwrap();
    }
    graph.remove_node(nodes[5]);
    graph
}

/// Each edge leads from a node to a node and is in the lists of both, and nothing else is in these lists.
fn graph_is_whole(mut graph: Hooks) {
    let nodes: Vec<_> = graph.nodes().collect();
    let edges: BTreeSet<_> = graph.edges().collect();
    assert_eq!((nodes.len(), edges.len()), (graph.node_count(), graph.edge_count()));
    let (mut out, mut into) = (BTreeSet::new(), BTreeSet::new());
    for node in &nodes {
        assert!(graph.contains_node(*node) && graph.node(*node).is_some());
        let (from, to): (Vec<_>, Vec<_>) = (graph.edges_from(*node).collect(), graph.edges_to(*node).collect());
        assert_eq!((from.len(), to.len()), (graph.out_degree(*node), graph.in_degree(*node)));
        assert!(from.iter().all(|edge| graph.edge_ends(*edge).is_some_and(|ends| ends.0 == *node && graph.contains_node(ends.1))));
        assert!(to.iter().all(|edge| graph.edge_ends(*edge).is_some_and(|ends| ends.1 == *node && graph.contains_node(ends.0))));
        assert!(from.iter().all(|edge| out.insert(*edge)) && to.iter().all(|edge| into.insert(*edge)));
    }
    assert!(out == edges && into == edges && edges.iter().all(|edge| graph.contains_edge(*edge) && graph.edge(*edge).is_some()));
    let (a, b) = (graph.add_node(Hooked(50)).ok().unwrap(), graph.add_node(Hooked(51)).ok().unwrap());
    assert!(!nodes.contains(&a) && !nodes.contains(&b) && graph.out_degree(a) + graph.in_degree(a) + graph.out_degree(b) == 0);
    let edge = graph.add_edge(a, b, Hooked(1)).ok().unwrap();
    assert!(!edges.contains(&edge) && graph.find_edge(a, b) == Some(edge));
    for node in nodes.iter().chain([&a, &b]) {
        assert!(graph.remove_node(*node).is_some());
    }
    assert!(graph.is_empty() && graph.edge_count() == 0 && graph.edges().next().is_none());
}

#[test]
fn graph() {
    let calls: &[Call<Hooks>] = &[
        ("remove_node", |graph| drop(graph.next_node(None).and_then(|node| graph.remove_node(node)))),
        ("remove_edge", |graph| drop(graph.next_edge(None).and_then(|edge| graph.remove_edge(edge)))),
        ("remove_edges_of", |graph| graph.next_node(None).into_iter().for_each(|node| graph.remove_edges_of(node))),
        ("clear", Hooks::clear),
        ("clone", |graph| drop(graph.clone())),
        ("add_edge between no nodes", |graph| drop(graph.add_edge(DefaultKey::default(), DefaultKey::default(), Hooked(9)))),
    ];
    try_all(a_graph, calls, graph_is_whole);
}

type Tree = Scene<DefaultKey, Hooked>;

fn a_scene() -> Tree {
    let mut scene = Tree::with_key(Global).unwrap();
    let root = scene.add_root(Hooked(0)).ok().unwrap();
    let mut keys = vec![root, scene.add_root(Hooked(1)).ok().unwrap()];
    for number in 2..10 {
        let parent = keys[number / 2 - 1];
        keys.push(scene.add_child(parent, Hooked(number as u64)).ok().unwrap());
    }
    scene.remove(keys[9]);
    scene
}

/// Each child names its parent, each node is below one root, and the siblings are the same from both ends.
fn scene_is_whole(mut scene: Tree) {
    let keys: Vec<_> = scene.keys().collect();
    assert_eq!((keys.len(), scene.iter().count(), scene.values().count()), (scene.len(), scene.len(), scene.len()));
    let mut below = 0;
    for key in &keys {
        assert!(scene.contains_key(*key) && scene.get(*key).is_some());
        let children: Vec<_> = scene.children(*key).collect();
        let mut backward: Vec<_> = scene.children(*key).rev().collect();
        backward.reverse();
        assert_eq!(children, backward);
        assert!(children.iter().all(|child| scene.parent(*child) == Some(*key)));
        assert_eq!((scene.first_child(*key), scene.last_child(*key)), (children.first().copied(), children.last().copied()));
        assert!(scene.parent(*key).map_or(true, |parent| scene.children(parent).any(|child| child == *key)));
        below += children.len();
    }
    let roots: Vec<_> = scene.roots().collect();
    assert_eq!((roots.len() + below, roots.iter().filter(|root| scene.parent(**root).is_some()).count()), (keys.len(), 0));
    assert_eq!(roots.iter().map(|root| 1 + scene.keys_below(*root).count()).sum::<usize>(), keys.len());
    let new = scene.add_root(Hooked(100)).ok().unwrap();
    assert!(!keys.contains(&new) && scene.children(new).next().is_none());
    roots.iter().for_each(|root| scene.reparent(*root, new).unwrap());
    assert!(scene.keys_below(new).count() == keys.len() && scene.remove(new).is_some());
    assert!(scene.is_empty() && scene.roots().next().is_none());
}

#[test]
fn scene() {
    let calls: &[Call<Tree>] = &[
        ("remove", |scene| drop(scene.roots().next().and_then(|root| scene.remove(root)))),
        ("remove of all", |scene| {
            while let Some(root) = scene.roots().next() {
                scene.remove(root);
            }
        }),
        ("clear", Tree::clear),
        ("clone", |scene| drop(scene.clone())),
        ("fold_up", |scene| {
            let node = scene.keys().last().unwrap();
            assert!(scene.fold_up(node, 0, |sum, value| {
                tick();
                sum + value.0
            })
            .is_some());
        }),
        ("add_child of nothing", |scene| drop(scene.add_child(DefaultKey::default(), Hooked(9)))),
    ];
    try_all(a_scene, calls, scene_is_whole);
}

type Jobs = Scheduler<DefaultKey, Hooked>;

fn some_jobs() -> Jobs {
    let mut jobs = Jobs::with_key(Global).unwrap();
    for time in [5, 3, 9, 1, 7, 3, 8] {
        jobs.schedule(time, Hooked(time)).ok().unwrap();
    }
    jobs
}

/// Each job that waits is found by its handle, and all are due in order.
fn jobs_are_whole(mut jobs: Jobs) {
    let waiting: Vec<_> = jobs.iter().map(|(handle, time, job)| (handle, time, job.0)).collect();
    assert_eq!((waiting.len(), jobs.keys().count(), jobs.values().count()), (jobs.len(), jobs.len(), jobs.len()));
    for (handle, time, number) in &waiting {
        assert!(jobs.contains(*handle) && jobs.due(*handle) == Some(*time) && jobs.get(*handle).map(|job| job.0) == Some(*number));
    }
    let handle = jobs.schedule(4, Hooked(4)).ok().unwrap();
    assert!(waiting.iter().all(|it| it.0 != handle) && jobs.due(handle) == Some(4));
    let mut order = vec![];
    while let Some((time, _, job)) = jobs.pop_next() {
        order.push((time, job.0));
    }
    let mut wanted: Vec<_> = waiting.iter().map(|it| (it.1, it.2)).chain([(4, 4)]).collect();
    wanted.sort_unstable();
    assert_eq!(order.iter().map(|it| it.0).collect::<Vec<_>>(), wanted.iter().map(|it| it.0).collect::<Vec<_>>());
    assert_eq!(order.into_iter().collect::<BTreeSet<_>>(), wanted.into_iter().collect());
    assert!(jobs.is_empty() && jobs.peek().is_none());
}

#[test]
fn scheduler() {
    let calls: &[Call<Jobs>] = &[
        ("pop_next", |jobs| drop((jobs.pop_next(), jobs.pop_next()))),
        ("pop_due", |jobs| drop(jobs.pop_due(3))),
        ("pop_due_with_time", |jobs| drop(jobs.pop_due_with_time(3))),
        ("cancel", |jobs| drop(jobs.peek().and_then(|first| jobs.cancel(first.1)))),
        ("retain", |jobs| {
            jobs.retain(|_, time, job| {
                tick();
                job.0 = time;
                time % 2 == 0
            })
        }),
        ("clear", Jobs::clear),
        ("drain", |jobs| jobs.drain().for_each(drop)),
        ("drain, dropped early", |jobs| drop(jobs.drain().next())),
        ("clone", |jobs| drop(jobs.clone())),
        ("into_iter", |jobs| std::mem::replace(jobs, Jobs::with_key(Global).unwrap()).into_iter().take(2).for_each(drop)),
    ];
    try_all(some_jobs, calls, jobs_are_whole);
}

type Entities = World<DefaultKey, Hooked, (SecondaryMap<DefaultKey, Hooked>, (SparseSecondaryMap<DefaultKey, Hooked>, ()))>;

fn a_world() -> Entities {
    let mut world = Entities::with_key(Global).unwrap();
    let keys: Vec<_> = (0..8).map(|number| world.spawn(Hooked(number)).ok().unwrap()).collect();
    for (at, key) in keys.iter().enumerate() {
        if at % 2 == 0 {
            world.attach::<First>(*key, Hooked(100 + at as u64)).ok().unwrap();
        }
        if at % 3 == 0 {
            world.attach::<Second>(*key, Hooked(200 + at as u64)).ok().unwrap();
        }
    }
    world.despawn(keys[6]);
    world
}

/// Each component is of an entity that exists, and the tables hold no others.
fn world_is_whole(mut world: Entities) {
    let keys: Vec<_> = world.keys().collect();
    assert_eq!((keys.len(), world.iter().count(), world.values().count()), (world.len(), world.len(), world.len()));
    assert!(keys.iter().all(|key| world.contains_key(*key) && world.get(*key).is_some()));
    let first: BTreeSet<_> = keys.iter().copied().filter(|key| world.has::<First>(*key)).collect();
    let second: BTreeSet<_> = keys.iter().copied().filter(|key| world.has::<Second>(*key)).collect();
    assert_eq!(world.with::<First>().map(|it| it.0).collect::<BTreeSet<_>>(), first);
    assert_eq!(world.with::<Second>().map(|it| it.0).collect::<BTreeSet<_>>(), second);
    assert_eq!((world.tables().0.len(), world.tables().1 .0.len()), (first.len(), second.len()));
    assert_eq!(world.with_both::<First, Second>().count(), first.intersection(&second).count());
    let new = world.spawn(Hooked(9)).ok().unwrap();
    assert!(!keys.contains(&new) && !world.has::<First>(new) && !world.has::<Second>(new));
    world.attach::<First>(new, Hooked(1)).ok().unwrap();
    assert_eq!(world.component::<First>(new).map(|it| it.0), Some(1));
    for key in keys.iter().chain([&new]) {
        let (_, parts) = world.despawn(*key).unwrap();
        assert_eq!((parts.0.is_some(), parts.1 .0.is_some()), (*key == new || first.contains(key), second.contains(key)));
    }
    assert!(world.is_empty() && world.tables().0.is_empty() && world.tables().1 .0.is_empty());
}

#[test]
fn world() {
    let calls: &[Call<Entities>] = &[
        ("despawn", |world| drop(world.keys().next().and_then(|key| world.despawn(key)))),
        ("attach over a component", |world| {
            let key = world.with::<First>().next().unwrap().0;
            drop(world.attach::<First>(key, Hooked(7)));
            drop(world.attach::<Second>(key, Hooked(7)));
        }),
        ("attach to nothing", |world| drop(world.attach::<First>(DefaultKey::default(), Hooked(7)))),
        ("detach", |world| {
            let key = world.with_both::<First, Second>().next().unwrap().0;
            drop(world.detach::<First>(key));
            drop(world.detach::<Second>(key));
        }),
        ("replace_both", |world| {
            let key = world.with_both::<First, Second>().next().unwrap().0;
            drop(world.replace_both::<First, Second>(key, Hooked(7), Hooked(8)));
        }),
        ("retain_components", |world| {
            world.retain_components::<First, _>(|_, value| {
                tick();
                value.0 % 4 == 0
            });
            world.retain_components::<Second, _>(|_, value| {
                tick();
                value.0 % 2 == 0
            });
        }),
        ("clear", Entities::clear),
        ("clone", |world| drop(world.clone())),
    ];
    try_all(a_world, calls, world_is_whole);
}
