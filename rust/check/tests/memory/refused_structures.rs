//! `list` is a StableList, `lists` a StableLists, `graph` a Graph, `scene` a Scene, `world` a World, `scheduler` a Scheduler.

use super::refused::{assert_all, calls, Call, VALUE};
use slotmap_proved::entities::{First, Second, Third, World};
use slotmap_proved::fallible::{SecondaryMap, SparseSecondaryMap, Vec as ProvedVec};
use slotmap_proved::graph::{EdgeKey, Graph};
use slotmap_proved::list::{Cursor, StableList};
use slotmap_proved::lists::StableLists;
use slotmap_proved::paths::{kosaraju_scc, path_to, post_order, post_order_from, shortest_paths, Costs, Paths};
use slotmap_proved::scene::world::{HasTransform, Offset};
use slotmap_proved::scene::Scene;
use slotmap_proved::scheduler::Scheduler;
use slotmap_proved::{DefaultKey, Global, NodeKey};
use std::fmt::Write;

fn assert_made(calls: Vec<Call<()>>) {
    assert_all(calls, &|| (), &|_| String::new());
}

/// A list without room, an element of it, and another list.
struct Lists {
    list: StableList<Cursor, u64>,
    cursor: Cursor,
    other: StableList<NodeKey, u64>,
}

#[test]
fn list() {
    let make = || {
        let mut list: StableList<Cursor, u64> = StableList::new(Global).expect("memory");
        let cursor = list.push_back(1).ok().expect("memory");
        while list.len() < list.capacity() {
            assert!(list.push_front(2).is_ok());
        }
        let mut other = StableList::with_key(Global).expect("memory");
        assert!(other.extend([3, 4]).is_ok());
        Lists { list, cursor, other }
    };
    let show = |state: &Lists| format!("{:?} {:?} {:?}", state.list.iter().collect::<Vec<_>>(), state.cursor, state.other);
    let calls = calls![Lists:
        "push_back", VALUE => |state| state.list.push_back(VALUE);
        "push_front", VALUE => |state| state.list.push_front(VALUE);
        "insert_after", VALUE => |state| state.list.insert_after(state.cursor, VALUE);
        "insert_before", VALUE => |state| state.list.insert_before(state.cursor, VALUE);
        "extend", VALUE => |state| state.list.extend([VALUE]);
        "append" => |state| state.list.append(&mut state.other);
        "reserve" => |state| state.list.reserve(100);
        "clone" => |state| state.list.clone();
        "to_vec" => |state| state.list.to_vec(Global);
    ];
    assert_all(calls, &make, &show);
    assert_made(calls![():
        "new" => |_state| StableList::<Cursor, u64>::new(Global);
        "with_key" => |_state| StableList::<NodeKey, u64>::with_key(Global);
        "with_capacity" => |_state| StableList::<Cursor, u64>::with_capacity(Global, 9);
        "with_capacity_and_key" => |_state| StableList::<NodeKey, u64>::with_capacity_and_key(Global, 9);
        "from_iter" => |_state| StableList::<Cursor, u64>::from_iter(Global, [VALUE]);
    ]);
}

#[test]
fn lists() {
    type Two = (StableLists<Cursor, u64>, Cursor);
    let make = || {
        let mut lists: StableLists<Cursor, u64> = StableLists::new(Global, 2).expect("memory");
        let cursor = lists.push_back(1, 1).ok().expect("memory");
        while lists.len() < lists.capacity() {
            assert!(lists.push_front(0, 2).is_ok());
        }
        (lists, cursor)
    };
    let show = |state: &Two| format!("{:?} {:?}", state.0, state.1);
    let calls = calls![Two:
        "push_back", VALUE => |state| {
            let lists = &mut state.0;
            lists.push_back(1, VALUE)
        };
        "push_front", VALUE => |state| {
            let lists = &mut state.0;
            lists.push_front(1, VALUE)
        };
        "insert_after", VALUE => |state| {
            let (lists, cursor) = state;
            lists.insert_after(*cursor, VALUE)
        };
        "insert_before", VALUE => |state| {
            let (lists, cursor) = state;
            lists.insert_before(*cursor, VALUE)
        };
        "reserve" => |state| {
            let lists = &mut state.0;
            lists.reserve(100)
        };
        "clone" => |state| {
            let lists = &state.0;
            lists.clone()
        };
    ];
    assert_all(calls, &make, &show);
    assert_made(calls![():
        "new" => |_state| StableLists::<Cursor, u64>::new(Global, 9);
        "with_key" => |_state| StableLists::<NodeKey, u64>::with_key(Global, 9);
        "with_capacity" => |_state| StableLists::<Cursor, u64>::with_capacity(Global, 2, 9);
        "with_capacity_and_key" => |_state| StableLists::<NodeKey, u64>::with_capacity_and_key(Global, 2, 9);
    ]);
}

/// A graph without room, the costs of its edges, and the paths from its first node.
struct Graphs {
    graph: Graph<NodeKey, u64, u64>,
    nodes: Vec<NodeKey>,
    costs: Costs,
    paths: Paths<NodeKey>,
}

/// A line of nodes, with as many edges more as there is room for.
fn full_graph() -> Graphs {
    let mut graph: Graph<NodeKey, u64, u64> = Graph::new(Global).expect("memory");
    let mut nodes = Vec::new();
    while nodes.len() < 5 || graph.node_count() < graph.node_capacity() {
        nodes.push(graph.add_node(1).ok().expect("memory"));
    }
    let mut costs = SecondaryMap::new(Global).expect("memory");
    let mut add = |graph: &mut Graph<NodeKey, u64, u64>, from, to| {
        let edge: EdgeKey = graph.add_edge(from, to, 1).ok().expect("memory");
        assert!(costs.insert(edge, 1).is_ok());
    };
    nodes.windows(2).for_each(|two| add(&mut graph, two[0], two[1]));
    while graph.edge_count() < graph.edge_capacity() {
        add(&mut graph, nodes[0], nodes[1]);
    }
    let paths = shortest_paths(Global, &graph, nodes[0], &costs).expect("memory");
    Graphs { graph, nodes, costs, paths }
}

#[test]
fn graph() {
    let show = |state: &Graphs| format!("{:?}", state.graph);
    let calls = calls![Graphs:
        "add_node", VALUE => |state| state.graph.add_node(VALUE);
        "add_edge", VALUE => |state| state.graph.add_edge(state.nodes[0], state.nodes[1], VALUE);
        "reserve_nodes" => |state| state.graph.reserve_nodes(100);
        "reserve_edges" => |state| state.graph.reserve_edges(100);
        "clone" => |state| state.graph.clone();
        "neighbours" => |state| state.graph.neighbours(Global, state.nodes[0]);
        "reachable" => |state| state.graph.reachable(Global, state.nodes[0]);
        "topological_order" => |state| state.graph.topological_order(Global);
        "shortest_paths" => |state| shortest_paths(Global, &state.graph, state.nodes[0], &state.costs);
        "path_to" => |state| path_to(Global, &state.graph, &state.paths, state.nodes[4]);
        "post_order" => |state| post_order(Global, &state.graph);
        "post_order_from" => |state| post_order_from(Global, &state.graph, state.nodes[0]);
        "kosaraju_scc" => |state| kosaraju_scc(Global, &state.graph);
    ];
    assert_all(calls, &full_graph, &show);
    assert_made(calls![():
        "new" => |_state| Graph::<NodeKey, u64, u64>::new(Global);
        "with_key" => |_state| Graph::<DefaultKey, u64, u64>::with_key(Global);
        "with_capacity" => |_state| Graph::<NodeKey, u64, u64>::with_capacity(Global, 9, 9);
        "with_capacity_and_key" => |_state| Graph::<DefaultKey, u64, u64>::with_capacity_and_key(Global, 9, 9);
    ]);
}

/// A value with a transform.
#[derive(Clone, Debug)]
struct Part(Offset);

impl HasTransform for Part {
    type Transform = Offset;

    fn transform(&self) -> Offset {
        self.0
    }
}

#[test]
fn scene() {
    struct Scenes {
        scene: Scene<DefaultKey, u64>,
        root: DefaultKey,
        child: DefaultKey,
        parts: Scene<DefaultKey, Part>,
    }
    let make = || {
        let mut scene: Scene<DefaultKey, u64> = Scene::new(Global).expect("memory");
        let root = scene.add_root(1).ok().expect("memory");
        let child = scene.add_child(root, 2).ok().expect("memory");
        while scene.len() < scene.capacity() {
            assert!(scene.add_child(root, 3).is_ok());
        }
        let mut parts = Scene::new(Global).expect("memory");
        assert!(parts.add_root(Part(Offset { x: 1, y: 2 })).is_ok());
        Scenes { scene, root, child, parts }
    };
    let show = |state: &Scenes| format!("{:?} {:?}", state.scene, state.parts);
    let calls = calls![Scenes:
        "add_root", VALUE => |state| state.scene.add_root(VALUE);
        "add_child", VALUE => |state| state.scene.add_child(state.root, VALUE);
        "insert_before", VALUE => |state| state.scene.insert_before(state.child, VALUE);
        "insert_after", VALUE => |state| state.scene.insert_after(state.child, VALUE);
        "reserve" => |state| state.scene.reserve(100);
        "clone" => |state| state.scene.clone();
        "descendants" => |state| state.scene.descendants(state.root);
        "world_transforms" => |state| {
            let scene = &state.parts;
            scene.world_transforms()
        };
    ];
    assert_all(calls, &make, &show);
    assert_made(calls![():
        "new" => |_state| Scene::<DefaultKey, u64>::new(Global);
        "with_key" => |_state| Scene::<NodeKey, u64>::with_key(Global);
        "with_capacity" => |_state| Scene::<DefaultKey, u64>::with_capacity(Global, 9);
        "with_capacity_and_key" => |_state| Scene::<NodeKey, u64>::with_capacity_and_key(Global, 9);
    ]);
}

type Three = (SecondaryMap<DefaultKey, u64>, (SparseSecondaryMap<DefaultKey, u64>, (SecondaryMap<DefaultKey, u64>, ())));
type OfThree = World<DefaultKey, u64, Three>;

#[test]
fn world() {
    let make = || {
        let mut world: OfThree = World::new(Global).expect("memory");
        let key = world.spawn(1).ok().expect("memory");
        while world.len() < world.capacity() {
            assert!(world.spawn(2).is_ok());
        }
        (world, key)
    };
    let show = |state: &(OfThree, DefaultKey)| format!("{:?}", state.0);
    let calls = calls![(OfThree, DefaultKey):
        "spawn", VALUE => |state| {
            let world = &mut state.0;
            world.spawn(VALUE)
        };
        "spawn_with", VALUE => |state| {
            let world = &mut state.0;
            world.spawn_with::<First>(VALUE, 1)
        };
        "spawn_with_both", VALUE => |state| {
            let world = &mut state.0;
            world.spawn_with_both::<First, Second>(VALUE, 1, 2)
        };
        "spawn_with_three", VALUE => |state| {
            let world = &mut state.0;
            world.spawn_with_three::<Second, First, Third>(VALUE, 1, 2, 3)
        };
        "attach to a table by index", VALUE => |state| {
            let (world, key) = state;
            world.attach::<First>(*key, VALUE)
        };
        "attach to a sparse table", VALUE => |state| {
            let (world, key) = state;
            world.attach::<Second>(*key, VALUE)
        };
        "reserve" => |state| {
            let world = &mut state.0;
            world.reserve(100)
        };
        "reserve_components by index" => |state| {
            let world = &mut state.0;
            world.reserve_components::<First>(0, 100)
        };
        "reserve_components of a sparse table" => |state| {
            let world = &mut state.0;
            world.reserve_components::<Second>(100, 0)
        };
        "clone" => |state| {
            let world = &state.0;
            world.clone()
        };
    ];
    assert_all(calls, &make, &show);
    assert_made(calls![():
        "new" => |_state| OfThree::new(Global);
        "with_key" => |_state| OfThree::with_key(Global);
        "with_capacity" => |_state| OfThree::with_capacity(Global, 9);
        "with_capacity_and_key" => |_state| OfThree::with_capacity_and_key(Global, 9);
    ]);
}

/// Takes what is printed and keeps none of it.
struct Nowhere;

impl Write for Nowhere {
    fn write_str(&mut self, _: &str) -> std::fmt::Result {
        Ok(())
    }
}

#[test]
fn scheduler() {
    struct Jobs {
        scheduler: Scheduler<DefaultKey, u64>,
        due: ProvedVec<(DefaultKey, u64)>,
    }
    let make = || {
        let mut scheduler: Scheduler<DefaultKey, u64> = Scheduler::new(Global).expect("memory");
        while scheduler.len() < 3 || scheduler.len() < scheduler.capacity() {
            assert!(scheduler.schedule(scheduler.len() as u64 % 3, 1).is_ok());
        }
        Jobs { scheduler, due: ProvedVec::new(Global) }
    };
    let show = |state: &Jobs| format!("{:?} {:?}", state.scheduler, state.due.as_slice());
    let calls = calls![Jobs:
        "schedule", VALUE => |state| state.scheduler.schedule(1, VALUE);
        "reserve" => |state| state.scheduler.reserve(100);
        "pop_all_due" => |state| state.scheduler.pop_all_due(1, &mut state.due);
        "clone" => |state| state.scheduler.clone();
        "printing" => |state| write!(Nowhere, "{:?}", state.scheduler);
    ];
    assert_all(calls, &make, &show);
    assert_made(calls![():
        "new" => |_state| Scheduler::<DefaultKey, u64>::new(Global);
        "with_key" => |_state| Scheduler::<NodeKey, u64>::with_key(Global);
        "with_capacity" => |_state| Scheduler::<DefaultKey, u64>::with_capacity(Global, 9);
        "with_capacity_and_key" => |_state| Scheduler::<NodeKey, u64>::with_capacity_and_key(Global, 9);
    ]);
}
