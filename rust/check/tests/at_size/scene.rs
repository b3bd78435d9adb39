//! Scenes of numbers: wide, deep, and by chance.

use super::random::Random;
use super::sums::{add_exact, add_within, increment, Report, Sum};
use slotmap_proved::fallible::TryClone as _;
use slotmap_proved::scene::world::Offset;
use slotmap_proved::scene::{AddError, MoveError, Scene, Visit};
use slotmap_proved::{DefaultKey, Global};

type Numbers = Scene<DefaultKey, u64>;

/// A scene with room.
fn roomy(size: u64) -> Numbers {
    Scene::with_capacity_and_key(Global, size as usize).expect("memory")
}

/// The numbers of nodes.
fn sum_of_nodes(scene: &Numbers, nodes: impl IntoIterator<Item = DefaultKey>) -> Sum {
    let mut sum = Sum::new();
    nodes.into_iter().for_each(|node| sum.add_found(scene.get(node)));
    sum
}

/// Tells the numbers of the nodes below a node.
fn tell_below(report: &mut Report, what: &str, scene: &Numbers, node: DefaultKey) {
    report.tell(what, sum_of_nodes(scene, scene.descendants(node).expect("memory")));
}

/// The numbers of the nodes above a node, its depth, and what its own number folds to with theirs.
fn sum_above(scene: &Numbers, node: DefaultKey) -> Sum {
    let mut sum = sum_of_nodes(scene, scene.ancestors(node));
    sum.add(scene.depth(node).expect("a node") as u64);
    sum.extend(scene.fold_up(node, 0, |total: u64, value: &u64| total.wrapping_mul(31).wrapping_add(*value)));
    sum
}

/// All nodes, each with its number of children.
fn sum_of_all(scene: &Numbers) -> Sum {
    let mut sum = Sum::new();
    for (node, value) in scene.iter() {
        sum.add(*value);
        sum.add(scene.children(node).len() as u64);
    }
    sum
}

/// All numbers, the number above each node, and all numbers again.
fn sum_by_keys(scene: &Numbers) -> Sum {
    let mut sum: Sum = scene.values().copied().collect();
    scene.keys().for_each(|node| sum.add_found(scene.get(scene.parent(node).unwrap_or_default())));
    for (_, value) in scene {
        sum.add(*value);
    }
    sum
}

/// Which of these nodes are in the scene, and how many the iterators over all nodes yield.
fn sum_of_live(scene: &Numbers, nodes: &[DefaultKey]) -> Sum {
    let mut sum = Sum::new();
    nodes.iter().for_each(|node| sum.add_if(scene.contains_key(*node)));
    sum.extend([scene.iter().len(), scene.keys().len(), scene.values().len()].map(|length| length as u64));
    sum
}

/// The numbers of a node's children, by a copy of their iterator.
fn sum_of_children(scene: &Numbers, node: DefaultKey) -> Sum {
    sum_of_nodes(scene, scene.children(node).clone().expect("it asks for none"))
}

/// Adds the numbers below `count` beside nodes.
fn insert_all(scene: &mut Numbers, nodes: &[DefaultKey], random: &mut Random, count: u64) {
    for value in 0..count {
        let at = random.pick(nodes);
        let inserted = if value % 2 == 0 { scene.insert_after(at, value) } else { scene.insert_before(at, value) };
        inserted.expect("memory");
    }
}

/// The numbers of a node's children, from the first to the last and back, each by a step from the one beside it.
fn sum_by_steps(scene: &Numbers, parent: DefaultKey) -> Sum {
    let mut sum = Sum::new();
    let mut child = scene.first_child(parent).unwrap_or_default();
    for _ in 0..scene.children(parent).len() {
        sum.add_found(scene.get(child));
        child = scene.next_sibling(child).unwrap_or_default();
    }
    let mut child = scene.last_child(parent).unwrap_or_default();
    for _ in 0..scene.children(parent).len() {
        sum.add_found(scene.get(child));
        child = scene.prev_sibling(child).unwrap_or_default();
    }
    sum
}

/// Moves nodes by chance, beside others or to an end. It fails for a root, and beside a root or the node itself.
fn move_some(scene: &mut Numbers, nodes: &[DefaultKey], random: &mut Random, turns: u64) -> Sum {
    let mut sum = Sum::new();
    for turn in 0..turns {
        let (node, sibling) = (random.pick(nodes), random.pick(nodes));
        sum.add_if(match turn % 4 {
            0 => scene.move_after(node, sibling).is_ok(),
            1 => scene.move_before(node, sibling).is_ok(),
            2 => scene.move_to_front(node),
            _ => scene.move_to_back(node),
        });
    }
    sum
}

/// A root is refused a place beside its child, and a child one beside the root or beside itself. A root gets no sibling.
fn assert_refused(scene: &mut Numbers, root: DefaultKey) {
    let child = scene.first_child(root).expect("a child");
    assert_eq!(scene.move_before(root, child), Err(MoveError::Cycle));
    assert_eq!(scene.move_after(child, root), Err(MoveError::GoneSibling));
    assert_eq!(scene.move_before(child, child), Err(MoveError::Same));
    assert!(matches!(scene.insert_after(root, 6), Err(AddError::GoneSibling(6))));
}

/// A root with all others as its children.
fn run_wide(report: &mut Report, size: u64) {
    let (mut scene, mut random) = (roomy(size), Random::new(3));
    let root = scene.add_root(0).expect("memory");
    let nodes: Vec<DefaultKey> = (1..=size).map(|number| scene.add_child(root, number).expect("memory")).collect();
    insert_all(&mut scene, &nodes, &mut random, size);
    report.tell("children", sum_of_nodes(&scene, scene.children(root).rev()));
    for _ in 0..size / 2 {
        scene.reparent(random.pick(&nodes), root).expect("it is below the root");
    }
    report.tell("moved", sum_of_nodes(&scene, scene.children(root).rev()));
    for _ in 0..size / 2 {
        scene.make_root(random.pick(&nodes));
    }
    report.tell("roots", sum_of_nodes(&scene, scene.roots()));
    tell_below(report, "wide", &scene, root);
    report.tell("by links", sum_of_nodes(&scene, scene.keys_below(root)));
    assert_refused(&mut scene, root);
    report.tell("by steps", sum_by_steps(&scene, root));
    report.tell("moves beside", move_some(&mut scene, &nodes, &mut random, size.min(1000)));
    report.tell("by steps", sum_by_steps(&scene, root));
    report.tell("children", sum_of_children(&scene, root));
}

/// A root with all others below it, each the only child of the one above. Then a copy, and what is left without the root.
fn run_deep(report: &mut Report, size: u64) {
    let mut scene = roomy(size);
    let root = scene.add_root(0).expect("memory");
    let last = (1..=size).fold(root, |parent, number| scene.add_child(parent, number).expect("memory"));
    tell_below(report, "deep", &scene, root);
    report.tell("by links", sum_of_nodes(&scene, scene.keys_below(root)));
    report.tell("above", sum_above(&scene, last));
    assert!(scene.reparent(root, last).is_err() && scene.is_within(last, root));
    let copy = scene.clone().expect("memory");
    assert_eq!(scene.remove(root), Some(0));
    report.tell("removed", sum_of_all(&scene));
    tell_below(report, "copied", &copy, root);
    report.tell("all of the copy", sum_of_all(&copy));
}

/// Adds 1 to the number of each node below a node, step by step, and returns what the numbers were. Behind the last one there is none.
fn write_below(scene: &mut Numbers, node: DefaultKey) -> Sum {
    let mut sum = Sum::new();
    let mut at = node;
    for _ in 0..scene.len() {
        at = scene.next_below(node, at).unwrap_or_default();
        sum.add_found(scene.get(at));
        increment(scene.get_mut(at));
    }
    sum
}

/// The numbers behind nodes by chance, on walks below others. Some of these nodes aren't below the other one.
fn sum_behind(scene: &Numbers, nodes: &[DefaultKey], random: &mut Random, turns: u64) -> Sum {
    let mut sum = Sum::new();
    for _ in 0..turns {
        let node = random.pick(nodes);
        let next = scene.next_below(node, random.pick(nodes));
        sum.add_found(scene.get(next.unwrap_or_default()));
    }
    sum
}

/// The numbers of the nodes on a walk, where each is entered and left.
fn sum_of_visits(scene: &Numbers, node: DefaultKey) -> Sum {
    let mut sum = Sum::new();
    for visit in scene.walk(node) {
        match visit {
            Visit::Enter(key) => sum.add_found(scene.get(key)),
            Visit::Leave(key) => {
                sum.add(u64::MAX);
                sum.add_found(scene.get(key));
            }
        }
    }
    sum
}

/// The lengths of the iterators over all nodes and over children, after so many.
fn sum_of_lengths(scene: &Numbers, root: DefaultKey, steps: usize) -> Sum {
    let mut sum = Sum::new();
    add_exact(&mut sum, scene.iter(), steps);
    add_exact(&mut sum, scene.keys(), steps);
    add_exact(&mut sum, scene.values(), steps);
    add_exact(&mut sum, scene.children(root), steps);
    sum
}

/// How many nodes there are on the ways up and down, above a node and below a root.
fn sum_of_ways(scene: &Numbers, root: DefaultKey, node: DefaultKey) -> Sum {
    let (mut sum, most) = (Sum::new(), scene.len());
    add_within(&mut sum, scene.ancestors(node), most);
    add_within(&mut sum, scene.roots(), most);
    add_within(&mut sum, scene.keys_below(root), most);
    add_within(&mut sum, scene.walk(root), most * 2);
    sum
}

/// A tree by chance: what is below the root, by steps.
fn look_below(report: &mut Report, scene: &mut Numbers, nodes: &[DefaultKey], random: &mut Random) {
    let (root, turns) = (nodes[0], (nodes.len() as u64).min(1000));
    report.tell("written", write_below(scene, root));
    report.tell("behind", sum_behind(scene, nodes, random, turns));
    report.tell("visits", sum_of_visits(scene, root));
    report.tell("lengths", sum_of_lengths(scene, root, 2));
    report.tell("ways", sum_of_ways(scene, root, nodes[nodes.len() - 1]));
}

/// Writes, and removes nodes by chance, with what is below them.
fn change(report: &mut Report, scene: &mut Numbers, nodes: &[DefaultKey], random: &mut Random) {
    nodes.iter().for_each(|node| increment(scene.get_mut(*node)));
    let mut removed: Sum = (0..5).filter_map(|_| scene.remove(random.pick(nodes))).collect();
    removed.add(scene.len() as u64);
    report.tell("removed", removed);
    report.tell("left", sum_of_all(scene));
    report.tell("by keys", sum_by_keys(scene));
    report.tell("live", sum_of_live(scene, nodes));
    scene.clear();
    assert!(scene.is_empty());
    report.tell("cleared", sum_of_all(scene));
}

/// Moves nodes below others by chance, where no cycle would come of it.
fn move_by_chance(scene: &mut Numbers, nodes: &[DefaultKey], random: &mut Random, turns: u64) -> Sum {
    let mut sum = Sum::new();
    for _ in 0..turns {
        let (node, parent) = (random.pick(nodes), random.pick(nodes));
        sum.add_if(scene.reparent(node, parent).is_ok());
    }
    sum
}

/// A tree by chance.
fn run_chance(report: &mut Report, size: u64) {
    let (mut scene, mut random) = (roomy(size), Random::new(4));
    let root = scene.add_root(0).expect("memory");
    let mut nodes = vec![root];
    scene.reserve(size as usize).expect("memory");
    for number in 1..=size {
        nodes.push(scene.add_child(random.pick(&nodes), number).expect("memory"));
    }
    tell_below(report, "by chance", &scene, root);
    report.tell("by links", sum_of_nodes(&scene, scene.keys_below(root)));
    report.tell("moves", move_by_chance(&mut scene, &nodes, &mut random, size));
    report.tell("moved", sum_of_all(&scene));
    look_below(report, &mut scene, &nodes, &mut random);
    change(report, &mut scene, &nodes, &mut random);
}

/// Offsets, each below the one before it: where the last one lies, and then all, both coordinates without their signs.
fn run_offsets(report: &mut Report, size: u64) {
    let mut scene: Scene<DefaultKey, Offset> = Scene::new(Global).expect("memory");
    let root = scene.add_root(Offset { x: 1, y: 2 }).expect("memory");
    let last = (0..size).fold(root, |node, _| scene.add_child(node, Offset { x: 3, y: -4 }).expect("memory"));
    for (what, place) in [("world", scene.world(last)), ("world transform", scene.world_transform(last))] {
        let place = place.expect("a place");
        report.text += &format!("  {what}: {}, {}\n", place.x, place.y);
    }
    let places = scene.world_transforms().expect("memory");
    report.tell_all("places", places.iter().flat_map(|(_, place)| [place.x, place.y].map(|number| u64::from(number.unsigned_abs()))));
}

/// Makes a scene in each way: an empty one, with room for so many nodes.
fn make_all(room: usize) {
    let made = [
        (Scene::new(Global), 0),
        (Scene::with_key(Global), 0),
        (Scene::with_capacity(Global, room), room),
        (Scene::with_capacity_and_key(Global, room), room),
    ];
    for (scene, room) in made {
        let scene: Numbers = scene.expect("memory");
        assert!(scene.is_empty() && scene.capacity() >= room);
    }
}

/// The calls of a scene that may ask for memory or go over all elements.
pub fn run(size: u64) -> Report {
    let mut report = Report::of("scene");
    make_all(size as usize);
    run_wide(&mut report, size);
    run_deep(&mut report, size);
    run_chance(&mut report, size);
    run_offsets(&mut report, size);
    report
}
