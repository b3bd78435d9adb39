//! `scene` and `copy` are a Scene. The model is a vector of nodes, each with its parent, and a list of children for each node.

use slotmap_proved::errors::ReserveError;
use slotmap_proved::scene::world::{HasTransform, Offset, Transform};
use slotmap_proved::scene::{AddError, MoveError, ReparentError, Scene, Visit};
use slotmap_proved::{DefaultKey, Global, Key, NodeKey};
use std::collections::BTreeMap;
use super::common::keys::{parts, Issued};
use super::common::random::Random;
use super::common::seeds::each_seed;
use super::common::{take_first, take_last};

const SEEDS: u64 = 20;
const CALLS: usize = 10_000;

struct Node {
    value: Offset,
    parent: Option<NodeKey>,
    children: Vec<NodeKey>,
}

#[derive(Default)]
struct Model(BTreeMap<NodeKey, Node>);

impl Model {
    fn has(&self, node: NodeKey) -> bool {
        self.0.contains_key(&node)
    }

    fn parent(&self, node: NodeKey) -> Option<NodeKey> {
        self.0.get(&node)?.parent
    }

    fn children(&self, node: NodeKey) -> &[NodeKey] {
        self.0.get(&node).map_or(&[], |node| &node.children)
    }

    fn above(&self, node: NodeKey) -> Vec<NodeKey> {
        std::iter::successors(self.parent(node), |above| self.parent(*above)).collect()
    }

    fn is_within(&self, node: NodeKey, other: NodeKey) -> bool {
        self.has(node) && (node == other || self.above(node).contains(&other))
    }

    /// The nodes below one, each before those below it.
    fn below(&self, node: NodeKey) -> Vec<NodeKey> {
        let mut all = Vec::new();
        for child in self.children(node) {
            all.push(*child);
            all.extend(self.below(*child));
        }
        all
    }

    fn visits(&self, node: NodeKey) -> Vec<(bool, NodeKey)> {
        let below = self.children(node).iter().flat_map(|child| self.visits(*child));
        let visits = std::iter::once((true, node)).chain(below).chain(std::iter::once((false, node)));
        visits.filter(|_| self.has(node)).collect()
    }

    /// The nodes by ascending index.
    fn by_index(&self) -> Vec<NodeKey> {
        let mut nodes: Vec<NodeKey> = self.0.keys().copied().collect();
        nodes.sort_by_key(|node| parts(*node).0);
        nodes
    }

    fn roots(&self) -> Vec<NodeKey> {
        self.by_index().into_iter().filter(|node| self.parent(*node).is_none()).collect()
    }

    fn list_of(&mut self, parent: NodeKey) -> &mut Vec<NodeKey> {
        &mut self.0.get_mut(&parent).expect("the parent is there").children
    }

    /// Takes a node with its subtree off its parent.
    fn leave(&mut self, node: NodeKey) {
        if let Some(parent) = self.parent(node) {
            self.list_of(parent).retain(|child| *child != node);
        }
        self.0.get_mut(&node).expect("the node is there").parent = None;
    }

    fn place_under(&mut self, node: NodeKey, parent: NodeKey, at: usize) {
        self.list_of(parent).insert(at, node);
        self.0.get_mut(&node).expect("the node is there").parent = Some(parent);
    }

    /// Places a node beside a sibling.
    fn place_beside(&mut self, node: NodeKey, sibling: NodeKey, behind: bool) {
        let parent = self.parent(sibling).expect("the sibling has a parent");
        let at = self.children(parent).iter().position(|child| *child == sibling).expect("it is among the children");
        self.place_under(node, parent, at + usize::from(behind));
    }
}

struct Beside<'a> {
    random: &'a mut Random,
    scene: Scene<NodeKey, Offset>,
    model: Model,
    issued: Issued<NodeKey>,
}

impl Beside<'_> {
    fn value(&mut self) -> Offset {
        let any = self.random.draw() as i32;
        Offset { x: any % 10, y: any }
    }

    fn node(&mut self) -> NodeKey {
        let live: Vec<NodeKey> = self.model.0.keys().copied().collect();
        self.issued.pick(self.random, &live)
    }

    fn note(&mut self, node: NodeKey, value: Offset) {
        self.issued.note(node);
        self.model.0.insert(node, Node { value, parent: None, children: Vec::new() });
    }

    fn add(&mut self) {
        let value = self.value();
        if self.random.one_of(5) {
            let node = self.scene.add_root(value).ok().expect("memory");
            return self.note(node, value);
        }
        let parent = self.node();
        match self.scene.add_child(parent, value) {
            Ok(node) if self.model.has(parent) => {
                self.note(node, value);
                self.model.place_under(node, parent, self.model.children(parent).len());
            }
            Err(AddError::Gone(back)) if !self.model.has(parent) => assert_eq!(back, value),
            other => panic!("{other:?}"),
        }
    }

    fn insert(&mut self) {
        let (sibling, value, behind) = (self.node(), self.value(), self.random.one_of(2));
        let made = match behind {
            true => self.scene.insert_after(sibling, value),
            false => self.scene.insert_before(sibling, value),
        };
        match made {
            Ok(node) if self.model.parent(sibling).is_some() => {
                self.note(node, value);
                self.model.place_beside(node, sibling, behind);
            }
            Err(AddError::GoneSibling(back)) if self.model.parent(sibling).is_none() => assert_eq!(back, value),
            other => panic!("{other:?}"),
        }
    }

    fn reparent(&mut self) {
        let (node, parent) = (self.node(), self.node());
        let wanted = match (self.model.has(node), self.model.has(parent)) {
            (false, _) => Err(ReparentError::GoneNode),
            (_, false) => Err(ReparentError::GoneParent),
            _ if self.model.is_within(parent, node) => Err(ReparentError::Cycle),
            _ => Ok(()),
        };
        assert_eq!(self.scene.reparent(node, parent), wanted);
        if wanted.is_ok() {
            self.model.leave(node);
            self.model.place_under(node, parent, self.model.children(parent).len());
        }
    }

    fn move_beside(&mut self) {
        let (node, sibling, behind) = (self.node(), self.node(), self.random.one_of(2));
        let wanted = match (self.model.has(node), self.model.parent(sibling)) {
            (false, _) => Err(MoveError::GoneNode),
            (_, None) => Err(MoveError::GoneSibling),
            _ if node == sibling => Err(MoveError::Same),
            _ if self.model.is_within(sibling, node) => Err(MoveError::Cycle),
            _ => Ok(()),
        };
        let moved = match behind {
            true => self.scene.move_after(node, sibling),
            false => self.scene.move_before(node, sibling),
        };
        assert_eq!(moved, wanted);
        if wanted.is_ok() {
            self.model.leave(node);
            self.model.place_beside(node, sibling, behind);
        }
    }

    fn move_to_end(&mut self) {
        let (node, choice) = (self.node(), self.random.below(3));
        let (parent, is_there) = (self.model.parent(node), self.model.has(node));
        if is_there {
            self.model.leave(node);
        }
        match choice {
            0 => assert_eq!(self.scene.make_root(node), is_there),
            1 => assert_eq!(self.scene.move_to_front(node), parent.is_some()),
            _ => assert_eq!(self.scene.move_to_back(node), parent.is_some()),
        }
        if let Some(parent) = parent.filter(|_| choice != 0) {
            let at = if choice == 1 { 0 } else { self.model.children(parent).len() };
            self.model.place_under(node, parent, at);
        }
    }

    fn remove(&mut self) {
        let node = self.node();
        let value = self.model.0.get(&node).map(|known| known.value);
        assert_eq!(self.scene.remove(node), value);
        if value.is_some() {
            self.model.leave(node);
            for gone in self.model.below(node).into_iter().chain([node]) {
                self.model.0.remove(&gone);
            }
        }
    }

    fn look(&mut self) {
        let (node, other) = (self.node(), self.node());
        let (scene, model) = (&self.scene, &self.model);
        let (value, above) = (model.0.get(&node).map(|known| known.value), model.above(node));
        assert_eq!((scene.contains_key(node), scene.get(node).copied()), (value.is_some(), value));
        if let Some(value) = value {
            assert_eq!(scene[node], value);
        }
        assert_eq!((scene.parent(node), scene.depth(node)), (model.parent(node), value.map(|_| above.len())));
        assert!(scene.ancestors(node).eq(above.iter().copied()));
        assert_eq!(scene.is_within(node, other), model.is_within(node, other));
        let children = model.children(node);
        assert_eq!((scene.first_child(node), scene.last_child(node)), (children.first().copied(), children.last().copied()));
        let siblings = model.parent(node).map_or(&[][..], |parent| model.children(parent));
        let place = siblings.iter().position(|child| *child == node);
        let next = place.and_then(|at| siblings.get(at + 1)).copied();
        let previous = place.and_then(|at| siblings.get(at.checked_sub(1)?)).copied();
        assert_eq!((scene.next_sibling(node), scene.prev_sibling(node)), (next, previous));
        let values: Vec<Offset> = value.into_iter().chain(above.iter().map(|node| model.0[node].value)).collect();
        let folded = scene.fold_up(node, Vec::new(), |mut all: Vec<Offset>, value| {
            all.push(*value);
            all
        });
        assert_eq!(folded, value.map(|_| values.clone()));
        let world = values.into_iter().reduce(|below, above| below.under(&above));
        assert_eq!((scene.world(node), scene.world_transform(node)), (world, world));
    }

    fn write(&mut self) {
        let (node, value) = (self.node(), self.value());
        let known = self.model.0.get_mut(&node).map(|known| &mut known.value);
        let lent = self.scene.get_mut(node);
        assert_eq!(lent, known);
        if let (Some(lent), Some(known)) = (lent, known) {
            (*lent, *known) = (value, value);
        }
    }

    fn walk_children(&mut self) {
        let node = self.node();
        let (mut iter, mut left) = (self.scene.children(node), self.model.children(node));
        loop {
            assert_eq!((iter.len(), iter.size_hint()), (left.len(), (left.len(), Some(left.len()))));
            let (child, wanted) = match self.random.one_of(2) {
                true => (iter.next(), take_first(&mut left)),
                false => (iter.next_back(), take_last(&mut left)),
            };
            assert_eq!(child, wanted.copied());
            if wanted.is_none() {
                return;
            }
        }
    }

    fn walk_below(&mut self) {
        let (node, key) = (self.node(), self.node());
        let below = self.model.below(node);
        assert!(self.scene.keys_below(node).eq(below.iter().copied()));
        assert_eq!(self.scene.descendants(node).expect("memory").as_slice(), below);
        let steps = std::iter::successors(self.scene.next_below(node, node), |key| self.scene.next_below(node, *key));
        assert!(steps.eq(below.iter().copied()));
        let visits = self.scene.walk(node).map(|visit| match visit {
            Visit::Enter(key) => (true, key),
            Visit::Leave(key) => (false, key),
        });
        assert!(visits.eq(self.model.visits(node)));
        // From any other key the walk goes on to the end of the tree that it is in.
        let top = if self.model.is_within(key, node) { Some(node) } else { self.model.above(key).last().copied().or(Some(key)) };
        let order: Vec<NodeKey> = top.into_iter().flat_map(|top| std::iter::once(top).chain(self.model.below(top))).collect();
        let place = order.iter().position(|other| *other == key).filter(|_| self.model.has(key));
        assert_eq!(self.scene.next_below(node, key), place.and_then(|at| order.get(at + 1).copied()));
    }

    fn walk_all(&mut self) {
        let (nodes, roots) = (self.model.by_index(), self.model.roots());
        let (scene, model) = (&self.scene, &self.model);
        let pairs = || nodes.iter().map(|node| (*node, &model.0[node].value));
        assert!(scene.iter().eq(pairs()) && scene.into_iter().eq(pairs()));
        assert!(scene.keys().eq(nodes.iter().copied()));
        assert!(scene.values().eq(pairs().map(|pair| pair.1)));
        assert!(scene.roots().eq(roots.iter().copied()));
        assert_eq!((scene.iter().len(), scene.keys().len(), scene.values().len()), (nodes.len(), nodes.len(), nodes.len()));
        // The roots come first, then their children, then the children of these.
        let mut levels = roots;
        let mut at = 0;
        while at < levels.len() {
            levels.extend(model.children(levels[at]));
            at += 1;
        }
        let transforms = scene.world_transforms().expect("memory");
        let wanted = levels.iter().map(|node| (*node, scene.world(*node).expect("it is there")));
        assert!(transforms.iter().copied().eq(wanted));
    }

    fn look_at_all(&self) {
        let count = self.model.0.len();
        assert_eq!((self.scene.len(), self.scene.is_empty()), (count, count == 0));
        assert!(self.scene.capacity() >= count);
    }

    /// A copy has the same trees, and returns the same new keys. The test goes on with the copy.
    fn copy(&mut self) {
        let (mut copy, value) = (self.scene.clone().expect("memory"), self.value());
        let node = copy.add_root(value).ok().expect("memory");
        assert_eq!(self.scene.add_root(value).ok(), Some(node));
        assert_eq!(format!("{copy:?}"), format!("{:?}", self.scene));
        self.scene = copy;
        self.note(node, value);
        self.walk_all();
    }

    fn room(&mut self) {
        match self.random.below(4) {
            0 => {
                self.scene.clear();
                self.model.0.clear();
            }
            1 => assert!(matches!(self.scene.reserve(u32::MAX as usize), Err(ReserveError::TooGreat))),
            _ => {
                let additional = self.random.below(50);
                assert!(self.scene.reserve(additional).is_ok());
                assert!(self.scene.capacity() >= self.model.0.len() + additional);
            }
        }
    }

    fn call(&mut self) {
        match self.random.below(64) {
            0..=13 => self.add(),
            14..=18 => self.insert(),
            19..=26 => self.reparent(),
            27..=34 => self.move_beside(),
            35..=40 => self.move_to_end(),
            41..=45 => self.remove(),
            46..=51 => self.look(),
            52..=54 => self.write(),
            55 | 56 => self.walk_children(),
            57..=59 => self.walk_below(),
            60 | 61 => self.walk_all(),
            62 => self.copy(),
            _ => self.room(),
        }
        self.look_at_all();
    }
}

#[test]
fn beside_trees() {
    each_seed("Scene", SEEDS, |random| {
        let scene = Scene::with_key(Global).expect("memory");
        let mut beside = Beside { random, scene, model: Model::default(), issued: Issued::new() };
        for _ in 0..CALLS {
            beside.call();
        }
    });
}

#[test]
fn made_with_room() {
    let scene: Scene<DefaultKey, u64> = Scene::with_capacity(Global, 9).expect("memory");
    assert!(scene.is_empty() && scene.capacity() >= 9);
    let scene: Scene<NodeKey, u64> = Scene::with_capacity_and_key(Global, 9).expect("memory");
    assert!(scene.is_empty() && scene.capacity() >= 9);
    assert!(matches!(Scene::<DefaultKey, ()>::with_capacity(Global, u32::MAX as usize), Err(ReserveError::TooGreat)));
}

/// What is printed: the trees, in one line or with a line for each node.
#[test]
fn shown() {
    let mut scene: Scene<DefaultKey, &str> = Scene::new(Global).expect("memory");
    let boat = scene.add_root("boat").ok().expect("memory");
    let mast = scene.add_child(boat, "mast").ok().expect("memory");
    assert!(scene.add_child(mast, "flag").is_ok() && scene.add_root("buoy").is_ok());
    let text = format!("{scene:?}");
    let place = |name: &str| text.find(name).unwrap_or_else(|| panic!("{name} in {text}"));
    assert!(place("boat") < place("mast") && place("mast") < place("flag") && place("flag") < place("buoy"));
    assert!(format!("{scene:#?}").lines().count() > 4 && text.lines().count() == 1);
    assert_eq!(format!("{:?}", scene.children(boat)), "ChildKeys { remaining: 1 }");
}

#[test]
fn offsets() {
    let (hand, elbow) = (Offset { x: 3, y: -4 }, Offset { x: i32::MAX, y: 0 });
    assert_eq!(hand.under(&elbow), Offset { x: i32::MIN + 2, y: -4 });
    assert_eq!(hand.transform(), hand);
    assert!(DefaultKey::null().is_null());
}
