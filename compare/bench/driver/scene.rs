//! A tree in one vector, whose siblings are linked both ways by numbers of 4 bytes. A move looks first whether it would make a cycle.
//! The operations are those of port/scene.template. `stamped.rs` is built with links as wide as indextree's.

use crate::operations::Scene as Operation;
use crate::shuffler::Shuffler;
use crate::value::Sum;

const END: u32 = u32::MAX;

struct Node {
    value: u64,
    parent: u32,
    prev: u32,
    next: u32,
    first: u32,
    last: u32,
}

struct Tree {
    nodes: Vec<Node>,
}

impl Tree {
    fn with_room(n: usize) -> Tree {
        Tree { nodes: Vec::with_capacity(n) }
    }

    fn add(&mut self, value: u64) -> u32 {
        self.nodes.push(Node { value, parent: END, prev: END, next: END, first: END, last: END });
        self.nodes.len() as u32 - 1
    }

    fn append(&mut self, node: u32, parent: u32) {
        let last = self.nodes[parent as usize].last;
        match last {
            END => self.nodes[parent as usize].first = node,
            last => self.nodes[last as usize].next = node,
        }
        self.nodes[parent as usize].last = node;
        let node = &mut self.nodes[node as usize];
        (node.parent, node.prev, node.next) = (parent, last, END);
    }

    fn leave(&mut self, node: u32) {
        let Node { parent, prev, next, .. } = self.nodes[node as usize];
        match prev {
            END => self.nodes[parent as usize].first = next,
            prev => self.nodes[prev as usize].next = next,
        }
        match next {
            END => self.nodes[parent as usize].last = prev,
            next => self.nodes[next as usize].prev = prev,
        }
    }

    fn is_within(&self, node: u32, other: u32) -> bool {
        let mut at = node;
        while at != END && at != other {
            at = self.nodes[at as usize].parent;
        }
        at == other
    }

    fn reparent(&mut self, node: u32, parent: u32) -> bool {
        let can = !self.is_within(parent, node);
        if can {
            self.leave(node);
            self.append(node, parent);
        }
        can
    }
}

fn filled<const HAS_ROOM: bool>(n: u64) -> Tree {
    let (mut tree, mut shuffler) = (Tree::with_room(if HAS_ROOM { n as usize } else { 0 }), Shuffler::new());
    tree.add(0);
    for value in 1..n {
        let parent = shuffler.below(value as usize) as u32;
        let node = tree.add(value);
        tree.append(node, parent);
    }
    tree
}

fn move_all(tree: &mut Tree, shuffler: &mut Shuffler) -> u64 {
    let mut moved = Sum::default();
    for node in 1..tree.nodes.len() as u32 {
        let parent = shuffler.below(node as usize) as u32;
        moved.add(u64::from(tree.reparent(node, parent)));
    }
    moved.0
}

fn climb(tree: &Tree) -> u64 {
    let mut sum = Sum::default();
    for node in 0..tree.nodes.len() as u32 {
        let mut at = node;
        while at != END {
            sum.add(tree.nodes[at as usize].value);
            at = tree.nodes[at as usize].parent;
        }
    }
    sum.0
}

fn list_children(tree: &Tree) -> u64 {
    let mut sum = Sum::default();
    for node in &tree.nodes {
        let mut at = node.first;
        while at != END {
            sum.add(tree.nodes[at as usize].value);
            at = tree.nodes[at as usize].next;
        }
    }
    sum.0
}

/// Trees that are built in a process that has done nothing before.
fn built_first<const HAS_ROOM: bool>(n: u64, rounds: u64) -> u64 {
    (0..rounds).map(|_| filled::<HAS_ROOM>(n).nodes.len() as u64).sum()
}

fn steady(operation: Operation, n: u64, rounds: u64) -> u64 {
    let mut tree = filled::<false>(n);
    let mut shuffler = Shuffler::new();
    let mut sum = Sum::default();
    for _ in 0..rounds {
        sum.add(match operation {
            Operation::Move => move_all(&mut tree, &mut shuffler),
            Operation::Climb => climb(&tree),
            Operation::Children => list_children(&tree),
            _ => filled::<false>(n).nodes.len() as u64,
        });
    }
    sum.0
}

pub fn workload(operation: Operation, n: u64, rounds: u64) -> u64 {
    match operation {
        Operation::BuildFirst => built_first::<false>(n, rounds),
        Operation::BuildRoom => built_first::<true>(n, rounds),
        _ => steady(operation, n, rounds),
    }
}
