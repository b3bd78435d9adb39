//! A tree as in `scene.rs`, built with links as wide as indextree's. Each is an index of 8 bytes with a stamp, 16 bytes in all. A node
//! has a stamp of its own, and its value is one of two cases, so it takes 104 bytes. None of that crate's code or tests is here.

use crate::operations::Scene as Operation;
use crate::shuffler::Shuffler;
use std::num::NonZeroUsize;

#[derive(Clone, Copy)]
struct Id {
    place: NonZeroUsize,
    stamp: i16,
}

#[allow(dead_code)]
enum Data {
    Value(u64),
    Vacant(Option<usize>),
}

#[allow(dead_code)]
struct Node {
    parent: Option<Id>,
    prev: Option<Id>,
    next: Option<Id>,
    first: Option<Id>,
    last: Option<Id>,
    stamp: i16,
    data: Data,
}

const _: () = assert!(size_of::<Node>() == 104);

struct Tree {
    nodes: Vec<Node>,
}

impl Tree {
    fn id_of(&self, place: usize) -> Option<Id> {
        Some(Id { place: NonZeroUsize::new(place + 1)?, stamp: self.nodes[place].stamp })
    }

    fn node(&mut self, id: Id) -> &mut Node {
        &mut self.nodes[id.place.get() - 1]
    }

    fn add(&mut self, value: u64) -> Option<Id> {
        let [parent, prev, next, first, last] = [None; 5];
        self.nodes.push(Node { parent, prev, next, first, last, stamp: 0, data: Data::Value(value) });
        self.id_of(self.nodes.len() - 1)
    }

    fn append(&mut self, id: Id, parent: Id) {
        let last = self.node(parent).last;
        match last {
            None => self.node(parent).first = Some(id),
            Some(last) => self.node(last).next = Some(id),
        }
        self.node(parent).last = Some(id);
        let node = self.node(id);
        (node.parent, node.prev, node.next) = (Some(parent), last, None);
    }
}

fn filled<const HAS_ROOM: bool>(n: u64) -> Tree {
    let mut tree = Tree { nodes: Vec::with_capacity(if HAS_ROOM { n as usize } else { 0 }) };
    let mut shuffler = Shuffler::new();
    tree.add(0);
    for value in 1..n {
        let parent = tree.id_of(shuffler.below(value as usize));
        if let (Some(node), Some(parent)) = (tree.add(value), parent) {
            tree.append(node, parent);
        }
    }
    tree
}

fn built<const HAS_ROOM: bool>(n: u64, rounds: u64) -> u64 {
    (0..rounds).map(|_| filled::<HAS_ROOM>(n).nodes.len() as u64).sum()
}

/// Builds trees; there is no other operation here.
pub fn workload(operation: Operation, n: u64, rounds: u64) -> u64 {
    match operation {
        Operation::BuildFirst => built::<false>(n, rounds),
        Operation::BuildRoom => built::<true>(n, rounds),
        _ => {
            drop(filled::<false>(n)); // as the port's side, which has one before the rounds
            built::<false>(n, rounds)
        }
    }
}
