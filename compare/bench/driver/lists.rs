//! Eight lists in one vector, whose nodes name each other by their places, and the list that each is in. A place doesn't tell whether
//! its node was replaced, as a cursor of the port does. The operations are those of port/lists.template.

use crate::operations::Lists as Operation;
use crate::shuffler::Shuffler;
use crate::value::Sum;

const END: u32 = u32::MAX;
const LISTS: usize = 8;

struct Node {
    value: u64,
    prev: u32,
    next: u32,
    list: u32,
}

/// The first and the last node of a list, and how many there are.
#[derive(Clone, Copy)]
struct Ends {
    first: u32,
    last: u32,
    len: u64,
}

struct Lists {
    nodes: Vec<Node>,
    ends: Vec<Ends>,
    vacant: u32,
}

impl Lists {
    fn with_room(n: usize) -> Lists {
        let ends = vec![Ends { first: END, last: END, len: 0 }; LISTS];
        Lists { nodes: Vec::with_capacity(n), ends, vacant: END }
    }

    fn link_last(&mut self, list: usize, at: u32) {
        let last = self.ends[list].last;
        match last {
            END => self.ends[list].first = at,
            last => self.nodes[last as usize].next = at,
        }
        self.ends[list].last = at;
        self.ends[list].len += 1;
        let node = &mut self.nodes[at as usize];
        (node.prev, node.next, node.list) = (last, END, list as u32);
    }

    fn unlink(&mut self, at: u32) -> u64 {
        let Node { value, prev, next, list } = self.nodes[at as usize];
        let ends = &mut self.ends[list as usize];
        ends.len -= 1;
        match prev {
            END => ends.first = next,
            prev => self.nodes[prev as usize].next = next,
        }
        match next {
            END => ends.last = prev,
            next => self.nodes[next as usize].prev = prev,
        }
        value
    }

    fn push_back(&mut self, list: usize, value: u64) -> u32 {
        let node = Node { value, prev: END, next: END, list: 0 };
        let mut at = self.vacant;
        if at == END {
            at = self.nodes.len() as u32;
            self.nodes.push(node);
        } else {
            self.vacant = self.nodes[at as usize].next;
            self.nodes[at as usize] = node;
        }
        self.link_last(list, at);
        at
    }

    fn remove(&mut self, at: u32) -> u64 {
        let value = self.unlink(at);
        self.nodes[at as usize].next = self.vacant;
        self.vacant = at;
        value
    }

    fn move_to_back(&mut self, at: u32, list: usize) {
        self.unlink(at);
        self.link_last(list, at);
    }

    fn pop_front(&mut self, list: usize) -> Option<u64> {
        match self.ends[list].first {
            END => None,
            first => Some(self.remove(first)),
        }
    }

    fn len(&self) -> u64 {
        self.ends.iter().map(|it| it.len).sum()
    }
}

fn push_all(n: u64, has_room: bool) -> u64 {
    let mut lists = Lists::with_room(if has_room { n as usize } else { 0 });
    for i in 0..n {
        lists.push_back(i as usize % LISTS, i);
    }
    lists.len()
}

fn move_all(lists: &mut Lists, places: &[u32], shuffler: &mut Shuffler) -> u64 {
    for place in places {
        lists.move_to_back(*place, shuffler.below(LISTS));
    }
    places.len() as u64
}

fn churn(lists: &mut Lists, places: &mut [u32], shuffler: &mut Shuffler) -> u64 {
    let mut sum = Sum::default();
    for place in places {
        let value = lists.remove(*place);
        sum.add(value);
        *place = lists.push_back(shuffler.below(LISTS), value.wrapping_add(1));
    }
    sum.0
}

fn queue(lists: &mut Lists, n: u64) -> u64 {
    let mut sum = 0u64;
    for i in 0..n as usize {
        if let Some(value) = lists.pop_front(i % LISTS) {
            lists.push_back((i + 1) % LISTS, value);
            sum = sum.wrapping_mul(3).wrapping_add(value);
        }
    }
    sum
}

/// Lists that are filled in a process that has done nothing before.
fn pushed_first(n: u64, rounds: u64, has_room: bool) -> u64 {
    (0..rounds).map(|_| push_all(n, has_room)).sum()
}

fn steady(operation: Operation, n: u64, rounds: u64) -> u64 {
    let mut lists = Lists::with_room(0);
    let mut places: Vec<u32> = (0..n).map(|i| lists.push_back(i as usize % LISTS, i)).collect();
    let mut shuffler = Shuffler::new();
    shuffler.shuffle(&mut places);
    let mut sum = Sum(move_all(&mut lists, &places, &mut shuffler));
    for _ in 0..rounds {
        sum.add(match operation {
            Operation::Move => move_all(&mut lists, &places, &mut shuffler),
            Operation::Churn => churn(&mut lists, &mut places, &mut shuffler),
            Operation::Queue => queue(&mut lists, n),
            _ => push_all(n, false),
        });
    }
    sum.0
}

pub fn workload(operation: Operation, n: u64, rounds: u64) -> u64 {
    match operation {
        Operation::PushFirst => pushed_first(n, rounds, false),
        Operation::PushRoom => pushed_first(n, rounds, true),
        _ => steady(operation, n, rounds),
    }
}
