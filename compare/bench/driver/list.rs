//! A list in one vector, whose nodes name each other by their places, as in the crates for lists with stable places. A place
//! doesn't tell whether its node was replaced, as a cursor of the port does. The operations are those of port/list.template.

use crate::operations::List as Operation;
use crate::shuffler::Shuffler;
use crate::value::Sum;

const END: u32 = u32::MAX;

struct Node {
    value: u64,
    prev: u32,
    next: u32,
}

struct List {
    nodes: Vec<Node>,
    vacant: u32,
    first: u32,
    last: u32,
    len: u64,
}

impl List {
    fn with_room(n: usize) -> List {
        List { nodes: Vec::with_capacity(n), vacant: END, first: END, last: END, len: 0 }
    }

    fn push_back(&mut self, value: u64) -> u32 {
        let node = Node { value, prev: self.last, next: END };
        let mut at = self.vacant;
        if at == END {
            at = self.nodes.len() as u32;
            self.nodes.push(node);
        } else {
            self.vacant = self.nodes[at as usize].next;
            self.nodes[at as usize] = node;
        }
        match self.last {
            END => self.first = at,
            last => self.nodes[last as usize].next = at,
        }
        self.last = at;
        self.len += 1;
        at
    }

    fn unlink(&mut self, at: u32) -> u64 {
        let Node { value, prev, next } = self.nodes[at as usize];
        match prev {
            END => self.first = next,
            prev => self.nodes[prev as usize].next = next,
        }
        match next {
            END => self.last = prev,
            next => self.nodes[next as usize].prev = prev,
        }
        value
    }

    fn remove(&mut self, at: u32) -> u64 {
        let value = self.unlink(at);
        self.nodes[at as usize].next = self.vacant;
        self.vacant = at;
        self.len -= 1;
        value
    }

    fn move_to_front(&mut self, at: u32) {
        self.unlink(at);
        match self.first {
            END => self.last = at,
            first => self.nodes[first as usize].prev = at,
        }
        self.nodes[at as usize].prev = END;
        self.nodes[at as usize].next = self.first;
        self.first = at;
    }

    fn walk(&self) -> u64 {
        let (mut sum, mut at) = (0u64, self.first);
        while at != END {
            let node = &self.nodes[at as usize];
            sum = sum.wrapping_mul(3).wrapping_add(node.value);
            at = node.next;
        }
        sum
    }
}

fn push_all(n: u64, has_room: bool) -> u64 {
    let mut list = List::with_room(if has_room { n as usize } else { 0 });
    for i in 0..n {
        list.push_back(i);
    }
    list.len
}

fn touch(list: &mut List, places: &[u32]) -> u64 {
    for place in places {
        list.move_to_front(*place);
    }
    places.len() as u64
}

fn churn(list: &mut List, places: &mut [u32]) -> u64 {
    let mut sum = Sum::default();
    for place in places {
        let value = list.remove(*place);
        sum.add(value);
        *place = list.push_back(value.wrapping_add(1));
    }
    sum.0
}

/// Lists that are filled in a process that has done nothing before.
fn pushed_first(n: u64, rounds: u64, has_room: bool) -> u64 {
    (0..rounds).map(|_| push_all(n, has_room)).sum()
}

fn steady(operation: Operation, n: u64, rounds: u64) -> u64 {
    let mut list = List::with_room(0);
    let mut places: Vec<u32> = (0..n).map(|i| list.push_back(i)).collect();
    Shuffler::new().shuffle(&mut places);
    let mut sum = Sum(touch(&mut list, &places));
    for _ in 0..rounds {
        sum.add(match operation {
            Operation::Walk => list.walk(),
            Operation::Touch => touch(&mut list, &places),
            Operation::Churn => churn(&mut list, &mut places),
            _ => push_all(n, false),
        });
    }
    sum.0
}

pub fn workload(operation: Operation, n: u64, rounds: u64) -> u64 {
    match operation {
        Operation::PushFirst => pushed_first(n, rounds, false),
        Operation::PushRoom => pushed_first(n, rounds, true),
        _ => steady(operation, n, rounds),
    }
}
