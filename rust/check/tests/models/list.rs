//! `list`, `made`, `copy` and `other` are a StableList. Its model is a vector of the cursors with their values.

use slotmap_proved::errors::ReserveError;
use slotmap_proved::list::{Cursor, PlaceError, PushError, StableList};
use slotmap_proved::{Global, NodeKey};
use super::common::keys::Issued;
use super::common::random::Random;
use super::common::seeds::each_seed;
use super::common::{take_first, take_last};

const SEEDS: u64 = 20;
const CALLS: usize = 10_000;

struct Beside<'a> {
    random: &'a mut Random,
    list: StableList<Cursor, u64>,
    model: Vec<(Cursor, u64)>,
    issued: Issued<Cursor>,
}

impl Beside<'_> {
    fn value(&mut self) -> u64 {
        self.random.draw() % 1000
    }

    fn cursor(&mut self) -> Cursor {
        let live: Vec<Cursor> = self.model.iter().map(|element| element.0).collect();
        self.issued.pick(self.random, &live)
    }

    fn place(&self, cursor: Cursor) -> Option<usize> {
        self.model.iter().position(|element| element.0 == cursor)
    }

    fn add(&mut self, at: usize, cursor: Cursor, value: u64) {
        self.issued.note(cursor);
        self.model.insert(at, (cursor, value));
    }

    fn push(&mut self) {
        let value = self.value();
        if self.random.one_of(2) {
            let cursor = self.list.push_back(value).ok().expect("memory");
            self.add(self.model.len(), cursor, value);
        } else {
            let cursor = self.list.push_front(value).ok().expect("memory");
            self.add(0, cursor, value);
        }
    }

    fn insert(&mut self) {
        let (cursor, value, after) = (self.cursor(), self.value(), self.random.one_of(2));
        let made = match after {
            true => self.list.insert_after(cursor, value),
            false => self.list.insert_before(cursor, value),
        };
        match (made, self.place(cursor)) {
            (Ok(made), Some(at)) => self.add(at + usize::from(after), made, value),
            (Err(PlaceError::Gone(back)), None) => assert_eq!(back, value),
            (made, at) => panic!("{made:?} at {at:?}"),
        }
    }

    fn take(&mut self) {
        let taken = match self.random.below(3) {
            0 => {
                let first = (!self.model.is_empty()).then(|| self.model.remove(0));
                assert_eq!(self.list.pop_front(), first);
                return;
            }
            1 => {
                assert_eq!(self.list.pop_back(), self.model.pop());
                return;
            }
            _ => self.cursor(),
        };
        let value = self.place(taken).map(|at| self.model.remove(at).1);
        assert_eq!(self.list.remove(taken), value);
    }

    fn move_to_end(&mut self) {
        let (cursor, to_front) = (self.cursor(), self.random.one_of(2));
        let place = self.place(cursor);
        if let Some(at) = place {
            let element = self.model.remove(at);
            self.model.insert(if to_front { 0 } else { self.model.len() }, element);
        }
        let moved = match to_front {
            true => self.list.move_to_front(cursor),
            false => self.list.move_to_back(cursor),
        };
        assert_eq!(moved, place.is_some());
    }

    fn move_beside(&mut self) {
        let (cursor, other, after) = (self.cursor(), self.cursor(), self.random.one_of(2));
        let can_move = cursor != other && self.place(cursor).is_some() && self.place(other).is_some();
        if can_move {
            let element = self.model.remove(self.place(cursor).expect("it is there"));
            let at = self.place(other).expect("it is there");
            self.model.insert(at + usize::from(after), element);
        }
        let moved = match after {
            true => self.list.move_after(cursor, other),
            false => self.list.move_before(cursor, other),
        };
        assert_eq!(moved, can_move);
    }

    fn swap(&mut self) {
        let (cursor, other) = (self.cursor(), self.cursor());
        let swapped = match (self.place(cursor), self.place(other)) {
            (Some(one), Some(two)) if one != two => {
                self.model.swap(one, two);
                true
            }
            _ => false,
        };
        assert_eq!(self.list.swap(cursor, other), swapped);
    }

    fn write(&mut self) {
        let (cursor, value) = (self.cursor(), self.value());
        let place = self.place(cursor);
        let (lent, kept) = match self.random.below(3) {
            0 => (self.list.get_mut(cursor), place.map(|at| &mut self.model[at].1)),
            1 => (self.list.front_mut(), self.model.first_mut().map(|element| &mut element.1)),
            _ => (self.list.back_mut(), self.model.last_mut().map(|element| &mut element.1)),
        };
        assert_eq!(lent, kept);
        if let (Some(lent), Some(kept)) = (lent, kept) {
            (*lent, *kept) = (value, value);
        }
    }

    fn look(&mut self) {
        let cursor = self.cursor();
        let place = self.place(cursor);
        let next = place.and_then(|at| self.model.get(at + 1));
        let previous = place.and_then(|at| self.model.get(at.checked_sub(1)?));
        assert_eq!(self.list.contains(cursor), place.is_some());
        assert_eq!(self.list.get(cursor), place.map(|at| &self.model[at].1));
        assert_eq!(self.list.next(cursor), next.map(|element| element.0));
        assert_eq!(self.list.prev(cursor), previous.map(|element| element.0));
        assert_eq!(self.list.next_element(cursor), next.map(|element| (element.0, &element.1)));
        assert_eq!(self.list.prev_element(cursor), previous.map(|element| (element.0, &element.1)));
        if let Some(at) = place {
            assert_eq!(self.list[cursor], self.model[at].1);
        }
        let rest = place.map_or(&[][..], |at| &self.model[at..]);
        assert!(self.list.iter_from(cursor).eq(rest.iter().map(|element| (element.0, &element.1))));
    }

    fn look_at_ends(&self) {
        let (first, last) = (self.model.first(), self.model.last());
        assert_eq!((self.list.len(), self.list.is_empty()), (self.model.len(), self.model.is_empty()));
        assert_eq!((self.list.first(), self.list.last()), (first.map(|end| end.0), last.map(|end| end.0)));
        assert_eq!((self.list.front(), self.list.back()), (first.map(|end| &end.1), last.map(|end| &end.1)));
        assert!(self.list.capacity() >= self.list.len());
    }

    /// Goes along the list from both ends by turns.
    fn walk(&mut self) {
        let (mut iter, mut cursors, mut values) = (self.list.iter(), self.list.cursors(), self.list.values());
        let mut left = self.model.as_slice();
        loop {
            assert_eq!((iter.len(), cursors.len(), values.len()), (left.len(), left.len(), left.len()));
            assert_eq!(iter.size_hint(), (left.len(), Some(left.len())));
            let (item, cursor, value, wanted) = if self.random.one_of(2) {
                let wanted = take_first(&mut left);
                (iter.next(), cursors.next(), values.next(), wanted)
            } else {
                let wanted = take_last(&mut left);
                (iter.next_back(), cursors.next_back(), values.next_back(), wanted)
            };
            assert_eq!(item, wanted.map(|element| (element.0, &element.1)));
            assert_eq!((cursor, value), (item.map(|pair| pair.0), item.map(|pair| pair.1)));
            if wanted.is_none() {
                return;
            }
        }
    }

    fn retain(&mut self) {
        let divisor = 2 + self.random.below(5) as u64;
        let mut seen = Vec::new();
        self.list.retain(|cursor, value| {
            seen.push((cursor, *value));
            *value += 1;
            *value % divisor != 0
        });
        assert_eq!(seen, self.model);
        self.model.iter_mut().for_each(|element| element.1 += 1);
        self.model.retain(|element| element.1 % divisor != 0);
    }

    /// Takes some elements out, and drops the iterator: the rest goes too.
    fn drain(&mut self) {
        let (count, mut drain) = (self.random.below(self.model.len() + 2), self.list.drain());
        for element in self.model.iter().take(count) {
            assert_eq!(drain.next(), Some(*element));
        }
        let left = self.model.len().saturating_sub(count);
        assert_eq!((drain.len(), drain.size_hint()), (left, (left, Some(left))));
        drop(drain);
        self.model.clear();
    }

    /// New elements are at the back. They have new cursors.
    fn note_added(&mut self, values: &[u64]) {
        let added: Vec<(Cursor, u64)> = self.list.iter().skip(self.model.len()).map(|(cursor, value)| (cursor, *value)).collect();
        assert!(added.iter().map(|element| &element.1).eq(values));
        for (cursor, value) in added {
            self.add(self.model.len(), cursor, value);
        }
    }

    fn extend(&mut self) {
        let values: Vec<u64> = (0..self.random.below(10)).map(|_| self.value()).collect();
        if self.random.one_of(2) {
            assert!(self.list.extend(values.iter().copied()).is_ok());
        } else {
            let mut other: StableList<NodeKey, u64> = StableList::with_key(Global).expect("memory");
            assert!(other.extend(values.iter().copied()).is_ok());
            let gone = other.first();
            assert!(self.list.append(&mut other).is_ok());
            assert!(other.is_empty() && gone.map_or(true, |cursor| !other.contains(cursor)));
        }
        self.note_added(&values);
    }

    /// A copy has the same elements, and returns the same new cursors. The test goes on with the copy.
    fn copy(&mut self) {
        let mut copy = self.list.clone().expect("memory");
        assert!(copy.iter().eq(self.list.iter()));
        assert_eq!(copy.push_back(7).ok(), self.list.push_back(7).ok());
        self.note_added(&[7]);
        let old = std::mem::replace(&mut self.list, copy);
        self.take_apart(old);
    }

    /// Takes all elements out by value, from both ends by turns.
    fn take_apart(&mut self, old: StableList<Cursor, u64>) {
        let mut left: std::collections::VecDeque<(Cursor, u64)> = self.model.iter().copied().collect();
        let mut iter = old.into_iter();
        loop {
            assert_eq!(iter.len(), left.len());
            let (is, must) = match self.random.one_of(2) {
                true => (iter.next(), left.pop_front()),
                false => (iter.next_back(), left.pop_back()),
            };
            assert_eq!(is, must);
            if must.is_none() {
                return;
            }
        }
    }

    fn show(&self) {
        let values: Vec<u64> = self.model.iter().map(|element| element.1).collect();
        assert_eq!(format!("{:?}", self.list), format!("{values:?}"));
        assert_eq!(self.list.to_vec(Global).expect("memory").as_slice(), values);
        assert!((&self.list).into_iter().map(|pair| *pair.1).eq(values));
    }

    fn room(&mut self) {
        match self.random.below(8) {
            0 => {
                self.list.clear();
                self.model.clear();
            }
            1 => {
                let additional = self.random.below(50);
                assert!(self.list.reserve(additional).is_ok());
                assert!(self.list.capacity() >= self.model.len() + additional);
            }
            2 => {
                let before = self.list.capacity();
                assert!(matches!(self.list.reserve(u32::MAX as usize), Err(ReserveError::TooGreat)));
                assert_eq!(self.list.capacity(), before);
            }
            _ => {}
        }
    }

    fn call(&mut self) {
        match self.random.below(32) {
            0..=4 => self.push(),
            5..=8 => self.insert(),
            9..=13 => self.take(),
            14 | 15 => self.move_to_end(),
            16..=19 => self.move_beside(),
            20 | 21 => self.swap(),
            22 | 23 => self.write(),
            24..=27 => self.look(),
            28 => self.walk(),
            29 if self.random.one_of(4) => self.retain(),
            30 if self.random.one_of(8) => self.drain(),
            30 => self.extend(),
            31 if self.random.one_of(4) => self.copy(),
            31 => self.room(),
            _ => self.show(),
        }
        self.look_at_ends();
    }
}

#[test]
fn beside_a_vector() {
    each_seed("StableList", SEEDS, |random| {
        let list = StableList::new(Global).expect("memory");
        let mut beside = Beside { random, list, model: Vec::new(), issued: Issued::new() };
        for _ in 0..CALLS {
            beside.call();
        }
        beside.walk();
    });
}

#[test]
fn made_with_room() {
    for capacity in [0, 1, 2, 3, 100] {
        let made: StableList<Cursor, u64> = StableList::with_capacity(Global, capacity).expect("memory");
        let other: StableList<NodeKey, u64> = StableList::with_capacity_and_key(Global, capacity).expect("memory");
        assert!(made.is_empty() && made.capacity() >= capacity && other.is_empty() && other.capacity() >= capacity);
    }
    let too_great = u32::MAX as usize;
    assert!(StableList::<Cursor, ()>::with_capacity(Global, too_great).is_err());
    let made: StableList<Cursor, u64> = StableList::from_iter(Global, [3, 1, 2]).ok().expect("memory");
    assert_eq!(made.to_vec(Global).expect("memory").as_slice(), [3, 1, 2]);
    assert!(StableList::<Cursor, u64>::from_iter(Global, []).ok().expect("memory").is_empty());
}

#[test]
fn errors() {
    let errors = [PushError::Full(1).to_string(), PushError::Memory(1).to_string()];
    assert!(errors[0] != errors[1]);
    let errors = [PlaceError::Gone(1).to_string(), PlaceError::Full(1).to_string(), PlaceError::Memory(1).to_string()];
    assert!(errors[0] != errors[1] && errors[1] != errors[2]);
}
