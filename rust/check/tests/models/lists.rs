//! `lists` and `copy` are a StableLists. The model is a vector of the cursors with their values for each list.

use slotmap_proved::errors::ReserveError;
use slotmap_proved::list::PlaceError;
use slotmap_proved::lists::{AddError, Cursor, StableLists};
use slotmap_proved::{Global, NodeKey};
use super::common::keys::Issued;
use super::common::random::Random;
use super::common::seeds::each_seed;
use super::common::{take_first, take_last};

const SEEDS: u64 = 20;
const CALLS: usize = 10_000;
const LISTS: usize = 4;

struct Beside<'a> {
    random: &'a mut Random,
    lists: StableLists<Cursor, u64>,
    model: Vec<Vec<(Cursor, u64)>>,
    issued: Issued<Cursor>,
}

impl Beside<'_> {
    fn value(&mut self) -> u64 {
        self.random.draw() % 1000
    }

    /// The number of a list, now and then of none.
    fn number(&mut self) -> usize {
        match self.random.below(12) {
            0 => *self.random.pick(&[LISTS, LISTS + 1, u32::MAX as usize, 1 << 32, usize::MAX]),
            _ => self.random.below(LISTS),
        }
    }

    fn cursor(&mut self) -> Cursor {
        let live: Vec<Cursor> = self.model.iter().flatten().map(|element| element.0).collect();
        self.issued.pick(self.random, &live)
    }

    /// The list of a cursor, and the place there.
    fn place(&self, cursor: Cursor) -> Option<(usize, usize)> {
        let place_in = |list: &Vec<(Cursor, u64)>| list.iter().position(|element| element.0 == cursor);
        self.model.iter().enumerate().find_map(|(number, list)| Some((number, place_in(list)?)))
    }

    fn add(&mut self, (number, at): (usize, usize), cursor: Cursor, value: u64) {
        self.issued.note(cursor);
        self.model[number].insert(at, (cursor, value));
    }

    fn push(&mut self) {
        let (number, value, at_back) = (self.number(), self.value(), self.random.one_of(2));
        let made = match at_back {
            true => self.lists.push_back(number, value),
            false => self.lists.push_front(number, value),
        };
        match made {
            Ok(cursor) => {
                let at = if at_back { self.model[number].len() } else { 0 };
                self.add((number, at), cursor, value);
            }
            Err(AddError::NoList(back)) => assert!(number >= LISTS && back == value),
            Err(error) => panic!("{error}"),
        }
    }

    fn insert(&mut self) {
        let (cursor, value, after) = (self.cursor(), self.value(), self.random.one_of(2));
        let made = match after {
            true => self.lists.insert_after(cursor, value),
            false => self.lists.insert_before(cursor, value),
        };
        match (made, self.place(cursor)) {
            (Ok(made), Some((number, at))) => self.add((number, at + usize::from(after)), made, value),
            (Err(PlaceError::Gone(back)), None) => assert_eq!(back, value),
            (made, at) => panic!("{made:?} at {at:?}"),
        }
    }

    fn take(&mut self) {
        let (number, cursor) = (self.number(), self.cursor());
        let list = self.model.get_mut(number);
        match self.random.below(3) {
            0 => {
                let first = list.filter(|list| !list.is_empty()).map(|list| list.remove(0));
                assert_eq!(self.lists.pop_front(number), first);
            }
            1 => assert_eq!(self.lists.pop_back(number), list.and_then(Vec::pop)),
            _ => {
                let value = self.place(cursor).map(|(number, at)| self.model[number].remove(at).1);
                assert_eq!(self.lists.remove(cursor), value);
            }
        }
    }

    fn move_to_end(&mut self) {
        let (cursor, number, to_front) = (self.cursor(), self.number(), self.random.one_of(2));
        let place = self.place(cursor).filter(|_| number < LISTS);
        if let Some((old, at)) = place {
            let element = self.model[old].remove(at);
            let at = if to_front { 0 } else { self.model[number].len() };
            self.model[number].insert(at, element);
        }
        let moved = match to_front {
            true => self.lists.move_to_front(cursor, number),
            false => self.lists.move_to_back(cursor, number),
        };
        assert_eq!(moved, place.is_some());
    }

    fn move_beside(&mut self) {
        let (cursor, other, after) = (self.cursor(), self.cursor(), self.random.one_of(2));
        let can_move = cursor != other && self.place(other).is_some();
        let place = self.place(cursor).filter(|_| can_move);
        if let Some((old, at)) = place {
            let element = self.model[old].remove(at);
            let (number, at) = self.place(other).expect("it is there");
            self.model[number].insert(at + usize::from(after), element);
        }
        let moved = match after {
            true => self.lists.move_after(cursor, other),
            false => self.lists.move_before(cursor, other),
        };
        assert_eq!(moved, place.is_some());
    }

    fn append(&mut self) {
        let (number, other) = (self.number(), self.number());
        let can_move = number != other && number < LISTS && other < LISTS;
        if can_move {
            let moved = std::mem::take(&mut self.model[other]);
            self.model[number].extend(moved);
        }
        assert_eq!(self.lists.append(number, other), can_move);
    }

    fn write(&mut self) {
        let (cursor, value) = (self.cursor(), self.value());
        let kept = self.place(cursor).map(|(number, at)| &mut self.model[number][at].1);
        let lent = self.lists.get_mut(cursor);
        assert_eq!(lent, kept);
        if let (Some(lent), Some(kept)) = (lent, kept) {
            (*lent, *kept) = (value, value);
        }
    }

    fn look(&mut self) {
        let (cursor, number) = (self.cursor(), self.number());
        let place = self.place(cursor);
        let element = place.map(|(number, at)| &self.model[number][at]);
        let next = place.and_then(|(number, at)| self.model[number].get(at + 1));
        let previous = place.and_then(|(number, at)| self.model[number].get(at.checked_sub(1)?));
        assert_eq!(self.lists.contains(cursor), place.is_some());
        assert_eq!(self.lists.list_of(cursor), place.map(|place| place.0));
        assert_eq!(self.lists.get(cursor), element.map(|element| &element.1));
        assert_eq!(self.lists.next(cursor), next.map(|element| element.0));
        assert_eq!(self.lists.prev(cursor), previous.map(|element| element.0));
        if let Some(element) = element {
            assert_eq!(self.lists[cursor], element.1);
        }
        let list = self.model.get(number).map_or(&[][..], Vec::as_slice);
        assert_eq!(self.lists.list_len(number), list.len());
        assert_eq!(self.lists.first(number), list.first().map(|element| element.0));
        assert_eq!(self.lists.last(number), list.last().map(|element| element.0));
        assert_eq!(self.lists.iter(number).is_some(), number < LISTS);
    }

    fn look_at_all(&self) {
        let count: usize = self.model.iter().map(Vec::len).sum();
        assert_eq!((self.lists.lists(), self.lists.len(), self.lists.is_empty()), (LISTS, count, count == 0));
        assert!(self.lists.capacity() >= count);
    }

    /// Goes along a list from both ends by turns.
    fn walk(&mut self) {
        let number = self.random.below(LISTS);
        let (mut iter, mut left) = (self.lists.iter(number).expect("it is there"), self.model[number].as_slice());
        loop {
            assert_eq!((iter.len(), iter.size_hint()), (left.len(), (left.len(), Some(left.len()))));
            let (item, wanted) = match self.random.one_of(2) {
                true => (iter.next(), take_first(&mut left)),
                false => (iter.next_back(), take_last(&mut left)),
            };
            assert_eq!(item, wanted.map(|element| (element.0, &element.1)));
            if wanted.is_none() {
                return;
            }
        }
    }

    fn clear_list(&mut self) {
        let number = self.number();
        self.lists.clear_list(number);
        if let Some(list) = self.model.get_mut(number) {
            list.clear();
        }
    }

    /// A copy has the same lists, and returns the same new cursors. The test goes on with the copy.
    fn copy(&mut self) {
        let mut copy = self.lists.clone().expect("memory");
        let cursor = copy.push_back(1, 7).ok().expect("memory");
        assert_eq!(self.lists.push_back(1, 7).ok(), Some(cursor));
        self.lists = copy;
        self.add((1, self.model[1].len()), cursor, 7);
        for (number, list) in self.model.iter().enumerate() {
            let iter = self.lists.iter(number).expect("it is there");
            assert!(iter.eq(list.iter().map(|element| (element.0, &element.1))));
        }
    }

    fn show(&self) {
        let values: Vec<Vec<u64>> = self.model.iter().map(|list| list.iter().map(|element| element.1).collect()).collect();
        assert_eq!(format!("{:?}", self.lists), format!("{values:?}"));
    }

    fn room(&mut self) {
        let (count, before) = (self.lists.len(), self.lists.capacity());
        if self.random.one_of(4) {
            assert!(matches!(self.lists.reserve(u32::MAX as usize), Err(ReserveError::TooGreat)));
            assert_eq!(self.lists.capacity(), before);
        } else {
            let additional = self.random.below(50);
            assert!(self.lists.reserve(additional).is_ok());
            assert!(self.lists.capacity() >= count + additional);
        }
    }

    fn call(&mut self) {
        match self.random.below(32) {
            0..=4 => self.push(),
            5..=8 => self.insert(),
            9..=13 => self.take(),
            14..=17 => self.move_to_end(),
            18..=21 => self.move_beside(),
            22 => self.append(),
            23 => self.write(),
            24..=27 => self.look(),
            28 => self.walk(),
            29 => self.clear_list(),
            30 if self.random.one_of(2) => self.copy(),
            30 => self.room(),
            _ => self.show(),
        }
        self.look_at_all();
    }
}

#[test]
fn beside_vectors() {
    each_seed("StableLists", SEEDS, |random| {
        let lists = StableLists::new(Global, LISTS).expect("memory");
        let mut beside = Beside { random, lists, model: vec![Vec::new(); LISTS], issued: Issued::new() };
        for _ in 0..CALLS {
            beside.call();
        }
    });
}

#[test]
fn made_with_room() {
    for (count, capacity) in [(0, 0), (1, 1), (3, 2), (100, 50)] {
        let lists: StableLists<Cursor, u64> = StableLists::with_capacity(Global, count, capacity).expect("memory");
        assert!(lists.lists() == count && lists.is_empty() && lists.capacity() >= capacity);
        let lists: StableLists<NodeKey, u64> = StableLists::with_capacity_and_key(Global, count, capacity).expect("memory");
        assert!(lists.lists() == count && lists.is_empty() && lists.capacity() >= capacity);
        let lists: StableLists<NodeKey, u64> = StableLists::with_key(Global, count).expect("memory");
        assert!(lists.lists() == count && lists.is_empty());
    }
    let too_great = u32::MAX as usize;
    for (count, capacity) in [(too_great, 0), (0, too_great)] {
        assert!(matches!(StableLists::<Cursor, ()>::with_capacity(Global, count, capacity), Err(ReserveError::TooGreat)));
    }
}
