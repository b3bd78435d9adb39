//! Several lists of numbers in one map.

use super::random::Random;
use super::sums::{add_exact, increment, Report, Sum};
use slotmap_proved::lists::{Cursor, StableLists};
use slotmap_proved::Global;

type Numbers = StableLists<Cursor, u64>;

/// How many lists there are.
const LISTS: usize = 3;

/// The numbers of all lists by steps from front to back, those of each with their count before them and the last one again behind.
fn sum_of(lists: &Numbers) -> Sum {
    let mut sum = Sum::new();
    for list in 0..lists.lists() {
        sum.add(lists.list_len(list) as u64);
        let mut at = lists.first(list).unwrap_or_default();
        for _ in 0..lists.list_len(list) {
            sum.add_found(lists.get(at));
            at = lists.next(at).unwrap_or_default();
        }
        sum.add_found(lists.get(lists.last(list).unwrap_or_default()));
    }
    sum
}

/// The numbers of a list from back to front, each by a step from the one behind it.
fn add_from_back(sum: &mut Sum, lists: &Numbers, list: usize) {
    let mut at = lists.last(list).unwrap_or_default();
    for _ in 0..lists.list_len(list) {
        sum.add_found(lists.get(at));
        at = lists.prev(at).unwrap_or_default();
    }
}

/// The numbers of a list by its iterator, each also by its cursor, then those from back to front, and the length after two elements.
fn add_by_iterator(sum: &mut Sum, lists: &Numbers, list: usize) {
    let there = "this list is there";
    for (cursor, value) in lists.iter(list).expect(there) {
        assert!(lists.contains(cursor));
        sum.add(lists[cursor]);
        sum.add(*value);
    }
    sum.extend(lists.iter(list).expect(there).rev().map(|element| *element.1));
    add_exact(sum, lists.iter(list).expect(there), 2);
}

/// The numbers of all lists in each of these ways. The list behind the last one isn't there.
fn sum_by_ways(lists: &Numbers) -> Sum {
    let mut sum = Sum::new();
    for list in 0..lists.lists() {
        add_from_back(&mut sum, lists, list);
        add_by_iterator(&mut sum, lists, list);
    }
    assert!(lists.iter(lists.lists()).is_none() && lists.last(lists.lists()).is_none() && lists.list_len(lists.lists()) == 0);
    sum
}

/// Adds a number to its list, at the back if it is even, and else at the front.
fn push(lists: &mut Numbers, value: u64) -> Cursor {
    let list = value as usize % LISTS;
    let pushed = if value % 2 == 0 { lists.push_back(list, value) } else { lists.push_front(list, value) };
    pushed.expect("memory")
}

/// Moves elements to ends of lists. A list of the number 3 isn't there.
fn move_to_ends(lists: &mut Numbers, cursors: &[Cursor], random: &mut Random, turns: u64) -> Sum {
    let mut sum = Sum::new();
    for turn in 0..turns {
        let (cursor, list) = (random.pick(cursors), random.draw() as usize % (LISTS + 1));
        sum.add_if(if turn % 2 == 0 { lists.move_to_front(cursor, list) } else { lists.move_to_back(cursor, list) });
    }
    sum
}

/// Moves elements beside others. It fails where both are one.
fn move_beside(lists: &mut Numbers, cursors: &[Cursor], random: &mut Random, turns: u64) -> Sum {
    let mut sum = Sum::new();
    for turn in 0..turns {
        let (cursor, other) = (random.pick(cursors), random.pick(cursors));
        sum.add_if(if turn % 2 == 0 { lists.move_before(cursor, other) } else { lists.move_after(cursor, other) });
    }
    sum
}

/// Adds the numbers from `first` on beside elements, in room that is made for them.
fn insert_all(lists: &mut Numbers, cursors: &[Cursor], random: &mut Random, first: u64, turns: u64) {
    lists.reserve(turns as usize).expect("memory");
    for value in first..first + turns {
        let at = random.pick(cursors);
        let inserted = if value % 2 == 0 { lists.insert_after(at, value) } else { lists.insert_before(at, value) };
        inserted.expect("memory");
    }
}

/// Adds 1 to the numbers of these cursors, and removes every third of them.
fn write_and_remove(lists: &mut Numbers, cursors: &[Cursor]) -> Sum {
    cursors.iter().for_each(|cursor| increment(lists.get_mut(*cursor)));
    cursors.iter().step_by(3).filter_map(|cursor| lists.remove(*cursor)).collect()
}

/// Takes all elements out of a list, from its two ends in turn.
fn pop_all(lists: &mut Numbers, list: usize) -> Sum {
    let mut pop = |turn| if turn % 2 == 0 { lists.pop_front(list) } else { lists.pop_back(list) };
    (0..).map_while(|turn| pop(turn)).map(|element| element.1).collect()
}

/// Moves, writes and removals.
fn change(report: &mut Report, lists: &mut Numbers, cursors: &[Cursor]) {
    let (mut random, size) = (Random::new(9), cursors.len() as u64);
    let turns = size.min(1000);
    report.tell("moves", move_to_ends(lists, cursors, &mut random, size));
    report.tell("moves beside", move_beside(lists, cursors, &mut random, turns));
    report.tell("moved", sum_of(lists));
    insert_all(lists, cursors, &mut random, size, turns);
    report.tell("inserted", sum_of(lists));
    report.tell("by each way", sum_by_ways(lists));
    report.tell("removed", write_and_remove(lists, cursors));
    report.tell("left", sum_of(lists));
    // In which list each of these is; in none counts as 3.
    report.tell_all("homes", cursors.iter().map(|cursor| lists.list_of(*cursor).unwrap_or(LISTS) as u64));
}

/// Joins two lists, and empties them. A list can't be joined with itself, nor with one that isn't there.
fn join_and_empty(report: &mut Report, lists: &mut Numbers) {
    report.tell_all("joins", [0, LISTS, 2].map(|other| u64::from(lists.append(0, other))));
    let copy = lists.clone().expect("memory");
    lists.clear_list(0);
    report.tell("emptied", sum_of(lists));
    report.tell("copied", sum_of(&copy));
}

/// Makes lists in each way: empty ones, with room for so many elements.
fn make_all(room: usize) {
    let made = [
        (StableLists::new(Global, LISTS), 0),
        (StableLists::with_key(Global, LISTS), 0),
        (StableLists::with_capacity(Global, LISTS, room), room),
        (StableLists::with_capacity_and_key(Global, LISTS, room), room),
    ];
    for (lists, room) in made {
        let lists: Numbers = lists.expect("memory");
        assert!(lists.is_empty() && lists.lists() == LISTS && lists.capacity() >= room);
    }
}

/// The calls of several lists that may ask for memory or go over all elements.
pub fn run(size: u64) -> Report {
    let mut report = Report::of("lists");
    make_all(size as usize);
    let mut lists = StableLists::new(Global, LISTS).expect("memory");
    let cursors: Vec<Cursor> = (0..size).map(|value| push(&mut lists, value)).collect();
    report.tell("pushed", sum_of(&lists));
    change(&mut report, &mut lists, &cursors);
    report.tell("popped", pop_all(&mut lists, 1));
    report.tell_all("left", [lists.len() as u64, lists.list_len(1) as u64]);
    join_and_empty(&mut report, &mut lists);
    report
}
