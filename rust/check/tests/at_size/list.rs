//! Lists of numbers.

use super::random::Random;
use super::sums::{add_exact, add_within, increment, Report, Sum};
use slotmap_proved::list::{Cursor, StableList};
use slotmap_proved::Global;

type Numbers = StableList<Cursor, u64>;

/// The numbers from front to back.
fn sum_of(list: &Numbers) -> Sum {
    list.values().copied().collect()
}

/// The numbers from back to front, each with that of the cursor behind it.
fn sum_from_back(list: &Numbers) -> Sum {
    let mut sum = Sum::new();
    for (cursor, value) in list.iter().rev() {
        sum.add(*value);
        if let Some(next) = list.next(cursor) {
            sum.add_found(list.get(next));
        }
    }
    sum
}

/// The numbers behind the first one, and those before the last one, each by a step from the one beside it.
fn sum_by_steps(list: &Numbers) -> Sum {
    let mut sum = Sum::new();
    let mut at = list.first().unwrap_or_default();
    while let Some((next, value)) = list.next_element(at) {
        sum.add(*value);
        at = next;
    }
    while let Some((prev, value)) = list.prev_element(at) {
        sum.add(*value);
        at = prev;
    }
    sum
}

/// The numbers by their cursors, from front to back, each with the number before it.
fn sum_by_cursors(list: &Numbers) -> Sum {
    let mut sum = Sum::new();
    for cursor in list.cursors() {
        assert!(list.contains(cursor));
        sum.add(list[cursor]);
        sum.add_found(list.get(list.prev(cursor).unwrap_or_default()));
    }
    sum
}

/// The numbers from front to back, and then from back to front, each by its cursor and then without one.
fn sum_by_loops(list: &Numbers) -> Sum {
    let mut sum = Sum::new();
    for (cursor, value) in list {
        sum.add_found(list.get(cursor));
        sum.add(*value);
    }
    for cursor in list.cursors().rev() {
        sum.add_found(list.get(cursor));
    }
    sum.extend(list.values().rev().copied());
    sum
}

/// The lengths of the iterators: after half the elements, and of the last one to its end.
fn sum_of_lengths(list: &Numbers) -> Sum {
    let (mut sum, half) = (Sum::new(), list.len() / 2);
    add_exact(&mut sum, list.iter(), half);
    add_exact(&mut sum, list.cursors(), half);
    add_exact(&mut sum, list.values(), half);
    add_within(&mut sum, list.iter_from(list.first().unwrap_or_default()), list.len());
    sum
}

/// The numbers from the second one on.
fn sum_from_second(list: &Numbers) -> Sum {
    let second = list.next(list.first().unwrap_or_default()).unwrap_or_default();
    let mut sum = Sum::new();
    for (cursor, value) in list.iter_from(second) {
        sum.add_found(list.get(cursor));
        sum.add(*value);
    }
    sum
}

/// The numbers at both ends, and how many there are.
fn sum_of_ends(list: &Numbers) -> Sum {
    let mut sum = Sum::new();
    sum.add_found(list.front());
    sum.add_found(list.back());
    sum.add_found(list.get(list.last().unwrap_or_default()));
    sum.add(list.len() as u64);
    sum
}

/// Adds a number at the back if it is even, and else at the front.
fn push(list: &mut Numbers, value: u64) -> Cursor {
    let pushed = if value % 2 == 0 { list.push_back(value) } else { list.push_front(value) };
    pushed.expect("memory")
}

/// Moves elements to the ends.
fn move_to_ends(list: &mut Numbers, cursors: &[Cursor], random: &mut Random, turns: u64) {
    for turn in 0..turns {
        let cursor = random.pick(cursors);
        assert!(if turn % 2 == 0 { list.move_to_front(cursor) } else { list.move_to_back(cursor) });
    }
}

/// Adds the numbers from `first` on beside elements.
fn insert_all(list: &mut Numbers, cursors: &[Cursor], random: &mut Random, first: u64, turns: u64) {
    for value in first..first + turns {
        let at = random.pick(cursors);
        let inserted = if value % 2 == 0 { list.insert_after(at, value) } else { list.insert_before(at, value) };
        inserted.expect("memory");
    }
}

/// Moves elements beside others, or into their places. It fails where both are one.
fn move_beside(list: &mut Numbers, cursors: &[Cursor], random: &mut Random, turns: u64) -> Sum {
    let mut sum = Sum::new();
    for turn in 0..turns {
        let (cursor, other) = (random.pick(cursors), random.pick(cursors));
        sum.add_if(match turn % 3 {
            0 => list.move_after(cursor, other),
            1 => list.move_before(cursor, other),
            _ => list.swap(cursor, other),
        });
    }
    sum
}

/// Removes elements by their cursors.
fn remove_some(list: &mut Numbers, cursors: &[Cursor], random: &mut Random, turns: u64) -> Sum {
    (0..turns).filter_map(|_| list.remove(random.pick(cursors))).collect()
}

/// Takes the numbers from both ends in turn. Each has the cursor that was at its end.
fn pop_all(list: &mut Numbers) -> Sum {
    let mut sum = Sum::new();
    while !list.is_empty() {
        let (first, last) = (list.first(), list.last());
        if let Some((cursor, value)) = list.pop_front() {
            sum.add(value);
            sum.add_if(first == Some(cursor));
        }
        if let Some((cursor, value)) = list.pop_back() {
            sum.add(value);
            sum.add_if(last == Some(cursor));
        }
    }
    sum
}

/// Drains a list of the numbers from 0 on. Each of them is the index of its cursor among those from front to back.
fn drain_all(list: &mut Numbers) -> Sum {
    let cursors: Vec<Cursor> = list.cursors().collect();
    let mut sum = Sum::new();
    for (cursor, value) in list.drain() {
        sum.add(value);
        sum.add_if(cursors.get(value as usize) == Some(&cursor));
    }
    sum
}

/// The numbers of a list that is consumed, from both ends in turn.
fn consume(list: Numbers) -> Sum {
    let mut sum = Sum::new();
    let mut elements = list.into_iter();
    while let Some((_, value)) = elements.next() {
        sum.add(value);
        sum.extend(elements.next_back().map(|element| element.1));
    }
    sum
}

/// The lengths of the iterators that take all elements out of two lists, after so many.
fn sum_of_taken(mut list: Numbers, other: Numbers, steps: usize) -> Sum {
    let mut sum = Sum::new();
    add_exact(&mut sum, list.drain(), steps);
    sum.add(list.len() as u64);
    add_exact(&mut sum, other.into_iter(), steps);
    sum
}

/// Pushes, inserts, moves and writes.
fn fill(report: &mut Report, list: &mut Numbers, random: &mut Random, size: u64) -> Vec<Cursor> {
    let cursors: Vec<Cursor> = (0..size).map(|value| push(list, value)).collect();
    report.tell("pushed", sum_of(list));
    move_to_ends(list, &cursors, random, size);
    report.tell("moved to the ends", sum_from_back(list));
    let turns = size.min(1000);
    insert_all(list, &cursors, random, size, turns);
    report.tell("inserted", sum_of(list));
    report.tell("by steps", sum_by_steps(list));
    report.tell("moves", move_beside(list, &cursors, random, turns));
    cursors.iter().for_each(|cursor| increment(list.get_mut(*cursor)));
    increment(list.front_mut());
    increment(list.back_mut());
    report.tell("moved and written", sum_of(list));
    report.tell("ends", sum_of_ends(list));
    cursors
}

/// Keeps some elements, and looks at them in each way.
fn retain_and_remove(report: &mut Report, list: &mut Numbers, cursors: &[Cursor], random: &mut Random) {
    list.retain(|_, value| *value % 3 != 0);
    report.tell("retained", sum_of(list));
    report.tell("removed", remove_some(list, cursors, random, cursors.len() as u64 / 2));
    report.tell_all("left", list.to_vec(Global).expect("memory"));
    report.tell_all("in the list", cursors.iter().map(|cursor| u64::from(list.contains(*cursor))));
    report.tell("by cursors", sum_by_cursors(list));
    report.tell("by loops", sum_by_loops(list));
    report.tell("lengths", sum_of_lengths(list));
    report.tell("from the second", sum_from_second(list));
}

/// Copies a list and clears it. The copy is used up.
fn copy(report: &mut Report, list: &mut Numbers) {
    let copy = list.clone().expect("memory");
    list.clear();
    assert!(list.is_empty());
    report.tell("cleared", sum_of(list));
    report.tell("copied", consume(copy));
}

/// A list of the numbers below a count.
fn collected(count: u64) -> Numbers {
    StableList::from_iter(Global, 0..count).expect("memory")
}

/// Fills two lists with many values at once, appends one to the other, and empties both.
fn append(report: &mut Report, size: u64) {
    let (mut list, mut other) = (collected(size), collected(size));
    list.extend(0..size).expect("memory");
    other.extend(0..size).expect("memory");
    list.append(&mut other).expect("memory");
    report.tell("appended", sum_of(&list));
    report.tell("popped", pop_all(&mut list));
    report.tell("drained", drain_all(&mut other));
}

/// Fills an empty list with many values at once, in room that was reserved.
fn extend_reserved(report: &mut Report, mut list: Numbers, size: u64) {
    list.reserve(size as usize).expect("memory");
    assert!(list.capacity() >= size as usize);
    list.extend(0..size).expect("memory");
    report.tell("drained", drain_all(&mut list));
}

/// The calls of a list that may ask for memory or go over all elements.
pub fn run(size: u64) -> Report {
    let mut report = Report::of("list");
    let mut list = StableList::with_capacity(Global, size as usize).expect("memory");
    let mut random = Random::new(1);
    let cursors = fill(&mut report, &mut list, &mut random, size);
    retain_and_remove(&mut report, &mut list, &cursors, &mut random);
    copy(&mut report, &mut list);
    append(&mut report, size);
    report.tell("taken", sum_of_taken(collected(size), collected(size), size as usize / 2));
    extend_reserved(&mut report, StableList::new(Global).expect("memory"), size);
    extend_reserved(&mut report, StableList::with_key(Global).expect("memory"), size);
    extend_reserved(&mut report, StableList::with_capacity_and_key(Global, 1).expect("memory"), size);
    report
}
