//! Scheduler.

use super::table::{assert_all, done, table, Entry, Nowhere};
use slotmap_proved::fallible::Vec as ProvedVec;
use slotmap_proved::scheduler::Scheduler;
use slotmap_proved::{DefaultKey, Global, NodeKey};
use std::fmt::Write;
use std::ops::Index;

type Queue = Scheduler<DefaultKey, u64>;

/// What the rows are made on: a scheduler, its handles, a vector with room for its jobs, and another scheduler where a call takes one.
struct State {
    queue: Queue,
    handles: Vec<DefaultKey>,
    due: ProvedVec<(DefaultKey, u64)>,
    other: Option<Queue>,
}

/// Times in some order, some of them equal.
fn time(at: usize) -> u64 {
    at as u64 * 7919 % 1000
}

/// An empty scheduler with room.
fn room(size: usize) -> State {
    let queue = Queue::with_capacity(Global, size).expect("memory");
    State { queue, handles: Vec::new(), due: ProvedVec::new(Global), other: None }
}

/// A scheduler without room for more.
fn full(size: usize) -> State {
    let mut state = room(size);
    while state.queue.len() < state.queue.capacity() {
        let at = state.handles.len();
        state.handles.push(state.queue.schedule(time(at), at as u64).ok().expect("room"));
    }
    assert!(state.handles.len() >= size);
    state
}

/// A scheduler with a job, for which room was made later.
fn reserved(size: usize) -> State {
    let mut state = room(0);
    state.handles.push(state.queue.schedule(7, 7).ok().expect("memory"));
    assert!(state.queue.reserve(size).is_ok());
    state
}

/// A scheduler that was full, whose slots are all free.
fn freed(size: usize) -> State {
    let mut state = full(size);
    state.handles.iter().for_each(|handle| assert!(state.queue.cancel(*handle).is_some()));
    state
}

/// A full scheduler, and the handles that it had before.
fn stale(size: usize) -> State {
    let mut state = freed(size);
    (0..state.handles.len()).for_each(|at| assert!(state.queue.schedule(time(at), 7).is_ok()));
    state
}

/// A full scheduler, and a vector with room for its jobs.
fn beside_a_vector(size: usize) -> State {
    State { due: ProvedVec::with_capacity(Global, 2 * size).expect("memory"), ..full(size) }
}

/// Two schedulers.
fn two(size: usize) -> State {
    State { other: Some(full(size).queue), ..full(size) }
}

fn of_scheduler() -> Vec<Entry> {
    table("scheduler::Scheduler", rows![State:
        each [room, reserved, freed] schedule => |s, at| done(s.queue.schedule(time(at), 7));
        each [full, stale] cancel => |s, at| s.queue.cancel(s.handles[at]);
        each [full, stale] reschedule => |s, at| s.queue.reschedule(s.handles[at], time(at + 5));
        each [full, freed] pop_next => |s, _| s.queue.pop_next();
        each [full, freed] pop_due => |s, _| s.queue.pop_due(500);
        each [full, freed] pop_due_with_time => |s, _| s.queue.pop_due_with_time(500);
        once [beside_a_vector] pop_all_due => |s, _| done(s.queue.pop_all_due(500, &mut s.due));
        once [full, freed] clear => |s, _| s.queue.clear();
        once [full] retain => |s, _| s.queue.retain(|_, time, _| time % 2 == 0);
        once [full] drain => |s, _| s.queue.drain().count();
        once [two] into_iter => |s, _| s.other.take().expect("a scheduler").into_iter().count();
        look [full, stale] contains => |s, at| s.queue.contains(s.handles[at]);
        look [full, stale] get => |s, at| s.queue.get(s.handles[at]);
        look [full, stale] get_mut => |s, at| s.queue.get_mut(s.handles[at]).map(|job| *job += 1);
        look [full] index => |s, at| s.queue.index(s.handles[at]);
        look [full, stale] due => |s, at| s.queue.due(s.handles[at]);
        look [full, freed] peek => |s, _| s.queue.peek();
        look [room, full, freed] len => |s, _| s.queue.len();
        look [room, full, freed] is_empty => |s, _| s.queue.is_empty();
        look [room, full, freed] capacity => |s, _| s.queue.capacity();
        look [room, full, freed] reserve => |s, _| done(s.queue.reserve(s.queue.capacity() - s.queue.len()));
        walk [full] iter => |s, _| s.queue.iter().count();
        walk [full] keys => |s, _| s.queue.keys().count();
        walk [full] values => |s, _| s.queue.values().count();
        walk [full] fmt asks 1 "the turns, which are sorted" => |s, _| write!(Nowhere, "{:?}", s.queue);
        walk [room] new asks 3 "slot 0 of each vector" => |_, _| done(Queue::new(Global));
        walk [room] with_key asks 3 "slot 0 of each vector" => |_, _| done(Scheduler::<NodeKey, u64>::with_key(Global));
        walk [room] with_capacity asks 4 "the room" => |s, _| done(Queue::with_capacity(Global, s.queue.capacity()));
        walk [room] with_capacity_and_key asks 4 "the room"
            => |s, _| done(Scheduler::<NodeKey, u64>::with_capacity_and_key(Global, s.queue.capacity()));
        walk [full] clone asks 4 "the copy" => |s, _| done(s.queue.clone());
    ])
}

pub fn all() -> Vec<Vec<Entry>> {
    vec![
        of_scheduler(),
        steps!(walk "scheduler::Iter", State, [full], |s| s.queue.iter(); next size_hint len),
        steps!(walk "scheduler::Keys", State, [full], |s| s.queue.keys(); next size_hint len),
        steps!(walk "scheduler::Values", State, [full], |s| s.queue.values(); next size_hint len),
        steps!(once "scheduler::Drain", State, [full], |s| s.queue.drain(); next size_hint len drop),
        steps!(once "scheduler::IntoIter", State, [two], |s| s.other.take().expect("a scheduler").into_iter(); next size_hint len),
    ]
}

#[test]
fn scheduler() {
    assert_all(all());
}
