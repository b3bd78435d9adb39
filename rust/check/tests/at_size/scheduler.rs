//! Schedulers of numbers.

use super::random::Random;
use super::sums::{add_exact, increment, Report, Sum};
use slotmap_proved::fallible::Vec as ProvedVec;
use slotmap_proved::scheduler::Scheduler;
use slotmap_proved::{DefaultKey, Global};

type Numbers = Scheduler<DefaultKey, u64>;

/// Schedules the numbers from `first` on, at times below 1000.
fn schedule_all(scheduler: &mut Numbers, handles: &mut Vec<DefaultKey>, random: &mut Random, first: u64, count: u64) {
    for number in first..first + count {
        let time = random.draw() % 1000;
        handles.push(scheduler.schedule(time, number).expect("memory"));
    }
}

/// Moves jobs to other times.
fn reschedule_some(scheduler: &mut Numbers, handles: &[DefaultKey], random: &mut Random, turns: u64) -> Sum {
    let mut sum = Sum::new();
    for _ in 0..turns {
        let handle = random.pick(handles);
        sum.add_if(scheduler.reschedule(handle, random.draw() % 1000).is_ok());
    }
    sum
}

/// Each job with its time, in the order of the handles.
fn sum_of(scheduler: &Numbers) -> Sum {
    let mut sum = Sum::new();
    for (_, time, number) in scheduler {
        sum.extend([time, *number]);
    }
    sum
}

/// The time of each job, by the list of the handles, then each number, and then each job by its handle.
fn sum_of_lists(scheduler: &Numbers) -> Sum {
    let mut sum: Sum = scheduler.keys().filter_map(|handle| scheduler.due(handle)).collect();
    sum.extend(scheduler.values().copied());
    for (handle, time, number) in scheduler.iter() {
        assert!(scheduler.contains(handle));
        sum.extend([time, *number, scheduler[handle]]);
    }
    sum
}

/// How many jobs the iterators over all jobs yield, and which of these jobs wait.
fn sum_of_waiting(scheduler: &Numbers, handles: &[DefaultKey]) -> Sum {
    let mut sum = Sum::new();
    sum.extend([scheduler.iter().len(), scheduler.keys().len(), scheduler.values().len()].map(|length| length as u64));
    handles.iter().for_each(|handle| sum.add_if(scheduler.contains(*handle)));
    sum
}

/// The lengths of the iterators after so many jobs. The last two take all jobs out.
fn sum_of_lengths(mut scheduler: Numbers, other: Numbers, steps: usize) -> Sum {
    let mut sum = Sum::new();
    add_exact(&mut sum, scheduler.iter(), steps);
    add_exact(&mut sum, scheduler.keys(), steps);
    add_exact(&mut sum, scheduler.values(), steps);
    add_exact(&mut sum, scheduler.drain(), steps);
    sum.add(scheduler.len() as u64);
    add_exact(&mut sum, other.into_iter(), steps);
    sum
}

/// Each of these jobs that waits, by its handle.
fn sum_of_handles(scheduler: &Numbers, handles: &[DefaultKey]) -> Sum {
    let mut sum = Sum::new();
    for handle in handles {
        sum.extend(scheduler.due(*handle));
        sum.extend(scheduler.get(*handle).copied());
    }
    sum
}

/// Takes the jobs that are due one by one. Each is the next one, whose time and number come before its own number.
fn pop_due(scheduler: &mut Numbers, now: u64) -> Sum {
    let mut sum = Sum::new();
    while let Some((time, next)) = scheduler.peek() {
        sum.add(time);
        sum.add_found(scheduler.get(next));
        let Some((handle, number)) = scheduler.pop_due(now) else {
            break;
        };
        sum.add(number);
        sum.add_if(handle == next);
    }
    sum
}

/// A job that was taken out: its time, its number, and the number that has its handle in another scheduler.
fn add_taken(sum: &mut Sum, other: &Numbers, (handle, time, number): (DefaultKey, u64, u64)) {
    sum.extend([time, number]);
    sum.add_found(other.get(handle));
}

/// Takes the next job and the next one that is due in turn. They wait in the other scheduler too.
fn pop_with_times(scheduler: &mut Numbers, other: &Numbers, now: u64) -> Sum {
    let mut sum = Sum::new();
    for _ in 0..other.len() / 4 {
        let next = scheduler.pop_next();
        for (time, handle, number) in next.into_iter().chain(scheduler.pop_due_with_time(now)) {
            add_taken(&mut sum, other, (handle, time, number));
        }
    }
    sum
}

/// Takes the jobs that are due at once: their numbers.
fn pop_all_due(scheduler: &mut Numbers, now: u64) -> ProvedVec<(DefaultKey, u64)> {
    let mut due = ProvedVec::new(Global);
    scheduler.pop_all_due(now, &mut due).expect("memory");
    due
}

/// The numbers of jobs, and those that have their handles in a scheduler.
fn sum_of_taken(taken: &[(DefaultKey, u64)], scheduler: &Numbers) -> Sum {
    let mut sum = Sum::new();
    for (handle, number) in taken {
        sum.add(*number);
        sum.add_found(scheduler.get(*handle));
    }
    sum
}

/// Schedules, moves, cancels and writes.
fn fill(report: &mut Report, scheduler: &mut Numbers, random: &mut Random, size: u64) -> Vec<DefaultKey> {
    let mut handles = Vec::new();
    schedule_all(scheduler, &mut handles, random, 0, size);
    report.tell("scheduled", sum_of(scheduler));
    report.tell("listed", sum_of_lists(scheduler));
    report.tell("moves", reschedule_some(scheduler, &handles, random, size));
    report.tell_all("cancelled", (0..size / 4).filter_map(|_| scheduler.cancel(random.pick(&handles))));
    handles.iter().for_each(|handle| increment(scheduler.get_mut(*handle)));
    report.tell("written", sum_of_handles(scheduler, &handles));
    handles
}

/// Takes jobs out, and schedules others in their place. Those that were due wait no more.
fn pop(report: &mut Report, scheduler: &mut Numbers, handles: &mut Vec<DefaultKey>, random: &mut Random, size: u64) {
    report.tell("due", pop_due(scheduler, 250));
    scheduler.reserve(size as usize).expect("memory");
    schedule_all(scheduler, handles, random, size, size / 2);
    let due = pop_all_due(scheduler, 500);
    report.tell("all due", sum_of_taken(&due, scheduler));
    report.tell("left", sum_of_handles(scheduler, handles));
    report.tell("waiting", sum_of_waiting(scheduler, handles));
}

/// Adds its time to each number, and keeps those that 3 doesn't divide then. What is left is drained.
fn retain_and_drain(report: &mut Report, mut copy: Numbers, scheduler: &Numbers, handles: &[DefaultKey]) {
    copy.retain(|_: DefaultKey, time, number| {
        *number += time;
        *number % 3 != 0
    });
    report.tell("retained", sum_of_handles(&copy, handles));
    let mut drained = Sum::new();
    copy.drain().for_each(|job| add_taken(&mut drained, scheduler, job));
    report.tell("drained", drained);
    assert!(copy.is_empty());
}

/// Clears a scheduler, and takes the jobs out of its copies.
fn copy(report: &mut Report, scheduler: &mut Numbers, handles: &[DefaultKey]) {
    let copy = scheduler.clone().expect("memory");
    scheduler.clear();
    report.tell("cleared", sum_of(scheduler));
    let mut in_order = Sum::new();
    for job in copy.clone().expect("memory") {
        add_taken(&mut in_order, &copy, job);
    }
    report.tell("in order", in_order);
    report.tell("lengths", sum_of_lengths(copy.clone().expect("memory"), copy.clone().expect("memory"), 2));
    retain_and_drain(report, copy.clone().expect("memory"), &copy, handles);
    let mut other = copy.clone().expect("memory");
    report.tell("with times", pop_with_times(&mut other, &copy, 700));
    report.tell("copied", sum_of_taken(&pop_all_due(&mut other, 1000), &copy));
}

/// Makes a scheduler in each way: one in which no job waits, with room for so many.
fn make_all(room: usize) {
    let made = [
        (Scheduler::new(Global), 0),
        (Scheduler::with_key(Global), 0),
        (Scheduler::with_capacity(Global, room), room),
        (Scheduler::with_capacity_and_key(Global, room), room),
    ];
    for (scheduler, room) in made {
        let scheduler: Numbers = scheduler.expect("memory");
        assert!(scheduler.is_empty() && scheduler.capacity() >= room);
    }
}

/// The calls of a scheduler that may ask for memory or go over all elements.
pub fn run(size: u64) -> Report {
    let (mut report, mut random) = (Report::of("scheduler"), Random::new(5));
    make_all(size as usize);
    let mut scheduler = Scheduler::with_capacity(Global, size as usize).expect("memory");
    let mut handles = fill(&mut report, &mut scheduler, &mut random, size);
    pop(&mut report, &mut scheduler, &mut handles, &mut random, size);
    copy(&mut report, &mut scheduler, &handles);
    report
}
