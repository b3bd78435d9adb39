//! Jobs in std's `BinaryHeap`. One that is cancelled or gets another time leaves its old entry in the heap, where it is skipped
//! later. The operations are those of port/scheduler.template.

use crate::operations::Scheduler as Operation;
use crate::shuffler::Shuffler;
use crate::value::Sum;
use std::cmp::Reverse;
use std::collections::BinaryHeap;

/// A time, a turn among the jobs of that time, and the job's place.
type Entry = Reverse<(u64, u64, u32)>;

#[derive(Default)]
struct Jobs {
    heap: BinaryHeap<Entry>,
    // The turn of each waiting job, and the job.
    jobs: Vec<Option<(u64, u64)>>,
    vacant: Vec<u32>,
    turns: u64,
}

impl Jobs {
    fn schedule(&mut self, time: u64, job: u64) -> u32 {
        let place = self.vacant.pop().unwrap_or_else(|| {
            self.jobs.push(None);
            self.jobs.len() as u32 - 1
        });
        self.put(time, job, place);
        place
    }

    fn put(&mut self, time: u64, job: u64, place: u32) {
        self.jobs[place as usize] = Some((self.turns, job));
        self.heap.push(Reverse((time, self.turns, place)));
        self.turns += 1;
    }

    fn cancel(&mut self, place: u32) -> Option<u64> {
        let (_, job) = self.jobs[place as usize].take()?;
        self.vacant.push(place);
        Some(job)
    }

    fn reschedule(&mut self, place: u32, time: u64) -> bool {
        let Some((_, job)) = self.jobs[place as usize] else {
            return false;
        };
        self.put(time, job, place);
        true
    }

    fn waits(&self, turn: u64, place: u32) -> bool {
        self.jobs[place as usize].is_some_and(|(of, _)| of == turn)
    }

    fn pop(&mut self) -> Option<u64> {
        loop {
            let Reverse((_, turn, place)) = self.heap.pop()?;
            if self.waits(turn, place) {
                return self.cancel(place);
            }
        }
    }

    fn first_time(&mut self) -> Option<u64> {
        while let Some(Reverse((time, turn, place))) = self.heap.peek() {
            if self.waits(*turn, *place) {
                return Some(*time);
            }
            self.heap.pop();
        }
        None
    }
}

fn run(n: u64, shuffler: &mut Shuffler) -> u64 {
    let mut jobs = Jobs::default();
    for i in 0..n {
        jobs.schedule(shuffler.next() >> 20, i);
    }
    let mut sum = 0u64;
    while let Some(job) = jobs.pop() {
        sum = sum.wrapping_mul(3).wrapping_add(job);
    }
    sum
}

fn churn(jobs: &mut Jobs, places: &mut [u32], shuffler: &mut Shuffler) -> u64 {
    let mut sum = Sum::default();
    for place in places {
        let job = jobs.cancel(*place).unwrap_or(1);
        sum.add(job);
        *place = jobs.schedule(shuffler.next() >> 20, job.wrapping_add(1));
    }
    sum.0
}

fn postpone(jobs: &mut Jobs, places: &[u32], shuffler: &mut Shuffler) -> u64 {
    let mut moved = Sum::default();
    for place in places {
        moved.add(u64::from(jobs.reschedule(*place, shuffler.next() >> 20)));
    }
    moved.0
}

pub fn workload(operation: Operation, n: u64, rounds: u64) -> u64 {
    let (mut jobs, mut shuffler) = (Jobs::default(), Shuffler::new());
    let mut places: Vec<u32> = (0..n).map(|i| jobs.schedule(shuffler.next() >> 20, i)).collect();
    let mut sum = Sum::default();
    for _ in 0..rounds {
        sum.add(match operation {
            Operation::Run => run(n, &mut shuffler),
            Operation::Churn => churn(&mut jobs, &mut places, &mut shuffler),
            Operation::Postpone => postpone(&mut jobs, &places, &mut shuffler),
        });
        sum.add(jobs.first_time().unwrap_or(1));
    }
    sum.0
}
