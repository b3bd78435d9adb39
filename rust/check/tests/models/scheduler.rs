//! `scheduler`, `copy` and `old` are a Scheduler. The model is a vector of jobs in the order in which they are due.

use slotmap_proved::errors::ReserveError;
use slotmap_proved::fallible::Vec as ProvedVec;
use slotmap_proved::scheduler::{RescheduleError, ScheduleError, Scheduler};
use slotmap_proved::{DefaultKey, Global, NodeKey};
use super::common::keys::{parts, Issued};
use super::common::random::Random;
use super::common::seeds::each_seed;

const SEEDS: u64 = 20;
const CALLS: usize = 10_000;

/// A job with its handle and its time.
type JobOf = (DefaultKey, u64, u64);

struct Beside<'a> {
    random: &'a mut Random,
    scheduler: Scheduler<DefaultKey, u64>,
    model: Vec<JobOf>,
    issued: Issued<DefaultKey>,
}

impl Beside<'_> {
    fn time(&mut self) -> u64 {
        let near = self.random.draw() % 10;
        *self.random.pick(&[near, near, near, near * 100, u64::MAX, 0])
    }

    fn handle(&mut self) -> DefaultKey {
        let live: Vec<DefaultKey> = self.model.iter().map(|job| job.0).collect();
        self.issued.pick(self.random, &live)
    }

    fn place(&self, handle: DefaultKey) -> Option<usize> {
        self.model.iter().position(|job| job.0 == handle)
    }

    /// Puts a job behind all jobs of its time.
    fn wait(&mut self, job: JobOf) {
        let at = self.model.partition_point(|other| other.1 <= job.1);
        self.model.insert(at, job);
    }

    fn schedule(&mut self) {
        let (time, job) = (self.time(), self.random.draw());
        let handle = self.scheduler.schedule(time, job).ok().expect("memory");
        self.issued.note(handle);
        self.wait((handle, time, job));
    }

    fn cancel(&mut self) {
        let handle = self.handle();
        let place = self.place(handle);
        assert_eq!(self.scheduler.cancel(handle), place.map(|at| self.model.remove(at).2));
    }

    fn reschedule(&mut self) {
        let (handle, time) = (self.handle(), self.time());
        match (self.scheduler.reschedule(handle, time), self.place(handle)) {
            (Ok(()), Some(at)) => {
                let (_, _, job) = self.model.remove(at);
                self.wait((handle, time, job));
            }
            (Err(error), None) => assert_eq!(error, RescheduleError::Gone),
            other => panic!("{other:?}"),
        }
    }

    fn pop(&mut self) {
        let now = self.time();
        let is_due = self.model.first().map_or(false, |job| job.1 <= now);
        match self.random.below(3) {
            0 => {
                let first = (!self.model.is_empty()).then(|| self.model.remove(0));
                assert_eq!(self.scheduler.pop_next(), first.map(|(handle, time, job)| (time, handle, job)));
            }
            1 => {
                let first = is_due.then(|| self.model.remove(0));
                assert_eq!(self.scheduler.pop_due(now), first.map(|(handle, _, job)| (handle, job)));
            }
            _ => {
                let first = is_due.then(|| self.model.remove(0));
                assert_eq!(self.scheduler.pop_due_with_time(now), first.map(|(handle, time, job)| (time, handle, job)));
            }
        }
    }

    fn pop_all(&mut self) {
        let now = self.time();
        let mut due = ProvedVec::new(Global);
        assert!(due.push((DefaultKey::default(), 7)).is_ok());
        assert!(self.scheduler.pop_all_due(now, &mut due).is_ok());
        let count = self.model.partition_point(|job| job.1 <= now);
        let wanted = self.model.drain(..count).map(|(handle, _, job)| (handle, job));
        assert!(due.iter().copied().eq(std::iter::once((DefaultKey::default(), 7)).chain(wanted)));
    }

    fn look(&mut self) {
        let (handle, value) = (self.handle(), self.random.draw());
        let place = self.place(handle);
        assert_eq!(self.scheduler.contains(handle), place.is_some());
        assert_eq!(self.scheduler.get(handle), place.map(|at| &self.model[at].2));
        assert_eq!(self.scheduler.due(handle), place.map(|at| self.model[at].1));
        assert_eq!(self.scheduler.get_mut(handle).copied(), place.map(|at| self.model[at].2));
        if let Some(at) = place {
            assert_eq!(self.scheduler[handle], self.model[at].2);
            *self.scheduler.get_mut(handle).expect("it waits") = value;
            self.model[at].2 = value;
        }
    }

    fn look_at_all(&self) {
        let count = self.model.len();
        assert_eq!((self.scheduler.len(), self.scheduler.is_empty()), (count, count == 0));
        assert_eq!(self.scheduler.peek(), self.model.first().map(|job| (job.1, job.0)));
        assert!(self.scheduler.capacity() >= count);
    }

    /// The iterators go by ascending index.
    fn walk(&self) {
        let mut jobs = self.model.clone();
        jobs.sort_by_key(|job| parts(job.0).0);
        assert!(self.scheduler.iter().eq(jobs.iter().map(|job| (job.0, job.1, &job.2))));
        assert!((&self.scheduler).into_iter().eq(jobs.iter().map(|job| (job.0, job.1, &job.2))));
        assert!(self.scheduler.keys().eq(jobs.iter().map(|job| job.0)));
        assert!(self.scheduler.values().eq(jobs.iter().map(|job| &job.2)));
        let (mut iter, mut left) = (self.scheduler.iter(), jobs.len());
        while left > 0 {
            assert_eq!((iter.len(), iter.size_hint()), (left, (left, Some(left))));
            assert!(iter.next().is_some());
            left -= 1;
        }
        assert_eq!((self.scheduler.keys().len(), self.scheduler.values().len(), iter.len()), (jobs.len(), jobs.len(), 0));
        let shown: Vec<(u64, DefaultKey, u64)> = self.model.iter().map(|job| (job.1, job.0, job.2)).collect();
        assert_eq!(format!("{:?}", self.scheduler), format!("{shown:?}"));
    }

    fn retain(&mut self) {
        let divisor = 2 + self.random.draw() % 5;
        let mut seen = Vec::new();
        self.scheduler.retain(|handle, time, job| {
            seen.push((handle, time, *job));
            *job = job.wrapping_add(1);
            *job % divisor != 0
        });
        let mut jobs = self.model.clone();
        (seen.sort(), jobs.sort());
        assert_eq!(seen, jobs);
        self.model.iter_mut().for_each(|job| job.2 = job.2.wrapping_add(1));
        self.model.retain(|job| job.2 % divisor != 0);
    }

    /// Takes some jobs out, and drops the iterator: the rest goes too.
    fn drain(&mut self) {
        let (count, mut drain) = (self.random.below(self.model.len() + 2), self.scheduler.drain());
        for job in self.model.iter().take(count) {
            assert_eq!(drain.next(), Some(*job));
        }
        let left = self.model.len().saturating_sub(count);
        assert_eq!((drain.len(), drain.size_hint()), (left, (left, Some(left))));
        drop(drain);
        self.model.clear();
    }

    /// A copy has the same jobs, and returns the same new handles. The test goes on with the copy.
    fn copy(&mut self) {
        let mut copy = self.scheduler.clone().expect("memory");
        let handle = copy.schedule(5, 7).ok().expect("memory");
        assert_eq!(self.scheduler.schedule(5, 7).ok(), Some(handle));
        self.issued.note(handle);
        self.wait((handle, 5, 7));
        let old = std::mem::replace(&mut self.scheduler, copy);
        let jobs = old.into_iter();
        assert_eq!(jobs.len(), self.model.len());
        assert!(jobs.eq(self.model.iter().copied()));
    }

    fn room(&mut self) {
        match self.random.below(4) {
            0 => {
                self.scheduler.clear();
                self.model.clear();
            }
            1 => assert!(matches!(self.scheduler.reserve(u32::MAX as usize), Err(ReserveError::TooGreat))),
            _ => {
                let additional = self.random.below(50);
                assert!(self.scheduler.reserve(additional).is_ok());
                assert!(self.scheduler.capacity() >= self.model.len() + additional);
            }
        }
    }

    fn call(&mut self) {
        match self.random.below(64) {
            0..=23 => self.schedule(),
            24..=30 => self.cancel(),
            31..=37 => self.reschedule(),
            38..=48 => self.pop(),
            49 if self.random.one_of(2) => self.pop_all(),
            50..=56 => self.look(),
            57..=59 => self.walk(),
            60 if self.random.one_of(2) => self.retain(),
            61 if self.random.one_of(4) => self.drain(),
            62 => self.copy(),
            63 => self.room(),
            _ => {}
        }
        self.look_at_all();
    }
}

#[test]
fn beside_a_vector() {
    each_seed("Scheduler", SEEDS, |random| {
        let scheduler = Scheduler::new(Global).expect("memory");
        let mut beside = Beside { random, scheduler, model: Vec::new(), issued: Issued::new() };
        for _ in 0..CALLS {
            beside.call();
        }
    });
}

#[test]
fn made_with_room() {
    let scheduler: Scheduler<DefaultKey, u64> = Scheduler::with_capacity(Global, 9).expect("memory");
    assert!(scheduler.is_empty() && scheduler.capacity() >= 9);
    let scheduler: Scheduler<NodeKey, u64> = Scheduler::with_capacity_and_key(Global, 9).expect("memory");
    assert!(scheduler.is_empty() && scheduler.capacity() >= 9);
    let scheduler: Scheduler<NodeKey, u64> = Scheduler::with_key(Global).expect("memory");
    assert!(scheduler.is_empty());
    assert!(matches!(Scheduler::<DefaultKey, ()>::with_capacity(Global, u32::MAX as usize), Err(ReserveError::TooGreat)));
    assert!(ScheduleError::Full(1).to_string() != ScheduleError::Memory(1).to_string());
}
