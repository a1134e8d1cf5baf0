//! A synchronous queue for threads of Rust: the proved core in a mutex, and threads that park. A `Seat` is a type: its calls
//! borrow it for themselves, so no thread makes two calls of a seat at a time.
//!
//! Proved: each step, its record, and the verdict of the checker. Not proved: this file (its lock, that a wait ends, that the
//! hint `wake` is heeded), and the calling convention.
use crate::ibis::{self, Answer, Found, Handle};
use std::sync::{Mutex, MutexGuard};
use std::thread::{current, park, park_timeout, Thread};
use std::time::{Duration, Instant};

struct Core {
    queue: Handle,
    checker: Handle,
    parked: Vec<Option<Thread>>,
}

impl Core {
    /// Pushes the new records on the checker, and folds them away if they are legal.
    fn check(&mut self) -> Found {
        let mut found = Found::default();
        let status = unsafe { ibis::ibis_queue_check(&mut self.queue, &mut self.checker, &mut found) };
        assert_eq!(status, ibis::OK, "{found:?}");
        found
    }

    fn step(&mut self, verb: u64, seat: usize, value: u64) -> Answer {
        let mut answer = Answer::default();
        while unsafe { ibis::ibis_queue_step(&mut self.queue, verb, seat as u64, value, &mut answer) } == ibis::HISTORY_FULL {
            self.check();
        }
        assert_eq!(answer.status, ibis::OK);
        let woken = answer.wake.checked_sub(1).and_then(|seat| self.parked[seat as usize].as_ref());
        woken.map(Thread::unpark);
        answer
    }
}

pub struct SyncQueue(Mutex<Core>);

pub struct Seat<'q> {
    queue: &'q SyncQueue,
    number: usize,
}

impl SyncQueue {
    pub fn new(seats: usize) -> SyncQueue {
        let mut core = Core { queue: Handle::empty(), checker: Handle::empty(), parked: vec![None; seats] };
        assert_eq!(unsafe { ibis::ibis_queue_new(&mut core.queue, ibis::FAIR, 0, seats as u64, 1, 4096) }, ibis::OK);
        assert_eq!(unsafe { ibis::ibis_checker_new(&mut core.checker, ibis::FAIR, 0) }, ibis::OK);
        SyncQueue(Mutex::new(core))
    }

    /// The queue, and its seats, each once: `self` is borrowed for as long as they are used.
    pub fn seats(&mut self) -> (&SyncQueue, Vec<Seat<'_>>) {
        let count = self.core().parked.len();
        (self, (0..count).map(|number| Seat { queue: self, number }).collect())
    }

    fn core(&self) -> MutexGuard<'_, Core> {
        self.0.lock().unwrap()
    }

    /// The verdict on all that was done.
    pub fn close(self) -> Found {
        self.0.into_inner().unwrap().check()
    }

    pub fn interrupt(&self, seat: usize) {
        self.core().step(ibis::INTERRUPT, 0, seat as u64);
    }
}

impl Seat<'_> {
    /// Whether the item was taken.
    pub fn give(&mut self, item: u64, limit: Option<Duration>) -> bool {
        self.ask(ibis::GIVE, item, limit).is_some()
    }

    pub fn take(&mut self, limit: Option<Duration>) -> Option<u64> {
        self.ask(ibis::TAKE, 0, limit)
    }

    /// Waits until the request is matched, interrupted, or its time is over. If it was matched: the item, of a take.
    fn ask(&mut self, verb: u64, item: u64, limit: Option<Duration>) -> Option<u64> {
        let until = limit.map(|limit| Instant::now() + limit);
        let mut core = self.queue.core();
        let mut answer = core.step(verb, self.number, item);
        let ticket = answer.ticket;
        while answer.outcome == ibis::WAITS || answer.outcome == ibis::NOT_YET {
            core.parked[self.number] = Some(current());
            drop(core);
            let left = until.map(|until| until.saturating_duration_since(Instant::now()));
            left.map_or_else(park, park_timeout);
            core = self.queue.core();
            let verb = if until.is_some_and(|until| until <= Instant::now()) { ibis::EXPIRE } else { ibis::FOLLOW_UP };
            answer = core.step(verb, self.number, ticket);
            if answer.outcome == ibis::LATE {
                answer = core.step(ibis::FOLLOW_UP, self.number, ticket);
            }
        }
        [ibis::MEETS, ibis::DONE, ibis::GOT].contains(&answer.outcome).then_some(answer.item)
    }
}
