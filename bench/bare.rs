//! How long it takes threads to hand items on through a queue of a lock and condition variables alone, written as one would by hand: the
//! work of `bench handoffs`. Who comes first is matched first, and each thread waits at a condition variable of its own.
//!
//!     bare PAIRS EACH ROUNDS
//!
//! PAIRS threads send the numbers from 1 to EACH, and as many receive as many, ROUNDS times, each time over a new queue. A line per round
//! on standard output says how many items were received, and their sum; one on standard error how many nanoseconds it took.

use std::collections::VecDeque;
use std::env;
use std::process::ExitCode;
use std::sync::{Condvar, Mutex, MutexGuard};
use std::thread;
use std::time::Instant;

/// Who waits: producers with their items, or consumers, never both; and what was handed from threads or to them while they waited.
struct Line {
    producers: VecDeque<(usize, u64)>,
    consumers: VecDeque<usize>,
    met: Vec<Option<u64>>,
}

struct Queue {
    line: Mutex<Line>,
    bells: Vec<Condvar>,
}

impl Queue {
    fn new(threads: usize) -> Queue {
        let line = Line { producers: VecDeque::new(), consumers: VecDeque::new(), met: vec![None; threads] };
        Queue { line: Mutex::new(line), bells: (0..threads).map(|_| Condvar::new()).collect() }
    }

    /// Waits until this thread is matched, and returns the item for which it was.
    fn wait(&self, line: MutexGuard<Line>, thread: usize) -> u64 {
        let mut line = self.bells[thread].wait_while(line, |line| line.met[thread].is_none()).expect("no thread panics");
        line.met[thread].take().expect("it was matched")
    }

    fn put(&self, thread: usize, item: u64) {
        let mut line = self.line.lock().expect("no thread panics");
        if let Some(consumer) = line.consumers.pop_front() {
            line.met[consumer] = Some(item);
            drop(line);
            self.bells[consumer].notify_one();
        } else {
            line.producers.push_back((thread, item));
            self.wait(line, thread);
        }
    }

    fn take(&self, thread: usize) -> u64 {
        let mut line = self.line.lock().expect("no thread panics");
        if let Some((producer, item)) = line.producers.pop_front() {
            line.met[producer] = Some(item);
            drop(line);
            self.bells[producer].notify_one();
            item
        } else {
            line.consumers.push_back(thread);
            self.wait(line, thread)
        }
    }
}

fn round(pairs: usize, each: u64) {
    let queue = Queue::new(2 * pairs);
    let queue = &queue;
    let start = Instant::now();
    let sum: u64 = thread::scope(|scope| {
        for thread in 0..pairs {
            scope.spawn(move || (1..=each).for_each(|item| queue.put(thread, item)));
        }
        let takers: Vec<_> = (pairs..2 * pairs).map(|thread| scope.spawn(move || (0..each).map(|_| queue.take(thread)).sum::<u64>())).collect();
        takers.into_iter().map(|taker| taker.join().expect("it ended")).sum()
    });
    let nanoseconds = start.elapsed().as_nanos();
    println!("items {} sum {sum}", pairs as u64 * each);
    eprintln!("nanoseconds {nanoseconds}");
}

fn main() -> ExitCode {
    let numbers: Option<Vec<u64>> = env::args().skip(1).map(|word| word.parse().ok()).collect();
    let Some(&[pairs @ 1..=64, each @ 1..=1_000_000, rounds]) = numbers.as_deref() else {
        eprintln!("usage: bare PAIRS EACH ROUNDS");
        return ExitCode::from(2);
    };
    for _ in 0..rounds {
        round(pairs as usize, each);
    }
    ExitCode::SUCCESS
}
