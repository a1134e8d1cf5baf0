//! Buffers with one fault each, and what threads see of them, as `meet judge` reads it.
//!
//!     rustc -O --edition 2021 buffers.rs && ./buffers FAULT THREADS CALLS SEED > out.calls
//!
//! Half of the THREADS give and half take, CALLS each: waiting, immediate and timed calls. A buffer holds four items. Without a fault (`none`)
//! each log is explained.
use std::collections::VecDeque;
use std::sync::{Condvar, Mutex};
use std::thread;
use std::time::{Duration, Instant};

const BOUND: usize = 4;

/// A queue of a lock and a condition variable.
struct Buffer {
    items: Mutex<VecDeque<u64>>,
    changed: Condvar,
    fault: String,
}

impl Buffer {
    fn has(&self, fault: &str) -> bool {
        self.fault == fault
    }

    /// Gives an item until a time, and returns whether it was given.
    fn give(&self, item: u64, until: Instant) -> bool {
        let left = until.saturating_duration_since(Instant::now());
        let items = self.items.lock().unwrap();
        let (mut items, _) = self.changed.wait_timeout_while(items, left, |items| items.len() >= BOUND).unwrap();
        if items.len() >= BOUND {
            // It is put in all the same, if one item more goes.
            if self.has("returned") && items.len() == BOUND {
                items.push_back(item);
            }
            return false;
        }
        // An item that finds the others gone goes to the front of one that comes meanwhile.
        if self.has("front") && items.len() == 1 {
            items.push_front(item);
        } else {
            items.push_back(item);
        }
        self.changed.notify_all();
        true
    }

    /// Takes an item until a time.
    fn take(&self, until: Instant) -> Option<u64> {
        // Whether it is empty is looked at under one hold of the lock, and what is there goes under another, whoever it is for.
        let left = until.saturating_duration_since(Instant::now());
        let items = self.items.lock().unwrap();
        let (mut items, _) = self.changed.wait_timeout_while(items, left, |items| items.is_empty()).unwrap();
        if self.has("swept") && items.len() == BOUND {
            let first = items.pop_front();
            items.pop_front(); // one too many
            self.changed.notify_all();
            return first;
        }
        // A poll gives up if another thread holds the lock, though an item is there.
        if self.has("busy") && left.is_zero() && !items.is_empty() && items.len() < 3 {
            return None;
        }
        let first = items.pop_front();
        self.changed.notify_all();
        first
    }
}

/// Makes the calls of a seat, a thread's number, and returns their begins and lines.
fn log_of(buffer: &Buffer, zero: Instant, seat: u64, calls: u64, seed: u64) -> Vec<(u128, String)> {
    let (mut log, mut chance) = (Vec::new(), (seed * 31 + seat + 1).wrapping_mul(0x9E37_79B9_7F4A_7C15));
    for item in seat * calls + 1..=seat * calls + calls {
        chance = chance.wrapping_mul(6_364_136_223_846_793_005).wrapping_add(1_442_695_040_888_963_407);
        let kind = (chance >> 33) as usize % 3;
        let limits = [Duration::from_millis(20), Duration::ZERO, Duration::from_nanos(1_000 + (chance >> 40) % 200_000)];
        let begin = zero.elapsed().as_nanos();
        let until = Instant::now() + limits[kind];
        let (asked, answer) = if seat % 2 == 0 {
            let answer = buffer.give(item, until).then(|| "done".to_string());
            (format!("{} {item}", ["put", "offer", "offer-for"][kind]), answer)
        } else {
            (["take", "poll", "poll-for"][kind].to_string(), buffer.take(until).map(|item| format!("got {item}")))
        };
        let end = zero.elapsed().as_nanos();
        // A waiting call that gave up is left out.
        let nothing = [None, Some("none"), Some("expired")][kind].map(String::from);
        if let Some(answer) = answer.or(nothing) {
            log.push((begin, format!("{seat} {begin} {end} {asked} {answer}")));
        }
    }
    log
}

fn main() {
    let words: Vec<String> = std::env::args().collect();
    let number = |at: usize| words[at].parse::<u64>().unwrap();
    let (count, calls, seed, zero) = (number(2), number(3), number(4), Instant::now());
    let buffer = Buffer { items: Mutex::new(VecDeque::new()), changed: Condvar::new(), fault: words[1].clone() };
    let buffer = &buffer;
    let mut all: Vec<_> = thread::scope(|scope| {
        let threads: Vec<_> = (0..count).map(|seat| scope.spawn(move || log_of(buffer, zero, seat, calls, seed))).collect();
        threads.into_iter().flat_map(|it| it.join().unwrap()).collect()
    });
    all.sort_by_key(|it| it.0);
    println!("calls 1 buffer {BOUND}");
    all.iter().for_each(|it| println!("{}", it.1));
}
