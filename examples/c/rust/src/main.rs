//! Two producers and two consumers hand numbers over, by calls with and without a limit, while a fifth thread interrupts them.
//! At the end a proved checker has read the log of all calls.
mod ibis;
mod sync_queue;

use std::sync::atomic::{AtomicBool, Ordering::SeqCst};
use std::thread::{scope, sleep};
use std::time::Duration;
use sync_queue::{Seat, SyncQueue};

/// Gives the numbers 1 to `each`, or takes as many: their sum. Every third call has a limit of a millisecond. A call that timed
/// out or was interrupted is made again.
fn work(mut seat: Seat<'_>, gives: bool, each: u64) -> u64 {
    let mut sum = 0;
    for number in 1..=each {
        let limit = (number % 3 == 0).then_some(Duration::from_millis(1));
        sum += loop {
            let done = if gives { seat.give(number, limit).then_some(number) } else { seat.take(limit) };
            if let Some(item) = done {
                break item;
            }
        };
    }
    sum
}

fn main() {
    let each: u64 = std::env::args().nth(1).map_or(10_000, |word| word.parse().unwrap());
    let mut all = SyncQueue::new(4);
    let (queue, seats) = all.seats();
    let done = AtomicBool::new(false);
    let sums: Vec<u64> = scope(|scope| {
        let workers: Vec<_> = seats.into_iter().enumerate().map(|(i, seat)| scope.spawn(move || work(seat, i < 2, each))).collect();
        scope.spawn(|| {
            for seat in (0..4).cycle().take_while(|_| !done.load(SeqCst)) {
                queue.interrupt(seat);
                sleep(Duration::from_micros(200));
            }
        });
        let sums = workers.into_iter().map(|worker| worker.join().unwrap()).collect();
        done.store(true, SeqCst);
        sums
    });
    let found = all.close();
    assert_eq!(sums[0] + sums[1], sums[2] + sums[3]);
    assert_eq!((found.waiting, found.uncollected, found.kept), (0, 0, 0));
    println!("{} items handed over, the log is legal", 2 * each);
    eprintln!("{} records", found.records);
}
