//! How long it takes threads to hand items on through a channel of capacity 0 of the Rust crate `crossbeam-channel`: the work of the
//! program `bench handoffs`.
//!
//!     race PAIRS EACH ROUNDS [tails]
//!
//! So many pairs of threads, one of which sends the numbers from 1 to EACH and one receives as many, do so as many rounds as are asked
//! for, each over a new channel. A line a round on standard output tells how many items were received and their sum; one on standard error
//! how many nanoseconds it took. With `tails` each send is timed by itself, and one line more tells the median of a round's, and what 99
//! in 100 and 999 in 1,000 didn't exceed.

use crossbeam_channel::{Receiver, Sender, bounded};
use std::env;
use std::process::ExitCode;
use std::thread;
use std::time::Instant;

/// Sends the numbers from 1, and answers how long each took, where they are to be timed.
fn send(channel: &Sender<u64>, each: u64, tails: bool) -> Vec<u128> {
    let mut sends = Vec::with_capacity(if tails { each as usize } else { 0 });
    for item in 1..=each {
        let start = tails.then(Instant::now);
        channel.send(item).expect("a receiver is there");
        sends.extend(start.map(|start| start.elapsed().as_nanos()));
    }
    sends
}

/// Receives so many items, and answers their sum.
fn receive(channel: &Receiver<u64>, each: u64) -> u64 {
    (0..each).map(|_| channel.recv().expect("a sender is there")).sum()
}

/// What all but one in so many of these times, which are in rising order, don't exceed.
fn all_but_one_in(many: usize, times: &[u128]) -> u128 {
    times[times.len() - times.len() / many - 1]
}

fn round(pairs: u64, each: u64, tails: bool) {
    let (giver, taker) = bounded(0);
    let start = Instant::now();
    let (mut sends, sum) = thread::scope(|scope| {
        let givers: Vec<_> = (0..pairs).map(|_| scope.spawn(|| send(&giver, each, tails))).collect();
        let takers: Vec<_> = (0..pairs).map(|_| scope.spawn(|| receive(&taker, each))).collect();
        let sends: Vec<u128> = givers.into_iter().flat_map(|giver| giver.join().expect("it ended")).collect();
        let sum: u64 = takers.into_iter().map(|taker| taker.join().expect("it ended")).sum();
        (sends, sum)
    });
    let nanoseconds = start.elapsed().as_nanos();
    println!("items {} sum {sum}", pairs * each);
    eprintln!("nanoseconds {nanoseconds}");
    if tails {
        sends.sort_unstable();
        let median = sends[sends.len() / 2];
        eprintln!("put median {median} p99 {} p999 {}", all_but_one_in(100, &sends), all_but_one_in(1_000, &sends));
    }
}

/// The numbers of the command line, and whether each send is timed.
fn asked() -> Option<([u64; 3], bool)> {
    let words: Vec<String> = env::args().skip(1).collect();
    let tails = match words.get(3..)? {
        [] => false,
        [word] if word == "tails" => true,
        _ => return None,
    };
    let numbers: Vec<u64> = words[..3].iter().map(|word| word.parse().ok()).collect::<Option<_>>()?;
    let [pairs, each, rounds] = numbers[..] else { return None };
    ((1..=64).contains(&pairs) && (1..=1_000_000).contains(&each)).then_some(([pairs, each, rounds], tails))
}

fn main() -> ExitCode {
    let Some(([pairs, each, rounds], tails)) = asked() else {
        eprintln!("usage: race PAIRS EACH ROUNDS [tails]");
        return ExitCode::from(2);
    };
    for _ in 0..rounds {
        round(pairs, each, tails);
    }
    ExitCode::SUCCESS
}
