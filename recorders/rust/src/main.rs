//! Records calls of a channel for `meet judge`. Copy it, and put your own queue in at YOUR QUEUE.
//!
//!     cargo run --release -- std|crossbeam[:BOUND|:none] plain|mixed THREADS CALLS SEED > out.calls
//!
//! Half of the THREADS give CALLS items each; at std's channel all but one. The others take until the channel is closed.
//! A plain run sends and receives alone. A mixed run makes immediate calls too, and timed calls if the channel has them.
//! A channel of BOUND 0, as one without these words, is judged as a fair queue.
use std::io::{stdout, BufWriter, Write};
use std::sync::mpsc::{channel, sync_channel, RecvTimeoutError, TryRecvError};
use std::thread;
use std::time::{Duration, Instant};

/// Makes a call: the number of its verb, an item and a limit. It returns the item, or the word for why there is none.
type Queue = Box<dyn Fn(usize, u64, Duration) -> Result<u64, &'static str> + Send>;
const VERBS: [&str; 6] = ["put", "offer", "offer-for", "take", "poll", "poll-for"];

fn std_queues(count: usize, bound: Option<usize>) -> Vec<Queue> {
    let (sync, (to, from)) = (bound.map(sync_channel), channel());
    let (to, from) = sync.map_or((Ok(to), from), |(to, from)| (Err(to), from)); // YOUR QUEUE
    let mut all: Vec<Queue> = vec![Box::new(move |verb, _, limit| match verb {
        3 => from.recv().map_err(|_| "closed"),
        4 => from.try_recv().map_err(|it| if it == TryRecvError::Empty { "none" } else { "closed" }),
        _ => from.recv_timeout(limit).map_err(|it| if it == RecvTimeoutError::Timeout { "expired" } else { "closed" }),
    })];
    all.extend((1..count).map(|_| to.clone()).map(|to| -> Queue {
        Box::new(move |verb, item, _| match &to {
            Ok(to) => to.send(item).map(|()| item).map_err(|_| "closed"),
            Err(to) if verb == 0 => to.send(item).map(|()| item).map_err(|_| "closed"),
            Err(to) => to.try_send(item).map(|()| item).map_err(|_| "none"),
        })
    }));
    all
}

fn crossbeam_queues(count: usize, bound: Option<usize>) -> Vec<Queue> {
    let (to, from) = bound.map_or_else(crossbeam_channel::unbounded, crossbeam_channel::bounded); // YOUR QUEUE
    let queue = |seat| -> Queue {
        let (to, from) = (to.clone(), from.clone());
        if seat % 2 == 0 {
            return Box::new(move |verb, _, limit| match verb {
                3 => from.recv().map_err(|_| "closed"),
                4 => from.try_recv().map_err(|it| if it.is_empty() { "none" } else { "closed" }),
                _ => from.recv_timeout(limit).map_err(|it| if it.is_timeout() { "expired" } else { "closed" }),
            });
        }
        Box::new(move |verb, item, limit| match verb {
            0 => to.send(item).map(|()| item).map_err(|_| "closed"),
            1 => to.try_send(item).map(|()| item).map_err(|_| "none"),
            _ => to.send_timeout(item, limit).map(|()| item).map_err(|_| "expired"),
        })
    };
    (0..count).map(queue).collect()
}

/// Makes the calls of a seat, and returns their begins and lines. A seat is the number of a thread. All threads read one
/// monotonic clock, right before the call and right after it. A call that the closed channel ended never ended: `-`.
fn log_of(queue: Queue, zero: Instant, seat: u64, verbs: &[usize], calls: u64, seed: u64) -> Vec<(u128, String)> {
    let (mut log, mut chance) = (Vec::new(), (seed * 31 + seat + 1).wrapping_mul(0x9E37_79B9_7F4A_7C15));
    for item in (seat * calls + 1..).take(if verbs[0] == 0 { calls as usize } else { usize::MAX }) {
        chance = chance.wrapping_mul(6_364_136_223_846_793_005).wrapping_add(1_442_695_040_888_963_407);
        let verb = verbs[(chance >> 33) as usize % verbs.len()];
        let limit = Duration::from_nanos(1_000 + (chance >> 40) % 200_000);
        let begin = zero.elapsed().as_nanos();
        let found = queue(verb, item, limit);
        let end = zero.elapsed().as_nanos();
        let asked = if verb < 3 { format!("{} {item}", VERBS[verb]) } else { VERBS[verb].to_string() };
        log.push((begin, match found {
            Ok(_) if verb < 3 => format!("{seat} {begin} {end} {asked} done"),
            Ok(item) => format!("{seat} {begin} {end} {asked} got {item}"),
            Err("closed") => format!("{seat} {begin} - {asked}"),
            Err(nobody) => format!("{seat} {begin} {end} {asked} {nobody}"),
        }));
        if found == Err("closed") {
            break;
        }
    }
    log
}

fn main() {
    let words: Vec<String> = std::env::args().collect();
    let number = |at: usize| words[at].parse::<u64>().unwrap();
    let (count, calls, seed, zero) = (number(3) as usize, number(4), number(5), Instant::now());
    let (queue, bound) = words[1].split_once(':').unwrap_or((&words[1], "0"));
    let (bound, std, kinds) = (bound.parse().ok(), queue == "std", if words[2] == "mixed" { 3 } else { 1 });
    let queues = if std { std_queues(count, bound) } else { crossbeam_queues(count, bound) };
    let threads: Vec<_> = queues.into_iter().enumerate().map(|(seat, queue)| {
        let takes = if std { seat == 0 } else { seat % 2 == 0 };
        let verbs = if takes { &[3, 4, 5][..kinds] } else { &[0, 1, 2][..kinds.min(if std { 2 } else { 3 })] };
        thread::spawn(move || log_of(queue, zero, seat as u64, verbs, calls, seed))
    }).collect();
    let mut all: Vec<_> = threads.into_iter().flat_map(|it| it.join().unwrap()).collect();
    all.sort_by_key(|it| it.0);
    let mut out = BufWriter::new(stdout());
    let kind = bound.map_or("buffer".to_string(), |it| if it == 0 { "fair".to_string() } else { format!("buffer {it}") });
    writeln!(out, "calls 1 {kind}").unwrap();
    all.iter().for_each(|it| writeln!(out, "{}", it.1).unwrap());
}
