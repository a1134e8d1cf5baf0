#!/usr/bin/env python3
"""Records calls of a queue of Python for `meet judge`. Copy it, and put your own queue in at YOUR QUEUE.

    python3 recorder.py queue[:BOUND]|simple plain|mixed THREADS CALLS SEED > out.calls

Half of the THREADS give and half take, CALLS each. A plain run makes `put` and `get` alone. A mixed run makes immediate and timed calls too,
and one thread more serves those that are left at the end.
"""
import queue
import random
import sys
import threading
import time

ZERO = time.monotonic_ns()
GIVES, TAKES = ("put", "offer", "offer-for"), ("take", "poll", "poll-for")


def queue_of(kind, bound):
    """An empty queue."""
    return queue.SimpleQueue() if kind == "simple" else queue.Queue(bound)  # YOUR QUEUE; `make` calls it


def make(tested, verb, item, limit):
    """Makes a call, and returns the words for what came of it."""
    try:
        if verb == "put":
            tested.put(item)
        elif verb == "offer":
            tested.put_nowait(item)
        elif verb == "offer-for":
            tested.put(item, timeout=limit)
        elif verb == "take":
            return f"got {tested.get()}"
        elif verb == "poll":
            return f"got {tested.get_nowait()}"
        else:
            return f"got {tested.get(timeout=limit)}"
    except (queue.Full, queue.Empty):
        return "expired" if verb.endswith("-for") else "none"
    return "done"


def record(tested, log, seat, verb, item, limit=0.0):
    """Logs a call of a seat, a thread's number. All threads read one monotonic clock, right before the call and right after it. A call that
    never returns has `-` for its end, and no answer."""
    asked = f"{verb} {item}" if verb in GIVES else verb
    begin = time.monotonic_ns() - ZERO
    log.append((begin, f"{seat} {begin} - {asked}"))
    answer = make(tested, verb, item, limit)
    log[-1] = begin, f"{seat} {begin} {time.monotonic_ns() - ZERO} {asked} {answer}"


def main(kind, mode, count, calls, seed):
    kind, _, bound = kind.partition(":")
    tested = queue_of(kind, int(bound or 0))
    logs = [[] for _ in range(count + 1)]
    sys.setswitchinterval(1e-5)  # threads take turns often

    def work(seat):
        chance = random.Random(seed * 31 + seat)
        verbs = (TAKES if seat % 2 else GIVES)[: 3 if mode == "mixed" else 1]
        for item in range(seat * calls + 1, seat * calls + calls + 1):
            record(tested, logs[seat], seat, chance.choice(verbs), item, chance.random() * 2e-4)

    threads = [threading.Thread(target=work, args=(seat,), daemon=True) for seat in range(count)]
    for thread in threads:
        thread.start()
    item = count * calls
    while any(thread.is_alive() for thread in threads):
        time.sleep(3e-4)
        item += 1
        if mode == "mixed" and not any(thread.is_alive() for thread in threads[::2]):
            record(tested, logs[count], count, "offer", item)
        elif mode == "mixed" and not any(thread.is_alive() for thread in threads[1::2]):
            record(tested, logs[count], count, "poll", item)
    print(f"calls 1 buffer {bound}".rstrip())
    print("\n".join(line for _, line in sorted(it for log in logs for it in log)))


if __name__ == "__main__":
    main(*sys.argv[1:3], *map(int, sys.argv[3:6]))
