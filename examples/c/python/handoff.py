"""A synchronous queue for threads of Python: the proved core, one lock, and a condition for each seat. Two producers and two
consumers hand numbers over, by calls with and without a limit, while a fifth thread interrupts them. At the end a proved checker
has read the log of all calls.

Proved: each step, its record, and the verdict of the checker. Not proved: this file (its lock, that a wait ends, that the hint
`wake` is heeded), and the calling convention."""
import itertools
import sys
import threading
import time

import ibis
from ibis import LIB

SEATS = 4


class SyncQueue:
    def __init__(self):
        self.lock = threading.Lock()
        self.gates = [threading.Condition(self.lock) for _ in range(SEATS)]
        self.core, self.checker = ibis.Handle(), ibis.Handle()
        assert LIB.ibis_queue_new(self.core, ibis.FAIR, 0, SEATS, 1, 4096) == ibis.OK
        assert LIB.ibis_checker_new(self.checker, ibis.FAIR, 0) == ibis.OK

    def check(self):
        """Pushes the new records on the checker, and folds them away if they are legal."""
        found = ibis.Found()
        assert LIB.ibis_queue_check(self.core, self.checker, found) == ibis.OK, (found.place, found.why)
        return found

    def step(self, verb, seat, value):
        answer = ibis.Answer()
        while LIB.ibis_queue_step(self.core, verb, seat, value, answer) == ibis.HISTORY_FULL:
            self.check()
        assert answer.status == ibis.OK
        if answer.wake:
            self.gates[answer.wake - 1].notify()
        return answer

    def ask(self, verb, seat, item, limit=None):
        """Waits until the request is matched or interrupted, or its time is over; returns the item, or None if it wasn't matched."""
        until = None if limit is None else time.monotonic() + limit
        with self.lock:
            answer = self.step(verb, seat, item)
            ticket = answer.ticket
            while answer.outcome in (ibis.WAITS, ibis.NOT_YET):
                self.gates[seat].wait(None if until is None else max(0, until - time.monotonic()))
                late = until is not None and time.monotonic() >= until
                answer = self.step(ibis.EXPIRE if late else ibis.FOLLOW_UP, seat, ticket)
                if answer.outcome == ibis.LATE:
                    answer = self.step(ibis.FOLLOW_UP, seat, ticket)
            return answer.item if answer.outcome in (ibis.MEETS, ibis.DONE, ibis.GOT) else None

    def interrupt(self, seat):
        with self.lock:
            self.step(ibis.INTERRUPT, 0, seat)


def work(queue, seat, each, sums):
    """Seats 0 and 1 give the numbers 1 to `each`, seats 2 and 3 take as many. What timed out or was interrupted is made again."""
    for number in range(1, each + 1):
        limit = 0.001 if number % 3 == 0 else None
        verb, item = (ibis.GIVE, number) if seat < 2 else (ibis.TAKE, 0)
        while (got := queue.ask(verb, seat, item, limit)) is None:
            pass
        sums[seat] += number if seat < 2 else got


def main(each):
    queue, sums, done = SyncQueue(), [0] * SEATS, threading.Event()

    def interrupt():
        for seat in itertools.cycle(range(SEATS)):
            if done.wait(0.001):
                return
            queue.interrupt(seat)

    workers = [threading.Thread(target=work, args=(queue, seat, each, sums)) for seat in range(SEATS)]
    threads = workers + [threading.Thread(target=interrupt)]
    for thread in threads:
        thread.start()
    for thread in workers:
        thread.join()
    done.set()
    threads[-1].join()
    found = queue.check()
    assert sums[0] + sums[1] == sums[2] + sums[3] and (found.waiting, found.uncollected, found.kept) == (0, 0, 0)
    print(f"{2 * each} items handed over, the log is legal")
    print(f"{found.records} records", file=sys.stderr)


if __name__ == "__main__":
    main(int(sys.argv[1]) if len(sys.argv) > 1 else 10000)
