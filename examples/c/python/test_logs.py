"""Logs that are checked in a test, as pytest runs it: `pytest test_logs.py`, or `python3 test_logs.py`.

Proved: the verdicts. Not proved: that a log says what a queue did, and the calling convention."""
import os

import ibis

# Seat 0 gives 5 and waits with ticket 1, seat 1 takes it, seat 0 learns so: (seat, ticket, deed, item, partner).
HANDED = [(0, 1, ibis.GIVE_WAITS, 5, 0), (1, 2, ibis.TAKE_MEETS, 5, 1), (0, 1, ibis.DONE_DEED, 0, 0)]
# The same, but the item that comes out is another.
SWAPPED = [HANDED[0], (1, 2, ibis.TAKE_MEETS, 6, 1)]

# The same as texts (docs/TRACES.md).
TRACE = b"trace 1 fair\n0 1 give-waits 5\n1 2 take-meets 5 1\n0 1 done\n"
WRONG = TRACE.replace(b"take-meets 5", b"take-meets 6")

# A job of a pool (docs/POOLS.md), and what `meet pool check` prints of it.
POOL = b"trace 1 pool core 1 maximum 1 callers 1 keep 60000 unbounded policy discard\n0 1 started 0 7\n1 2 runs 1 7\n1 1 finished 9\n"

# What two threads saw of a queue with a fault (docs/JUDGE.md): one returned that nobody took its item, which the other one got.
TOP = f"{os.path.dirname(os.path.abspath(__file__))}/../../.."
HASTY = open(f"{TOP}/recorders/hasty.calls", "rb").read()
WITHOUT = HASTY.replace(b"0 10 15 offer-for 3 expired", b"0 10 15 offer-for 3 done")


def test_a_legal_log():
    found = ibis.check_records(ibis.FAIR, HANDED)
    assert (found.status, found.records, found.waiting, found.uncollected) == (ibis.OK, 3, 0, 0)


def test_a_wrong_item():
    found = ibis.check_records(ibis.FAIR, SWAPPED)
    assert (found.status, found.place, found.why) == (ibis.ILLEGAL, 2, 4)


def test_a_legal_text():
    found = ibis.check(TRACE)
    assert (found.status, found.records, found.waiting, found.uncollected) == (ibis.OK, 3, 0, 0)


def test_a_wrong_text():
    found = ibis.check(WRONG)
    assert (found.status, found.place, found.why) == (ibis.ILLEGAL, 2, 4)
    status, lines = ibis.explain(WRONG)
    assert status == ibis.ILLEGAL and "take-meets 5 1" in lines


def test_a_line_that_is_none():
    found = ibis.check(TRACE + b"1 3 gives 8\n")
    assert (found.status, found.line) == (15, 5)


def test_a_pool():
    assert ibis.pool_check(POOL) == (ibis.OK, "legal 3 workers 1 running 0 kept 0 done 1 largest 1\n")
    status, line = ibis.pool_check(POOL.replace(b"runs 1", b"runs 2"))
    assert status == ibis.ILLEGAL and line.startswith("illegal 2 ")


def test_what_threads_saw():
    status, reason = ibis.judge(HASTY)
    assert (status, reason) == (ibis.ILLEGAL, "refused line 8: item 3 was got but never given in time; line 7 gives it\n")


def test_without_the_fault():
    status, history = ibis.judge(WITHOUT)
    assert status == ibis.OK and ibis.check(history.encode()).status == ibis.OK


if __name__ == "__main__":
    for name, test in list(globals().items()):
        if name.startswith("test_"):
            test()
            print(name)
