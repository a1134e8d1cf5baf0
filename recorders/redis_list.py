#!/usr/bin/env python3
"""Records calls of a list in Redis for `meet judge`: RPUSH gives, BLPOP and LPOP take. Each seat is a process with a connection of its own, so
this judges a queue between processes.

    python3 redis_list.py [HOST:PORT/KEY] plain|mixed PROCESSES CALLS SEED > out.calls

Without an address it starts a server of its own (`redis-server`) on the loopback, and ends it. Half of the PROCESSES give and half take, CALLS
each. A plain run waits for each item. A mixed run polls too, at once and with limits of 1 to 20 milliseconds; what is left then stays in
the list.

All processes read one monotonic clock (CLOCK_MONOTONIC), which is the same for all processes of one machine. Clocks of two machines differ, and
the judge would refuse a right queue if they do by more than a call takes: record on one machine, or widen each span by the difference.
"""
import multiprocessing
import random
import socket
import subprocess
import sys
import time

ZERO = time.monotonic_ns()


class Redis:
    """A connection. YOUR QUEUE: another server, or other commands, in `ask` and in the four calls of `make`."""

    def __init__(self, host, port):
        self.lines = socket.create_connection((host, port)).makefile("rwb")

    def ask(self, *words):
        words = [str(word).encode() for word in words]
        self.lines.write(b"*%d\r\n" % len(words) + b"".join(b"$%d\r\n%s\r\n" % (len(word), word) for word in words))
        self.lines.flush()
        return self.reply()

    def reply(self):
        line = self.lines.readline().rstrip().decode()
        if line[:1] == "-":
            raise OSError(line)
        if line[:1] == "$":
            return None if line == "$-1" else self.lines.read(int(line[1:]) + 2)[:-2].decode()
        return [self.reply() for _ in range(max(int(line[1:]), 0))] if line[:1] == "*" else line[1:]


def make(redis, key, verb, item, limit):
    """Makes a call, and returns the words for what came of it."""
    if verb == "put":
        redis.ask("RPUSH", key, item)
        return "done"
    if verb == "poll":
        found = redis.ask("LPOP", key)
        return f"got {found}" if found else "none"
    found = redis.ask("BLPOP", key, 0 if verb == "take" else limit)  # the key and the item
    return f"got {found[1]}" if found else "expired"


def log_of(host, port, key, seat, mode, calls, seed):
    """Makes the calls of a seat, and returns their begins and lines."""
    redis, chance, log = Redis(host, port), random.Random(seed * 31 + seat), []
    verbs = ["put"] if seat % 2 == 0 else ["take"] if mode == "plain" else ["poll", "poll-for"]
    for item in range(seat * calls + 1, seat * calls + calls + 1):
        verb, limit = chance.choice(verbs), chance.randint(1, 20) / 1000
        begin = time.monotonic_ns() - ZERO
        answer = make(redis, key, verb, item, limit)
        end = time.monotonic_ns() - ZERO
        log.append((begin, f"{seat} {begin} {end} {verb}{f' {item}' if verb == 'put' else ''} {answer}"))
    return log


def main(address, mode, count, calls, seed):
    place, _, key = address.partition("/")
    host, _, port = place.partition(":")
    if Redis(host, int(port)).ask("EXISTS", key) != "0":
        sys.exit(f"redis_list.py: the key {key} is there already, and a log begins with an empty queue")
    with multiprocessing.get_context("fork").Pool(count) as pool:
        logs = pool.starmap(log_of, [(host, int(port), key, seat, mode, calls, seed) for seat in range(count)], 1)
    print("calls 1 buffer", *(line for _, line in sorted(it for log in logs for it in log)), sep="\n")


if __name__ == "__main__":
    words = sys.argv[1:] if "/" in sys.argv[1] else [f"127.0.0.1:{20_000 + random.randrange(20_000)}/judged", *sys.argv[1:]]
    server = None
    if words != sys.argv[1:]:
        port = words[0].partition(":")[2].partition("/")[0]
        server = subprocess.Popen(["redis-server", "--bind", "127.0.0.1", "--port", port, "--save", ""], stdout=subprocess.DEVNULL)
        time.sleep(1)
    try:
        main(*words[:2], *map(int, words[2:5]))
    finally:
        if server:
            server.terminate()
