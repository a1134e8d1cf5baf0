"""What `dev/compare/java` expects of exchangers and pools: random scripts, and their replies by the rules of
docs/DEFINITIONS.md ("The exchanger", "Pools"), which are written here a second time, in another language, and not
proved. java/Exchanges.java and java/Pools.java say how a script is written.
"""
import random


def drawn(chance, many):
    return int(chance.random() * many)


class Exchanger:
    """One slot: the seat that has posted its item, what came of each seat's exchange, and which seats are flagged."""

    def __init__(self):
        self.posted, self.open, self.flags, self.tickets = None, {}, set(), 0

    def exchange(self, seat, item):
        self.tickets += 1
        own = (self.tickets, item)
        # That a flag stops an exchange at its entry, also where somebody waits, is Java's: here nobody is interrupted.
        if seat in self.flags:
            self.flags.remove(seat)
            return f"{seat} t{own[0]} interrupted {item}"
        if self.posted is not None:
            partner, (ticket, got) = self.posted, self.open[self.posted][0]
            self.open[partner] = ((ticket, got), f"got {item} from t{own[0]}")
            self.posted = None
            return f"{seat} t{own[0]} got {got} from t{ticket}"
        self.posted, self.open[seat] = seat, (own, None)
        return f"{seat} t{own[0]} waits"

    def follow(self, seat):
        (ticket, _), came = self.open[seat]
        if came is None:
            return f"- {seat} notyet"
        del self.open[seat]
        return f"{seat} t{ticket} {came}"

    def expire(self, seat):
        (ticket, item), came = self.open[seat]
        if came is not None:
            return f"- {seat} late"
        self.posted = None
        del self.open[seat]
        return f"{seat} t{ticket} expired {item}"

    def interrupt(self, seat, target):
        if self.posted == target:
            own = self.open[target][0]
            self.posted, self.open[target] = None, (own, f"interrupted {own[1]}")
            return f"{seat} interrupt {target} cut t{own[0]}"
        self.flags.add(target)
        return f"{seat} interrupt {target} flagged"


def exchanges(seed, steps=30):
    """A script of exchanges, and its replies."""
    chance = random.Random(f"exchanges {seed}")
    rules, seats, timed, script, replies = Exchanger(), 2 + drawn(chance, 4), {}, [], []
    for _ in range(steps):
        seat, what = drawn(chance, seats), drawn(chance, 10)
        if what == 0:
            target = drawn(chance, seats)
            script.append(f"{seat} interrupt {target}")
            replies.append(rules.interrupt(seat, target))
        elif seat not in rules.open:
            item, timed[seat] = drawn(chance, 9), what < 3
            script.append(f"{seat} {'expiring' if timed[seat] else 'exchange'} {item}")
            replies.append(rules.exchange(seat, item))
        elif timed[seat] and what < 6:
            script.append(f"{seat} expire")
            replies.append(rules.expire(seat))
        else:
            script.append(f"{seat} follow")
            replies.append(rules.follow(seat))
    return script, replies


def are_pairs(lines):
    """Whether what was got in a crowd of exchanges are pairs: each got the other's item, and nobody got its own, or one
    that came back."""
    told = [line.split() for line in lines]
    got = {words[0]: words[2] for words in told if words[1:2] == ["got"]}
    none = {words[0] for words in told if words[1:] == ["none"]}
    is_whole = len(got) + len(none) == len(lines) and not none & set(got)
    return is_whole and all(mine != other and got.get(other) == mine for mine, other in got.items())


class Pool:
    """A pool: what each worker runs, the line of those that wait, the kept jobs, and what is counted."""

    def __init__(self, core, maximum, queue, bound, policy, times_out):
        self.core, self.maximum, self.times_out = core, maximum, times_out
        self.queue, self.bound, self.policy = queue, bound, policy
        self.running, self.line, self.kept = {}, [], []
        self.is_shut, self.largest, self.completed = False, 0, 0

    def workers(self):
        return len(self.running) + len(self.line)

    def keeps_more(self):
        return self.queue in ("transfer", "linked") or self.queue == "bounded" and len(self.kept) < self.bound

    def start(self, tag):
        """A new worker, with the least number that no worker has, runs this job."""
        self.running[min(n for n in range(self.workers() + 1) if n not in self.running and n not in self.line)] = tag
        self.largest = max(self.largest, self.workers())

    def execute(self, tag):
        """Where a new job goes is the first of these that applies."""
        if self.is_shut:
            return self.rejected(tag)
        if self.workers() < self.core:
            self.start(tag)
            return "started"
        if self.line:
            self.running[self.line.pop(-1 if self.queue == "unfair" else 0)] = tag
            return "handed"
        if self.keeps_more() and self.workers() > 0:
            self.kept.append(tag)
            return "kept"
        if self.keeps_more() or self.workers() < self.maximum:
            self.start(tag)
            return "started"
        return self.rejected(tag)

    def rejected(self, tag):
        if self.policy == "abort":
            return "aborted"
        if self.policy == "caller" and not self.is_shut:
            return "ran here"
        if self.policy == "oldest" and not self.is_shut:
            oldest = self.kept.pop(0)
            self.kept.append(tag)
            return f"dropped the oldest, [{oldest}]"
        return "dropped"

    def finish(self, tag):
        """A job ends, and its worker runs the kept job that came first, or waits, or ends in a pool that is shut."""
        worker = next(number for number, running in self.running.items() if running == tag)
        del self.running[worker]
        self.completed += 1
        if self.kept:
            self.running[worker] = self.kept.pop(0)
        elif not self.is_shut:
            self.line.append(worker)

    def may_idle(self):
        """Whether the time of all that wait may be over, so that none is left to choose."""
        return self.line != [] and (self.times_out or self.workers() - len(self.line) >= self.core)

    def told(self, call):
        how = "open" if not self.is_shut else "terminated" if self.workers() == 0 else "shut"
        running = ", ".join(f"{worker}={tag}" for worker, tag in sorted(self.running.items()))
        queued = ", ".join(map(str, self.kept))
        return (f"{call}: {how} size {self.workers()} active {len(self.running)} largest {self.largest}"
                f" completed {self.completed} running {{{running}}} queued [{queued}]")


def settings(chance):
    """The first line of a script, and its pool."""
    queue = ["fair", "unfair", "transfer", "linked", "bounded", "bounded"][drawn(chance, 6)]
    policies = ["abort", "caller", "discard"] + (["oldest"] * 2 if queue == "bounded" else [])
    policy, bound = policies[drawn(chance, len(policies))], 1 + drawn(chance, 2)
    maximum = 1 + drawn(chance, 3)
    core, times_out = drawn(chance, maximum + 1), drawn(chance, 4) == 0
    words = ["pool", str(core), str(maximum), queue, *([str(bound)] if queue == "bounded" else []), policy]
    return " ".join(words + ["timeout"] * times_out), Pool(core, maximum, queue, bound, policy, times_out)


def pools(seed, steps=40):
    """A script of a pool, and its replies."""
    chance = random.Random(f"pools {seed}")
    first, rules = settings(chance)
    script, replies = [first], []
    for tag in range(steps):
        what = drawn(chance, 40) if tag >= steps // 2 else 2 + drawn(chance, 38)
        if what == 0:
            call, rules.is_shut, rules.line = "shutdown", True, []
            said = call
        elif what == 1:
            call, said = "shutdownNow", f"shutdownNow returned [{', '.join(map(str, rules.kept))}]"
            rules.is_shut, rules.line, rules.kept = True, [], []
        elif what < 7 and rules.may_idle():
            call, rules.line = "idle", []
            said = call
        elif what < 19 and rules.running:
            job = sorted(rules.running.values())[drawn(chance, len(rules.running))]
            call = said = f"finish {job}"
            rules.finish(job)
        else:
            call = f"execute {tag}"
            said = f"{call} {rules.execute(tag)}"
        script.append(call)
        replies.append(rules.told(said))
    return script, replies
