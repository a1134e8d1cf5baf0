"""Random scripts about pools, for `dev/check/chance`: what each records is legal, and tells what the pool counts at its end; of each trace one
word is turned, or two lines are exchanged, or one is left out, and `meet pool check` and a second checker (`dev/second/pool`) say the same.
"""
import random

CALLS = 120
DEEDS = ["handed", "started", "kept", "kept-start", "aborted", "caller-runs", "dropped", "dropped-oldest", "runs", "waits", "exits"]
DEEDS += ["finished", "idle-exit", "leaves", "start-failed", "shut-down", "shut-down-now"]
REPLIES = ["refused NoSuchSeat", "refused NotOpen", "notyet", "stays", "late", "back ", "base ", "workers "]
FOUND = ["legal ", "NoSuchSeat", "NotOpen", "TicketOrder", "WrongReply", "BadTrace"]
QUEUES = ["hand fair", "hand unfair", "unbounded", "bounded 1", "bounded 2"]
POLICIES = ["abort", "caller-runs", "discard", "discard-oldest"]
# Of a worker, each as often as it is to be drawn.
OF_WORKERS = 4 * ["ready"] + 3 * ["finish"] + 2 * ["follow", "idle"] + ["leave", "failed"]


def below(chance, many):
    return int(chance.random() * many)


def head_of(chance):
    """What a small pool is made with."""
    maximum, callers = 1 + below(chance, 3), 1 + below(chance, 2)
    core, queue = below(chance, maximum + 1), QUEUES[below(chance, len(QUEUES))]
    policy = POLICIES[below(chance, 3 if queue.startswith("hand") else 4)]
    timeout = " timeout" if below(chance, 3) == 0 else ""
    return maximum, callers, f"pool core {core} maximum {maximum} callers {callers} keep 500{timeout} {queue} policy {policy}"


def script_of(seed):
    """A script about a small pool, which is shut down late or never; one call in twenty is of a seat that isn't there, or of another kind."""
    chance = random.Random(f"pool {seed}")
    maximum, callers, head = head_of(chance)
    lines = [head]
    for call in range(CALLS):
        if below(chance, 20) == 0:
            seat = below(chance, callers + maximum + 1)
        else:
            seat = None
        if call > CALLS // 2 and below(chance, 40) == 0:
            verb = "now" if below(chance, 2) else "shutdown"
            seat = 0 if seat is None else seat
        elif below(chance, 5) < 2:
            verb = f"execute {below(chance, 9)}"
            seat = below(chance, callers) if seat is None else seat
        elif below(chance, 15) == 0:
            verb = "counters" if below(chance, 2) else "checkpoint"
            seat = 0 if seat is None else seat
        else:
            verb = OF_WORKERS[below(chance, len(OF_WORKERS))]
            verb += f" {below(chance, 9)}" if verb == "finish" else ""
            seat = callers + below(chance, maximum) if seat is None else seat
        lines.append(f"{seat} {verb}")
    return "".join(line + "\n" for line in lines)


def turned(chance, trace):
    """A trace of which two lines are exchanged, one is left out, or one word is another; now and then of the first line."""
    lines = trace.splitlines()
    at = 0 if below(chance, 12) == 0 else 1 + below(chance, len(lines) - 1)
    how = below(chance, 8)
    if how == 0 and at > 0:
        other = 1 + below(chance, len(lines) - 1)
        lines[at], lines[other] = lines[other], lines[at]
    elif how == 1 and at > 0:
        del lines[at]
    else:
        words = lines[at].split(" ")
        which = below(chance, len(words))
        word = words[which]
        if word.isdigit():
            near = [int(word) + 1, abs(int(word) - 1), below(chance, 5), int(word) + below(chance, 9), 0]
            words[which] = str(near[below(chance, len(near))])
        elif at == 0:
            words[which] = ["fair", "unfair", "unbounded", "timeout", "discard", "abort"][below(chance, 6)]
        else:
            words[which] = DEEDS[below(chance, len(DEEDS))]
        lines[at] = " ".join(words)
    return "".join(line + "\n" for line in lines)


def tried(scripts, run, judged, second):
    """How many scripts and turned traces are as they are to be, and what is missing or wrong, a line each."""
    passed, wrong, deeds, answers, found = 0, [], [], [], []
    for seed in range(scripts):
        script = script_of(seed)
        replies, trace = run(["pool", "run"], script), run(["pool", "run", "--trace"], script)
        last = replies.splitlines(keepends=True)[-1:]
        told = len(trace.splitlines()) - 1
        if last != [] and last[0].startswith(f"legal {told} ") and [run(["pool", "check"], trace)] == last:
            passed += 1
        else:
            wrong.append(f"the pool's script of seed {seed} isn't answered, or its trace isn't found as it ends")
        deeds.append(trace)
        answers.append(replies)
        other = turned(random.Random(f"turned pool {seed}"), trace) if told > 0 else trace
        said, again = judged(["pool", "check"], other), second(other.encode())
        found.append("".join(said[:2]))
        if said == again:
            passed += 1
        else:
            wrong.append(f"of the pool's seed {seed} what is turned is judged otherwise by the second checker: {said} and {again}")
    wanted = [(deed, deeds) for deed in DEEDS] + [(answer, answers) for answer in REPLIES]
    missing = [words for words, texts in wanted if not any(f" {words}" in text for text in texts)]
    missing += [words for words in FOUND if not any(words in text for text in found)]
    wrong += [f"no pool's script has: {words}" for words in missing]
    return passed + len(wanted) + len(FOUND) - len(missing), wrong
