"""The names of ibisbookcase.h for Python. The variable IBISBOOKCASE is the folder of libibisbookcase.so, by default what
bin/build_c makes. The calling convention isn't proved: this file and the header must say the same."""
import os
from ctypes import CDLL, POINTER, Structure, c_bool, c_char_p, c_size_t, c_uint64, c_void_p, create_string_buffer

OK, HISTORY_FULL, ILLEGAL = 0, 2, 31
FAIR, UNFAIR, TRANSFER = 1, 2, 3
PUT, GIVE, OFFER, TAKE, POLL, FOLLOW_UP, CANCEL, EXPIRE, INTERRUPT = range(1, 10)
GIVE_WAITS, TAKE_MEETS, DONE_DEED = 1, 6, 9
WAITS, MEETS, FAILS, KEPT, ENTRY_INTERRUPTED, DONE, GOT, INTERRUPTED, NOT_YET, BACK, LATE, CUT, FLAGGED = range(1, 14)


class Handle(Structure):
    """A queue or a checker. It is freed when nothing refers to it."""

    _fields_ = [("live", c_bool), ("at", c_void_p)]

    def __del__(self):
        LIB.ibis_free(self)


def numbers(name, words):
    return type(name, (Structure,), {"_fields_": [(word, c_uint64) for word in words.split()]})


Answer = numbers("Answer", "status outcome ticket partner has_item item wake")
Record = numbers("Record", "seat ticket deed mark other")
Found = numbers("Found", "status records place why waiting uncollected kept")
Verdict = numbers("Verdict", "status line records place why waiting uncollected kept")
Written = numbers("Written", "status line length")

LIB = CDLL(os.path.join(os.environ.get("IBISBOOKCASE", f"{os.path.dirname(__file__)}/../../../out/c/lib"), "libibisbookcase.so"))
number, handle, text = c_uint64, POINTER(Handle), [c_char_p, c_size_t]
for call, words in {
    "queue_new": [handle, number, number, number, number, number],
    "queue_step": [handle, number, number, number, POINTER(Answer)],
    "queue_check": [handle, handle, POINTER(Found)],
    "checker_new": [handle, number, number],
    "checker_push": [handle, POINTER(Record), c_size_t, POINTER(Found)],
    "checker_standing": [handle, POINTER(Found)],
    "check": [*text, POINTER(Verdict)],
    "judge": [*text, *text, POINTER(Written)],
    "explain": [*text, *text, POINTER(Written)],
    "pool_check": [*text, *text, POINTER(Written)],
}.items():
    getattr(LIB, f"ibis_{call}").argtypes, getattr(LIB, f"ibis_{call}").restype = words, c_uint64
LIB.ibis_free.argtypes, LIB.ibis_free.restype = [handle], None


def check_records(order, records, bound=0):
    """Returns what a checker finds of these (seat, ticket, deed, mark, other), and where they leave the queue."""
    checker, found = Handle(), Found()
    assert LIB.ibis_checker_new(checker, order, bound) == OK
    rows = (Record * len(records))(*records)
    LIB.ibis_checker_push(checker, rows, len(records), found) or LIB.ibis_checker_standing(checker, found)
    return found


def check(trace):
    """Returns what is found of the text of a trace."""
    verdict = Verdict()
    LIB.ibis_check(trace, len(trace), verdict)
    return verdict


def written(call, given, room=65536):
    """Returns the status of `judge` or `explain` for this text, and what it writes."""
    out, found = create_string_buffer(room), Written()
    call(given, len(given), out, room, found)
    return found.status, out.raw[: min(found.length, room)].decode()


def judge(calls):
    return written(LIB.ibis_judge, calls)


def explain(trace):
    return written(LIB.ibis_explain, trace)


def pool_check(trace):
    return written(LIB.ibis_pool_check, trace)
