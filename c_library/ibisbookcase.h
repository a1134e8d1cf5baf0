/* Ibisbookcase for programs in C, and in all languages that call C: a synchronous or transfer queue with its log, a
   checker of logs, and the checkers of texts. docs/FROM_C.md has a program in ten minutes.

   The library starts no thread, takes no lock and never waits. A program adds a mutex and its own way of waiting.

   What the program owes, which nothing checks:
   - Pointers: each points to its value, or to as many as the count after it says. None is null, also if the count is 0.
     Two pointers of one call don't overlap, so its two handles are different ones.
   - Handles: each begins as IBIS_EMPTY (all zeros) and ends by ibis_free. Only the library reads and writes what is in
     it. Between two calls a handle may be moved in memory, if only one copy of it is used from then on.
   - Threads: a handle may go from thread to thread, but is given to one call at a time. A lock orders the calls. The
     calls that read a text need no lock.
   - The heap: malloc, realloc and free are those of one allocator, as glibc's. No call is made from a signal handler, or
     by the child of a fork of a process with threads.

   Numbers that make no sense are no fault: the call returns IBIS_BAD_NUMBERS or IBIS_BAD_RECORD and changes nothing. */
#ifndef IBISBOOKCASE_H
#define IBISBOOKCASE_H
#include <stdbool.h>
#include <stddef.h>
#include <stdint.h>
#ifdef __cplusplus
extern "C" {
#endif

/* A handle: nothing, a queue or a checker. */
typedef struct ibis_handle {
    bool live;
    void *at;
} ibis_handle;

#define IBIS_EMPTY {false, NULL}

/* What a call returns: 0, or why it was refused. */
enum {
    IBIS_OK = 0,
    IBIS_MEMORY = 1,        /* an allocation failed */
    IBIS_HISTORY_FULL = 2,  /* the log has no room for the records of this call and of the pending ones: check or cut */
    IBIS_TICKETS_SPENT = 3, /* all tickets were used */
    IBIS_SEAT_OPEN = 4,     /* the seat has a pending request */
    IBIS_NO_SUCH_SEAT = 5,  /* the queue has no such seat */
    IBIS_NOT_OPEN = 6,      /* the ticket isn't the seat's pending one */
    IBIS_BAD_LINE = 14,     /* a line of calls can't be read */
    IBIS_BAD_TRACE = 15,    /* a line of a trace can't be read */
    IBIS_BAD_RECORD = 30,   /* these numbers are no record */
    IBIS_ILLEGAL = 31,      /* a record can't stand; of calls: no history explains them */
    IBIS_NOT_HELD = 40,     /* the handle holds nothing, or something else */
    IBIS_BAD_NUMBERS = 41,  /* these numbers are no place, call or seat */
    IBIS_APART = 42         /* the checker hasn't just seen the records that were folded away */
};

/* The order of a queue: SynchronousQueue(true), SynchronousQueue(false), LinkedTransferQueue. */
enum { IBIS_FAIR = 1, IBIS_UNFAIR = 2, IBIS_TRANSFER = 3 };

/* A call of a seat, with its value. A give, a take, and a put of a synchronous queue are pending if they aren't matched at
   once; the seat ends them by 6 to 8, with the ticket. An offer and a poll are never pending. A timed call of Java is a
   give, put or take that the seat ends by IBIS_EXPIRE when its time is over. 6 to 8 never return IBIS_HISTORY_FULL. */
enum {
    IBIS_PUT = 1,       /* an item: a transfer queue keeps it, the others wait for a consumer as a give does */
    IBIS_GIVE = 2,      /* an item, to a consumer that may come: transfer */
    IBIS_OFFER = 3,     /* an item, to a consumer that is pending: tryTransfer, or offer of a SynchronousQueue */
    IBIS_TAKE = 4,      /* take; the value is ignored */
    IBIS_POLL = 5,      /* poll, from a producer that is pending or a kept item; the value is ignored */
    IBIS_FOLLOW_UP = 6, /* a ticket: asks what came of it */
    IBIS_CANCEL = 7,    /* a ticket: withdraws it */
    IBIS_EXPIRE = 8,    /* a ticket: withdraws it, since its time is over */
    IBIS_INTERRUPT = 9  /* the seat to interrupt: Thread.interrupt. The calling seat may have a pending request */
};

/* What came of a call. */
enum {
    IBIS_WAITS = 1,             /* a request is pending */
    IBIS_MEETS = 2,             /* a request was matched with the partner's; a take or poll has the item */
    IBIS_FAILS = 3,             /* no partner was there, or the bound is reached; the item comes back */
    IBIS_KEPT = 4,              /* the queue keeps the item */
    IBIS_ENTRY_INTERRUPTED = 5, /* the seat was interrupted before; the item comes back */
    IBIS_DONE = 6,              /* of a follow-up: the item was taken */
    IBIS_GOT = 7,               /* of a follow-up: this is the item */
    IBIS_INTERRUPTED = 8,       /* of a follow-up: the wait was interrupted; a producer's item comes back */
    IBIS_NOT_YET = 9,           /* of a follow-up: still pending */
    IBIS_BACK = 10,             /* of a cancel or an expiry: withdrawn; a producer's item comes back */
    IBIS_LATE = 11,             /* of a cancel or an expiry: it was matched or interrupted before: follow up */
    IBIS_CUT = 12,              /* of an interrupt: it ended this pending ticket */
    IBIS_FLAGGED = 13           /* of an interrupt: the seat's next wait ends at once */
};

/* The answer of a call. What it hasn't is 0. */
typedef struct ibis_answer {
    uint64_t status;   /* as returned */
    uint64_t outcome;  /* what came of it */
    uint64_t ticket;   /* of the request, or of the wait that was cut */
    uint64_t partner;  /* the ticket with which it was matched */
    uint64_t has_item; /* 1 if the item is the caller's now */
    uint64_t item;
    uint64_t wake;     /* one more than the seat that may go on. A hint: nothing proves that it is right */
} ibis_answer;

/* What is seen of a queue. */
typedef struct ibis_look {
    uint64_t size;               /* Collection.size */
    uint64_t remaining_capacity; /* BlockingQueue.remainingCapacity */
    uint64_t has_first, first;   /* Queue.peek */
    uint64_t waiting;            /* pending requests that wait. In a transfer queue these are producers if size > 0, else consumers */
    uint64_t uncollected;        /* pending requests that were matched or interrupted and need a follow-up */
    uint64_t kept;               /* items that the queue keeps */
    uint64_t records;            /* since the last cut */
    uint64_t written;            /* since the first */
} ibis_look;

/* A record of the log: what one call of a seat did. */
typedef struct ibis_record {
    uint64_t seat, ticket;
    uint64_t deed;
    uint64_t mark;  /* the item */
    uint64_t other; /* the partner's ticket, a side, a cause, or the seat that is interrupted */
} ibis_record;

/* A deed, and its record's line in a trace (docs/TRACES.md), "SEAT TICKET" and these words: M is the mark, U the partner, a
   side is give or take, a cause is cancelled, expired or interrupted. */
enum {
    IBIS_DEED_GIVE_WAITS = 1,        /* give-waits M */
    IBIS_DEED_GIVE_MEETS = 2,        /* give-meets M U */
    IBIS_DEED_GIVE_FAILS = 3,        /* give-fails M */
    IBIS_DEED_GIVE_KEPT = 4,         /* give-kept M */
    IBIS_DEED_TAKE_WAITS = 5,        /* take-waits */
    IBIS_DEED_TAKE_MEETS = 6,        /* take-meets M U */
    IBIS_DEED_TAKE_FAILS = 7,        /* take-fails */
    IBIS_DEED_ENTRY_INTERRUPTED = 8, /* entry-interrupted SIDE */
    IBIS_DEED_DONE = 9,              /* done */
    IBIS_DEED_GOT = 10,              /* got M U */
    IBIS_DEED_WITHDRAWN = 11,        /* withdrawn CAUSE */
    IBIS_DEED_INTERRUPT = 12         /* interrupt SEAT */
};
enum { IBIS_SIDE_GIVER = 0, IBIS_SIDE_TAKER = 1 };
enum { IBIS_CAUSE_CANCELLED = 0, IBIS_CAUSE_EXPIRED = 1, IBIS_CAUSE_INTERRUPTED = 2 };

/* What stands for the records that were folded away, by ibis_queue_cut or ibis_queue_check (a base): how many they are,
   their greatest ticket, and how many rows tell where they left the queue: line + pairs + cut + flags in all. */
typedef struct ibis_base {
    uint64_t gone, last;
    uint64_t line, pairs, cut, flags; /* rows of the wait queue, of IBIS_ROW_MATCHED, _INTERRUPTED and _FLAGGED */
} ibis_base;

/* A row of a base. What it hasn't is 0. */
typedef struct ibis_base_row {
    uint64_t what;
    uint64_t seat, ticket;
    uint64_t side;    /* IBIS_SIDE_GIVER or IBIS_SIDE_TAKER */
    uint64_t mark;    /* the producer's item */
    uint64_t partner; /* of IBIS_ROW_MATCHED: the partner's ticket */
} ibis_base_row;

/* What a row tells, and its line in a trace with a base (docs/SCRIPTS.md). S, T, U, M are its seat, ticket, partner and
   mark, SIDE is give or take. The partner stands before the mark there, in a record's line it stands after the mark. */
enum {
    IBIS_ROW_WAITS = 1,       /* a pending request in the wait queue: "line S T give M waits" or "line S T take" */
    IBIS_ROW_KEPT = 2,        /* an item that a transfer queue keeps, in the wait queue: "line S T give M kept" */
    IBIS_ROW_MATCHED = 3,     /* a request that was matched, and needs a follow-up: "pair S T SIDE U M" */
    IBIS_ROW_INTERRUPTED = 4, /* a request that was interrupted, and needs a follow-up: "cut S T give M" or "cut S T take" */
    IBIS_ROW_FLAGGED = 5      /* a seat whose next wait ends at once: "flag S" */
};

/* What a checker found. What it hasn't is 0. */
typedef struct ibis_found {
    uint64_t status;                     /* as returned */
    uint64_t records;                    /* how many the checker has taken in */
    uint64_t place, why;                 /* of IBIS_ILLEGAL: the first record that can't stand, from 1, and why */
    uint64_t waiting, uncollected, kept; /* where the records leave the queue, as in ibis_look */
} ibis_found;

enum {
    IBIS_WHY_SEAT_OPEN = 1,    /* a request of a seat that has a pending one */
    IBIS_WHY_TICKET_ORDER = 2, /* a ticket that isn't above all earlier ones */
    IBIS_WHY_NOT_OPEN = 3,     /* an ending of a ticket that isn't the seat's pending one */
    IBIS_WHY_WRONG_REPLY = 4   /* the rules give another deed, partner or item */
};

/* Creates a queue: its order; the most items that a transfer queue keeps, 1 to 1,048,576, 0 for no bound, as of the other
   orders; 1 to 65,536 seats, one for each thread; the first ticket, 1 to 2^63 - 1; the most records at a time (cap), 1 to
   1,048,576. A check or a cut makes room for the next call if cap is at least seats + 1; with less a request may return
   IBIS_HISTORY_FULL for ever. 64 per seat is a good number. What the handle held is freed. If it fails the handle is as
   it was. */
uint64_t ibis_queue_new(ibis_handle *handle, uint64_t order, uint64_t bound, uint64_t seats, uint64_t first, uint64_t cap);

/* Makes one call of a seat. If it isn't IBIS_OK the queue is as it was. */
uint64_t ibis_queue_step(ibis_handle *handle, uint64_t verb, uint64_t seat, uint64_t value, ibis_answer *answer);

/* Looks at a queue. */
uint64_t ibis_queue_look(ibis_handle *handle, ibis_look *seen);

/* Finds a seat's pending ticket, or 0. */
uint64_t ibis_queue_open(ibis_handle *handle, uint64_t seat, uint64_t *ticket);

/* Copies the records since the last cut, from this index on, from 0; as many as there are and have room. */
uint64_t ibis_queue_records(ibis_handle *handle, size_t from, ibis_record *into, size_t room, size_t *count);

/* Folds the records away (a checkpoint), and sets how many were folded away since the first record, these included. No
   checker can check the queue any more by ibis_queue_check, unless it has taken these records in before. If it fails
   nothing has changed. */
uint64_t ibis_queue_cut(ibis_handle *handle, uint64_t *gone);

/* Reads the numbers of the queue's base. */
uint64_t ibis_queue_base(ibis_handle *handle, ibis_base *base);

/* Reads a row of the base by its index, from 0: the wait queue in order of request, then the matched, the interrupted and
   the flagged. IBIS_BAD_NUMBERS if there is none. */
uint64_t ibis_queue_base_row(ibis_handle *handle, size_t index, ibis_base_row *row);

/* Pushes the queue's new records on the checker, and folds them away if all are legal. */
uint64_t ibis_queue_check(ibis_handle *queue, ibis_handle *checker, ibis_found *found);

/* Creates a checker of a queue's records, from the first. If it fails the handle is as it was. */
uint64_t ibis_checker_new(ibis_handle *handle, uint64_t order, uint64_t bound);

/* Pushes records, up to the first that isn't IBIS_OK. */
uint64_t ibis_checker_push(ibis_handle *handle, const ibis_record *records, size_t count, ibis_found *found);

/* The verdict on all records that were pushed. */
uint64_t ibis_checker_standing(ibis_handle *handle, ibis_found *found);

/* Frees what the handle holds, if anything. It holds nothing then. */
void ibis_free(ibis_handle *handle);

/* What was found of the text of a trace (docs/TRACES.md). What it hasn't is 0. */
typedef struct ibis_verdict {
    uint64_t status;                     /* as returned */
    uint64_t line;                       /* of IBIS_BAD_TRACE: the line that can't be read, from 1 */
    uint64_t records;                    /* how many there are, if they are legal, with those for which a base stands */
    uint64_t place, why;                 /* as in ibis_found; records are numbered on from the base */
    uint64_t waiting, uncollected, kept; /* where the records leave the queue, as in ibis_look */
} ibis_verdict;

/* What came of a text that is answered by a text. That ends with a line feed, and with no zero byte. */
typedef struct ibis_written {
    uint64_t status; /* as returned */
    uint64_t line;   /* the line that can't be read, from 1 */
    uint64_t length; /* of all that is to be written; of these bytes, as many as have room stand in `out` */
} ibis_written;

/* Checks the text of a trace. */
uint64_t ibis_check(const uint8_t *text, size_t length, ibis_verdict *verdict);

/* Judges the text of a concurrent history (docs/JUDGE.md): IBIS_OK, and the trace of a history that explains it; or
   IBIS_ILLEGAL, and the reason why none does. Otherwise nothing is written: IBIS_BAD_LINE sets the line, and by
   IBIS_HISTORY_FULL a search was given up, which is no verdict. */
uint64_t ibis_judge(const uint8_t *text, size_t length, uint8_t *out, size_t room, ibis_written *written);

/* Checks the text of a trace, and writes the line that `meet check` prints; then, if a record can't stand or a line can't
   be read, what explains it (docs/SCRIPTS.md). */
uint64_t ibis_explain(const uint8_t *text, size_t length, uint8_t *out, size_t room, ibis_written *written);

/* Checks the text of a pool's trace (docs/POOLS.md), and writes the line that `meet pool check` prints: with IBIS_ILLEGAL
   it has the number of the first record that can't stand, and why. */
uint64_t ibis_pool_check(const uint8_t *text, size_t length, uint8_t *out, size_t room, ibis_written *written);

#ifdef __cplusplus
}
#endif
#endif
