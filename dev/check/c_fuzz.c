/* Random calls of the library for C, with good numbers and bad ones, at handles that hold a queue, a checker or nothing. It compares
   each answer with what a list of tickets in C says of it: whose ticket the partner is, which item it brought, and which seat may go
   on. The checker must find each log legal. A part of dev/check/c_library.
     usage: c_fuzz CALLS SEED */
#include "ibisbookcase.h"
#include <stdio.h>
#include <stdlib.h>
#include <string.h>

enum { SEATS = 6, CAP = 64, MOST = 4000000 };

static uint64_t state;
static uint64_t below(uint64_t n) {
    state ^= state << 13;
    state ^= state >> 7;
    state ^= state << 17;
    return state % n;
}

static void need_at(int holds, const char *what, int line) {
    if (holds) return;
    printf("c_fuzz: line %d: %s\n", line, what);
    exit(1);
}
#define NEED(holds) need_at(holds, #holds, __LINE__)

/* A number that is mostly small, and sometimes at a limit or beyond. */
static uint64_t number(uint64_t small) {
    static const uint64_t odd[] = {0, 65535, 65536, 1048576, 1048577, 9223372036854775807u, 9223372036854775808u, UINT64_MAX};
    return below(8) ? below(small) : odd[below(8)];
}

/* A queue and its checker, and what is known of them: the open ticket of each seat, and of each ticket its item and how it stands. */
typedef struct {
    ibis_handle core, checker;
    uint64_t order, open[SEATS], tickets, records;
    uint64_t *item;
    enum { NONE, GIVER, TAKER, KEPT, OVER } *stands;
} place;

static void start(place *p, uint64_t order) {
    ibis_free(&p->core);
    ibis_free(&p->checker);
    uint64_t bound = order == IBIS_TRANSFER ? below(3) : 0;
    NEED(ibis_queue_new(&p->core, order, bound, SEATS, 1, CAP) == IBIS_OK);
    NEED(ibis_checker_new(&p->checker, order, bound) == IBIS_OK);
    p->order = order;
    p->tickets = p->records = 0;
    memset(p->open, 0, sizeof p->open);
}

/* The base that stands for the records: its rows are the open tickets and the kept items, as the list of tickets has them. */
static void read_base(place *p, const ibis_found *found) {
    ibis_base base;
    ibis_base_row row, last = {0};
    NEED(ibis_queue_base(&p->core, &base) == IBIS_OK);
    NEED(base.gone == p->records && base.last == p->tickets);
    uint64_t rows = base.line + base.pairs + base.cut + base.flags, of[6] = {0};
    NEED(ibis_queue_base_row(&p->core, rows, &last) == IBIS_BAD_NUMBERS && !last.what);
    for (uint64_t i = 0; i < rows; i++, last = row) {
        NEED(ibis_queue_base_row(&p->core, i, &row) == IBIS_OK && row.what >= IBIS_ROW_WAITS && row.what <= IBIS_ROW_FLAGGED);
        of[row.what]++;
        NEED((row.what <= IBIS_ROW_KEPT) == (i < base.line));
        if (i && row.what == last.what && row.what >= IBIS_ROW_MATCHED)
            NEED(row.what == IBIS_ROW_FLAGGED ? row.seat > last.seat : row.ticket > last.ticket);
        if (row.what == IBIS_ROW_FLAGGED) {
            NEED(row.seat < SEATS && !row.ticket && !row.side && !row.mark && !row.partner);
            continue;
        }
        NEED(row.ticket && row.ticket <= p->tickets);
        NEED(row.what == IBIS_ROW_KEPT ? p->stands[row.ticket] == KEPT : row.seat < SEATS && p->open[row.seat] == row.ticket);
        if (row.what == IBIS_ROW_WAITS) NEED(p->stands[row.ticket] == (row.side == IBIS_SIDE_GIVER ? GIVER : TAKER));
        if (row.what >= IBIS_ROW_MATCHED) NEED(p->stands[row.ticket] == OVER);
        NEED(row.what == IBIS_ROW_MATCHED || row.side == IBIS_SIDE_GIVER ? row.mark == p->item[row.ticket] : !row.mark);
        NEED((row.what == IBIS_ROW_MATCHED) == (row.partner != 0) && row.partner != row.ticket);
    }
    NEED(of[1] == found->waiting && of[2] == found->kept && of[3] + of[4] == found->uncollected);
    NEED(of[3] == base.pairs && of[4] == base.cut && of[5] == base.flags);
}

static ibis_found check(place *p) {
    ibis_found found;
    NEED(ibis_queue_check(&p->core, &p->checker, &found) == IBIS_OK && found.status == IBIS_OK);
    NEED(found.records == p->records && found.place == 0 && found.why == 0);
    ibis_look seen;
    NEED(ibis_queue_look(&p->core, &seen) == IBIS_OK && seen.records == 0 && seen.written == p->records);
    NEED(seen.waiting == found.waiting && seen.uncollected == found.uncollected && seen.kept == found.kept);
    read_base(p, &found);
    return found;
}

/* The partner is an open ticket, or a kept item: whose seat may go on, and the item of a giver. */
static void meets(place *p, const ibis_answer *a, int gives, uint64_t item) {
    uint64_t seat = 0;
    while (seat < SEATS && p->open[seat] != a->partner) seat++;
    int is_kept = p->stands[a->partner] == KEPT;
    NEED(a->partner && a->partner < a->ticket && (is_kept ? seat == SEATS : seat < SEATS));
    NEED(a->wake == (is_kept ? 0 : seat + 1));
    NEED(gives ? p->stands[a->partner] == TAKER : is_kept || p->stands[a->partner] == GIVER);
    NEED(a->has_item == !gives && a->item == (gives ? 0 : p->item[a->partner]));
    if (gives) p->item[a->partner] = item;
    p->stands[a->partner] = p->stands[a->ticket] = OVER;
}

static void ends(place *p, uint64_t seat, const ibis_answer *a, uint64_t ticket) {
    NEED(p->open[seat] == ticket && a->ticket == 0 && a->wake == 0);
    if (a->outcome == IBIS_NOT_YET || a->outcome == IBIS_LATE) {
        NEED(a->outcome == IBIS_LATE ? p->stands[ticket] == OVER : p->stands[ticket] != OVER);
        return;
    }
    if (a->has_item) NEED(a->item == p->item[ticket]);
    p->stands[ticket] = OVER;
    p->open[seat] = 0;
    p->records++;
}

static void step(place *p) {
    uint64_t verb = below(16) ? 1 + below(9) : number(12), seat = number(SEATS + 1), value = number(5), item = 1 + below(1u << 30);
    if (verb >= 1 && verb <= 3) value = item;
    if (verb >= 6 && verb <= 8 && below(8)) value = seat < SEATS ? p->open[seat] : value;
    if (verb == 9 && below(8)) value = below(SEATS);
    ibis_answer a;
    memset(&a, 0xee, sizeof a);
    uint64_t status = ibis_queue_step(&p->core, verb, seat, value, &a);
    NEED(status == a.status);
    if (status == IBIS_HISTORY_FULL) {
        check(p);
        status = ibis_queue_step(&p->core, verb, seat, value, &a);
        NEED(status != IBIS_HISTORY_FULL);
    }
    if (status != IBIS_OK) {
        NEED(!a.outcome && !a.ticket && !a.partner && !a.has_item && !a.item && !a.wake);
        int is_call = verb >= 1 && verb <= 9 && seat < 65536 && !(verb >= 6 && verb <= 8 && value >> 63) && !(verb == 9 && value >= 65536);
        NEED(is_call == (status != IBIS_BAD_NUMBERS));
        if (is_call && seat >= SEATS && verb != 6 && verb != 7 && verb != 8) NEED(status == IBIS_NO_SUCH_SEAT);
        if (is_call && seat < SEATS && verb <= 5) NEED(status == IBIS_SEAT_OPEN && p->open[seat]);
        if (is_call && verb >= 6 && verb <= 8) NEED(status == IBIS_NOT_OPEN);
        return;
    }
    if (verb >= 6 && verb <= 8) return ends(p, seat, &a, value);
    if (verb == 9) {
        p->records++;
        NEED(a.outcome == IBIS_CUT ? a.ticket == p->open[value] && a.wake == value + 1 : a.outcome == IBIS_FLAGGED && !a.wake);
        if (a.outcome == IBIS_CUT) p->stands[a.ticket] = OVER;
        return;
    }
    int gives = verb <= 3;
    NEED(a.ticket == ++p->tickets && !p->open[seat]);
    p->records++;
    p->item[a.ticket] = gives ? value : 0;
    p->stands[a.ticket] = OVER;
    if (a.outcome == IBIS_MEETS) return meets(p, &a, gives, value);
    NEED(!a.wake && !a.partner);
    if (a.outcome == IBIS_WAITS) {
        NEED(verb == IBIS_GIVE || verb == IBIS_TAKE || (verb == IBIS_PUT && p->order != IBIS_TRANSFER));
        p->open[seat] = a.ticket;
        p->stands[a.ticket] = gives ? GIVER : TAKER;
    } else if (a.outcome == IBIS_KEPT) {
        NEED(verb == IBIS_PUT && p->order == IBIS_TRANSFER);
        p->stands[a.ticket] = KEPT;
    } else {
        NEED(a.outcome == IBIS_FAILS || a.outcome == IBIS_ENTRY_INTERRUPTED);
        NEED(gives ? a.has_item && a.item == value : !a.has_item);
    }
}

/* Any call at any handle: it returns, and changes nothing where it says so. */
static void stray(ibis_handle *handle, ibis_handle *other, ibis_record *records) {
    static ibis_answer answer;
    static ibis_look seen;
    ibis_found found;
    uint64_t one = 77, status;
    size_t count = 99;
    static ibis_base base;
    static ibis_base_row row;
    switch (below(13)) {
    case 0: status = ibis_queue_new(handle, number(5), number(3), number(4), number(3), number(80)); NEED(status == 0 || status == 41); break;
    case 1: status = ibis_checker_new(handle, number(5), number(3)); NEED(status == 0 || status == 41); break;
    case 2: status = ibis_queue_step(handle, number(11), number(4), number(9), &answer); NEED(status == answer.status && (status <= 6 || status >= 40)); break;
    case 3: status = ibis_queue_look(handle, &seen); NEED(status == 0 || status == 40); break;
    case 4: status = ibis_queue_open(handle, number(4), &one); NEED(status == 0 || ((status == 40 || status == 41) && one == 77)); break;
    case 5: status = ibis_queue_records(handle, number(70), records, below(9), &count); NEED(status == 0 ? count <= 8 : status == 40 && count == 0); break;
    case 6: status = ibis_queue_cut(handle, &one); NEED(status == 0 || (status == 40 && one == 0)); break;
    case 7: status = ibis_queue_check(handle, other, &found); NEED(status == found.status && (status == 0 || status == 31 || status == 40 || status == 42)); break;
    case 8:
        for (int i = 0; i < 8; i++)
            if (below(3) == 0) records[i] = (ibis_record){number(4), number(9), number(14), number(9), number(4)};
        status = ibis_checker_push(handle, records, below(9), &found);
        NEED(status == found.status && (status == 0 || status == 30 || status == 31 || status == 40));
        break;
    case 9: status = ibis_checker_standing(handle, &found); NEED(status == found.status && (status == 0 || status == 31 || status == 40)); break;
    case 10: if (below(4) == 0) ibis_free(handle); break;
    case 11: status = ibis_queue_base(handle, &base); NEED(status == 0 || status == 40); break;
    case 12: status = ibis_queue_base_row(handle, number(9), &row); NEED(status == 0 || status == 40 || status == 41); break;
    }
}

int main(int argc, char **argv) {
    uint64_t calls = argc > 1 ? strtoull(argv[1], NULL, 10) : 100000;
    state = argc > 2 ? strtoull(argv[2], NULL, 10) * 2 + 1 : 88172645463325252u;
    NEED(calls < MOST);
    static place p;
    static ibis_handle strays[4];
    static ibis_record records[8];
    p.item = calloc(MOST, sizeof *p.item);
    p.stands = calloc(MOST, sizeof *p.stands);
    uint64_t all = 0;
    for (uint64_t i = 0, left = 0; i < calls; i++) {
        if (left-- == 0) {
            if (p.order) check(&p);
            all += p.records;
            start(&p, 1 + below(3));
            left = below(calls / 10 + 100);
        }
        if (below(4) == 0) {
            uint64_t at = below(4);
            stray(&strays[at], &strays[(at + 1 + below(3)) % 4], records);
        } else step(&p);
        if (below(50) == 0) {
            uint64_t seat = below(SEATS), ticket = 1;
            NEED(ibis_queue_open(&p.core, seat, &ticket) == IBIS_OK && ticket == p.open[seat]);
        }
    }
    check(&p);
    ibis_free(&p.core);
    ibis_free(&p.checker);
    for (int i = 0; i < 4; i++) ibis_free(&strays[i]);
    free(p.item);
    free(p.stands);
    printf("%llu calls, and %llu records in legal logs\n", (unsigned long long)calls, (unsigned long long)(all + p.records));
    return 0;
}
