/* A synchronous queue for threads of C: the proved core, one mutex, and a condition variable for each seat. Two producers
   and two consumers hand numbers over, by calls with and without a limit, while a fifth thread interrupts them. At the end
   a proved checker has read the log of all calls.

   Proved: each step, its record, and the verdict of the checker. Not proved: this file (its lock, that a wait ends, that
   the hint `wake` is heeded), and the calling convention. */
#include "ibisbookcase.h"
#include <pthread.h>
#include <stdio.h>
#include <stdlib.h>
#include <time.h>

enum { SEATS = 4, CAP = 4096 };

typedef struct {
    pthread_mutex_t lock;
    pthread_cond_t gate[SEATS];
    ibis_handle core, checker;
} sync_queue;

static void need(int holds, const char *what) { if (!holds) exit((perror(what), 1)); }

/* The lock is held by the callers of check and step. A full log is checked and folded away, and the step made then. */
static ibis_found check(sync_queue *q) {
    ibis_found found;
    need(ibis_queue_check(&q->core, &q->checker, &found) == IBIS_OK, "the check of the log");
    return found;
}

static ibis_answer step(sync_queue *q, uint64_t verb, uint64_t seat, uint64_t value) {
    ibis_answer answer;
    while (ibis_queue_step(&q->core, verb, seat, value, &answer) == IBIS_HISTORY_FULL) check(q);
    need(answer.status == IBIS_OK, "a step");
    if (answer.wake) pthread_cond_signal(&q->gate[answer.wake - 1]);
    return answer;
}

/* A give or a take. It waits until it is matched or interrupted, or its time is over. A limit below 0 is none. */
static ibis_answer ask(sync_queue *q, uint64_t verb, uint64_t seat, uint64_t item, long milliseconds) {
    struct timespec until;
    clock_gettime(CLOCK_REALTIME, &until);
    until.tv_nsec += milliseconds % 1000 * 1000000;
    until.tv_sec += milliseconds / 1000 + until.tv_nsec / 1000000000;
    until.tv_nsec %= 1000000000;
    pthread_mutex_lock(&q->lock);
    ibis_answer answer = step(q, verb, seat, item);
    uint64_t ticket = answer.ticket;
    while (answer.outcome == IBIS_WAITS || answer.outcome == IBIS_NOT_YET) {
        int late = milliseconds < 0 ? pthread_cond_wait(&q->gate[seat], &q->lock) : pthread_cond_timedwait(&q->gate[seat], &q->lock, &until);
        answer = step(q, late ? IBIS_EXPIRE : IBIS_FOLLOW_UP, seat, ticket);
        if (answer.outcome == IBIS_LATE) answer = step(q, IBIS_FOLLOW_UP, seat, ticket);
    }
    pthread_mutex_unlock(&q->lock);
    return answer;
}

static sync_queue queue = {.lock = PTHREAD_MUTEX_INITIALIZER, .core = IBIS_EMPTY, .checker = IBIS_EMPTY};
static uint64_t each = 10000, sums[SEATS];
static _Atomic int done;

/* Seats 0 and 1 give the numbers 1 to `each`, seats 2 and 3 take as many. Every third call has a limit of a millisecond. A
   call that timed out or was interrupted is made again. */
static void *work(void *given) {
    uint64_t seat = (uint64_t)(uintptr_t)given;
    for (uint64_t i = 1; i <= each;) {
        ibis_answer answer = ask(&queue, seat < 2 ? IBIS_GIVE : IBIS_TAKE, seat, seat < 2 ? i : 0, i % 3 ? -1 : 1);
        if (answer.outcome == IBIS_MEETS || answer.outcome == IBIS_DONE || answer.outcome == IBIS_GOT)
            sums[seat] += seat < 2 ? i++ : (i++, answer.item);
    }
    return NULL;
}

static void *interrupt(void *unused) {
    for (uint64_t seat = 0; !done; seat = (seat + 1) % SEATS) {
        pthread_mutex_lock(&queue.lock);
        step(&queue, IBIS_INTERRUPT, 0, seat);
        pthread_mutex_unlock(&queue.lock);
        nanosleep(&(struct timespec){0, 200000}, NULL);
    }
    return unused;
}

int main(int argc, char **argv) {
    if (argc > 1) each = strtoull(argv[1], NULL, 10);
    pthread_t threads[SEATS + 1];
    need(!ibis_queue_new(&queue.core, IBIS_FAIR, 0, SEATS, 1, CAP) && !ibis_checker_new(&queue.checker, IBIS_FAIR, 0), "a start");
    for (int i = 0; i < SEATS; i++) pthread_cond_init(&queue.gate[i], NULL);
    for (int i = 0; i <= SEATS; i++) pthread_create(&threads[i], NULL, i < SEATS ? work : interrupt, (void *)(uintptr_t)i);
    for (int i = 0; i < SEATS; i++) pthread_join(threads[i], NULL);
    done = 1;
    pthread_join(threads[SEATS], NULL);
    ibis_found found = check(&queue);
    need(sums[0] + sums[1] == sums[2] + sums[3] && !found.waiting && !found.uncollected && !found.kept, "the end");
    printf("%llu items handed over, the log is legal\n", (unsigned long long)(2 * each));
    fprintf(stderr, "%llu records\n", (unsigned long long)found.records);
    ibis_free(&queue.core);
    ibis_free(&queue.checker);
    return 0;
}
