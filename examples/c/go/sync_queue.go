// A synchronous queue for goroutines: the proved core, one mutex, and a channel with room for one wake for each seat. Two producers
// and two consumers hand numbers over, by calls with and without a limit, while a fifth goroutine interrupts them. At the end a
// proved checker has read the log of all calls.
//
// Proved: each step, its record, and the verdict of the checker. Not proved: this file (its lock, that a wait ends, that the hint
// `wake` is heeded), and the calling convention.
package main

// #cgo CFLAGS: -I../../../c_library
// #cgo LDFLAGS: -L../../../out/c/lib -l:libibisbookcase.a
// #include "ibisbookcase.h"
import "C"

import (
	"sync"
	"time"
)

const seats = 4

type syncQueue struct {
	lock          sync.Mutex
	gates         [seats]chan struct{}
	core, checker C.ibis_handle
}

func need(holds bool, what string) {
	if !holds {
		panic(what)
	}
}

// Pushes the new records on the checker, and folds them away if they are legal.
func (q *syncQueue) check() (found C.ibis_found) {
	need(C.ibis_queue_check(&q.core, &q.checker, &found) == C.IBIS_OK, "the log is illegal")
	return
}

func (q *syncQueue) step(verb, seat, value C.uint64_t) (answer C.ibis_answer) {
	for C.ibis_queue_step(&q.core, verb, seat, value, &answer) == C.IBIS_HISTORY_FULL {
		q.check()
	}
	need(answer.status == C.IBIS_OK, "a step was refused")
	if answer.wake > 0 {
		select {
		case q.gates[answer.wake-1] <- struct{}{}:
		default: // a wake is there already
		}
	}
	return
}

// Waits until the request is matched or interrupted, or its time is over; whether it was matched, and the item of a take.
func (q *syncQueue) ask(verb, seat, item C.uint64_t, limit <-chan time.Time) (C.uint64_t, bool) {
	q.lock.Lock()
	defer q.lock.Unlock()
	answer := q.step(verb, seat, item)
	ticket := answer.ticket
	for answer.outcome == C.IBIS_WAITS || answer.outcome == C.IBIS_NOT_YET {
		next := C.uint64_t(C.IBIS_FOLLOW_UP)
		q.lock.Unlock()
		select {
		case <-q.gates[seat]:
		case <-limit: // a channel that is nil never is ready
			next = C.IBIS_EXPIRE
		}
		q.lock.Lock()
		if answer = q.step(next, seat, ticket); answer.outcome == C.IBIS_LATE {
			answer = q.step(C.IBIS_FOLLOW_UP, seat, ticket)
		}
	}
	return answer.item, answer.outcome == C.IBIS_MEETS || answer.outcome == C.IBIS_DONE || answer.outcome == C.IBIS_GOT
}

// Seats 0 and 1 give the numbers 1 to `each`, seats 2 and 3 take as many. What timed out or was interrupted is made again.
func (q *syncQueue) work(seat, each C.uint64_t) (sum C.uint64_t) {
	for number := C.uint64_t(1); number <= each; {
		var limit <-chan time.Time
		if number%3 == 0 {
			limit = time.After(time.Millisecond)
		}
		verb, item := C.uint64_t(C.IBIS_TAKE), C.uint64_t(0)
		if seat < 2 {
			verb, item = C.IBIS_GIVE, number
		}
		if got, matched := q.ask(verb, seat, item, limit); matched {
			sum += got + item
			number++
		}
	}
	return
}
