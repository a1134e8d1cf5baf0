package main

// #include "ibisbookcase.h"
import "C"

import (
	"fmt"
	"os"
	"strconv"
	"sync"
	"sync/atomic"
	"time"
)

func main() {
	each := 10000
	if len(os.Args) > 1 {
		each, _ = strconv.Atoi(os.Args[1])
	}
	q := &syncQueue{}
	for i := range q.gates {
		q.gates[i] = make(chan struct{}, 1)
	}
	need(C.ibis_queue_new(&q.core, C.IBIS_FAIR, 0, seats, 1, 4096) == C.IBIS_OK, "no queue")
	need(C.ibis_checker_new(&q.checker, C.IBIS_FAIR, 0) == C.IBIS_OK, "no checker")
	var sums [seats]C.uint64_t
	var done atomic.Bool
	var workers, interrupter sync.WaitGroup
	for i := range sums {
		workers.Add(1)
		go func(i int) {
			sums[i] = q.work(C.uint64_t(i), C.uint64_t(each))
			workers.Done()
		}(i)
	}
	interrupter.Add(1)
	go func() {
		for seat := 0; !done.Load(); seat = (seat + 1) % seats {
			q.lock.Lock()
			q.step(C.IBIS_INTERRUPT, 0, C.uint64_t(seat))
			q.lock.Unlock()
			time.Sleep(200 * time.Microsecond)
		}
		interrupter.Done()
	}()
	workers.Wait()
	done.Store(true)
	interrupter.Wait()
	found := q.check()
	need(sums[0]+sums[1] == sums[2]+sums[3] && found.waiting+found.uncollected+found.kept == 0, "the end")
	C.ibis_free(&q.core)
	C.ibis_free(&q.checker)
	fmt.Println(2*each, "items handed over, the log is legal")
	fmt.Fprintln(os.Stderr, found.records, "records")
}
