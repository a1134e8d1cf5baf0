// Buffers with one fault each, and what goroutines see of them, as `meet judge` reads it.
//
//	go run buffers.go FAULT THREADS CALLS SEED > out.calls
//
// Half of the THREADS give and half take, CALLS each: waiting, immediate and timed calls. A buffer is a ring of four items. Without a fault
// (`none`) each log is explained.
package main

import (
	"bufio"
	"fmt"
	"math/rand"
	"os"
	"runtime"
	"sort"
	"strconv"
	"sync"
	"sync/atomic"
	"time"
)

const bound = 4

// A ring under a lock. Who finds no room, or nothing, lets others run and looks again.
type buffer struct {
	lock        sync.Mutex
	ring        [bound]int
	head, count int
	shown       atomic.Int64 // the count as some faults see it
	fault       string
}

func (b *buffer) put(item int) {
	b.ring[(b.head+b.count)%bound] = item
	b.count++
}

func (b *buffer) remove() int {
	item := b.ring[b.head]
	b.head = (b.head + 1) % bound
	b.count--
	return item
}

// Gives an item until a time, and returns whether it was given.
func (b *buffer) give(item int, until time.Time) bool {
	// An offer looks at a count that the takers haven't lowered: it fails though there is room.
	if b.fault == "early" && b.shown.Load() >= bound && time.Now().After(until) {
		return false
	}
	for {
		b.lock.Lock()
		if b.count < bound {
			if b.fault == "slot" { // The slot is chosen under one hold of the lock, and filled under another.
				slot := (b.head + b.count) % bound
				b.lock.Unlock()
				runtime.Gosched()
				b.lock.Lock()
				b.ring[slot] = item
				if b.count < bound {
					b.count++
				}
			} else {
				b.put(item)
			}
			if b.fault != "late" { // Else the count is shown only later.
				b.shown.Store(int64(b.count))
			}
			b.lock.Unlock()
			if b.fault == "late" {
				time.Sleep(20 * time.Microsecond)
				b.shown.Add(1)
			}
			return true
		}
		b.lock.Unlock()
		if time.Now().After(until) {
			return false
		}
		runtime.Gosched()
	}
}

// Takes an item until a time, and returns it, and whether there was one.
func (b *buffer) take(until time.Time) (int, bool) {
	for {
		// Whether an item is there is seen without the lock: by the shown count, which is late, or which another taker is about to lower.
		isThere := b.shown.Load() > 0
		if b.fault == "once" {
			runtime.Gosched()
		}
		b.lock.Lock()
		if b.fault != "late" && b.fault != "once" {
			isThere = b.count > 0
		}
		if isThere {
			item := b.remove()
			if b.count < 0 {
				b.count = 0
			}
			switch b.fault {
			case "early":
			case "late":
				b.shown.Add(-1)
			default:
				b.shown.Store(int64(b.count))
			}
			b.lock.Unlock()
			return item, true
		}
		b.lock.Unlock()
		if time.Now().After(until) {
			return 0, false
		}
		runtime.Gosched()
	}
}

type call struct {
	begin time.Duration
	line  string
}

var zero = time.Now()

// Makes the calls of a seat, the number of its goroutine.
func logOf(b *buffer, seat, calls int, chance *rand.Rand) []call {
	var log []call
	for item := seat*calls + 1; item <= seat*calls+calls; item++ {
		kind := chance.Intn(3)
		limit := []time.Duration{20 * time.Millisecond, 0, time.Duration(1000 + chance.Intn(200000))}[kind]
		begin := time.Since(zero)
		until := time.Now().Add(limit)
		asked, answer, done := "", "", false
		if seat%2 == 0 {
			done = b.give(item, until)
			asked, answer = fmt.Sprint([]string{"put", "offer", "offer-for"}[kind], " ", item), "done"
		} else {
			var got int
			got, done = b.take(until)
			asked, answer = []string{"take", "poll", "poll-for"}[kind], fmt.Sprint("got ", got)
		}
		end := time.Since(zero)
		if !done {
			answer = []string{"", "none", "expired"}[kind]
		}
		if done || kind != 0 { // A waiting call that gave up is left out.
			log = append(log, call{begin, fmt.Sprintf("%d %d %d %s %s", seat, begin, end, asked, answer)})
		}
	}
	return log
}

func main() {
	var numbers [3]int
	for at := range numbers {
		numbers[at], _ = strconv.Atoi(os.Args[at+2])
	}
	count, calls, seed := numbers[0], numbers[1], numbers[2]
	b := &buffer{fault: os.Args[1]}
	logs := make([][]call, count)
	var all sync.WaitGroup
	for n := 0; n < count; n++ {
		all.Add(1)
		go func(seat int) {
			defer all.Done()
			logs[seat] = logOf(b, seat, calls, rand.New(rand.NewSource(int64(seed*31+seat))))
		}(n)
	}
	all.Wait()
	lines := []call{{-1, fmt.Sprint("calls 1 buffer ", bound)}}
	for _, log := range logs {
		lines = append(lines, log...)
	}
	sort.SliceStable(lines, func(i, j int) bool { return lines[i].begin < lines[j].begin })
	out := bufio.NewWriter(os.Stdout)
	defer out.Flush()
	for _, it := range lines {
		fmt.Fprintln(out, it.line)
	}
}
