// How long it takes Go's goroutines to hand items on: the work of `bench handoffs`, over a channel of capacity 0.
//
// usage: race PAIRS EACH ROUNDS [tails]
//
// So many pairs of goroutines, one of which sends the numbers from 1 to EACH and one receives as many, do so as many rounds as are asked
// for, each over a new channel. A line a round on standard output tells how many items were received and their sum; two on standard error
// how many nanoseconds it took, from before the first goroutine was started until all have ended, and how many of the processor's. With
// `tails` each send is timed by itself, and one line more tells the median of a round's, and what 99 in 100 and 999 in 1,000 didn't exceed.
package main

import (
	"fmt"
	"os"
	"sort"
	"strconv"
	"sync"
	"syscall"
	"time"
)

const usage = "usage: race PAIRS EACH ROUNDS [tails]"

// What one pair of goroutines tells at its end.
type told struct {
	items, sum uint64
	sends      []int64
}

// The nanoseconds of the processor that this process has taken.
func processor() int64 {
	var used syscall.Rusage
	if err := syscall.Getrusage(syscall.RUSAGE_SELF, &used); err != nil {
		return 0
	}
	return used.Utime.Nano() + used.Stime.Nano()
}

// Sends the numbers from 1, each timed where there is room for its time.
func send(channel chan<- uint64, each uint64, sends []int64) []int64 {
	for item := uint64(1); item <= each; item++ {
		if cap(sends) == 0 {
			channel <- item
			continue
		}
		start := time.Now()
		channel <- item
		sends = append(sends, time.Since(start).Nanoseconds())
	}
	return sends
}

// What all but one in so many of these times, which are in rising order, don't exceed.
func allButOneIn(many int, times []int64) int64 {
	if len(times) == 0 {
		return 0
	}
	return times[len(times)-len(times)/many-1]
}

func round(pairs int, each uint64, tails bool) {
	channel := make(chan uint64)
	tellings := make([]told, pairs)
	for pair := range tellings {
		if tails {
			tellings[pair].sends = make([]int64, 0, each)
		}
	}
	var all sync.WaitGroup
	all.Add(2 * pairs)
	busy := processor()
	start := time.Now()
	for pair := range tellings {
		pair := &tellings[pair]
		go func() {
			pair.sends = send(channel, each, pair.sends)
			all.Done()
		}()
		go func() {
			for number := uint64(0); number < each; number++ {
				pair.sum += <-channel
				pair.items++
			}
			all.Done()
		}()
	}
	all.Wait()
	passed := time.Since(start).Nanoseconds()
	busy = processor() - busy
	var items, sum uint64
	var sends []int64
	for _, pair := range tellings {
		items += pair.items
		sum += pair.sum
		sends = append(sends, pair.sends...)
	}
	fmt.Printf("items %d sum %d\n", items, sum)
	fmt.Fprintf(os.Stderr, "nanoseconds %d\nprocessor %d\n", passed, busy)
	if tails {
		sort.Slice(sends, func(one, other int) bool { return sends[one] < sends[other] })
		fmt.Fprintf(os.Stderr, "put median %d p99 %d p999 %d\n", sends[len(sends)/2], allButOneIn(100, sends), allButOneIn(1000, sends))
	}
}

// The number that this word spells, within these limits.
func number(word string, most int) int {
	read, err := strconv.Atoi(word)
	if err != nil || read < 1 || read > most {
		fmt.Fprintln(os.Stderr, usage)
		os.Exit(2)
	}
	return read
}

func main() {
	words := os.Args[1:]
	tails := len(words) == 4 && words[3] == "tails"
	if len(words) != 3 && !tails {
		fmt.Fprintln(os.Stderr, usage)
		os.Exit(2)
	}
	pairs, each := number(words[0], 64), number(words[1], 1_000_000)
	for rounds := number(words[2], 1_000_000); rounds > 0; rounds-- {
		round(pairs, uint64(each), tails)
	}
}
