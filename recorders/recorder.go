// Records calls of a channel for `meet judge`. Copy it, and put your own queue in at YOUR QUEUE.
//
//	go run recorder.go channel[:BOUND] plain|mixed THREADS CALLS SEED > out.calls
//
// Half of the THREADS give CALLS items each. The others take until the channel is closed. A plain run sends and receives
// alone. A mixed run makes immediate and timed calls too. A channel without a bound is judged as a fair queue.
package main

import (
	"bufio"
	"fmt"
	"math/rand"
	"os"
	"sort"
	"sync"
	"time"
)

type call struct {
	begin time.Duration
	line  string
}

var zero = time.Now()

// Makes a call of a seat, the number of its goroutine. It returns the call, and whether the channel is open. All read one
// monotonic clock, right before the call and right after it. Either `to` or `from` is nil: then it is never ready.
func record(to chan<- int, from <-chan int, seat int, verb string, item int, limit time.Duration) (call, bool) {
	answer, open := "done", true
	begin := time.Since(zero)
	switch verb {
	case "put":
		to <- item
	case "take":
		item, open = <-from
	case "offer", "poll":
		select {
		case to <- item:
		case item, open = <-from:
		default:
			answer = "none"
		}
	case "offer-for", "poll-for":
		select {
		case to <- item:
		case item, open = <-from:
		case <-time.After(limit):
			answer = "expired"
		}
	}
	end := time.Since(zero)
	if to != nil {
		verb = fmt.Sprint(verb, " ", item)
	} else if answer == "done" {
		answer = fmt.Sprint("got ", item)
	}
	if !open { // It was closed before this call got an item. The log says that it never ended.
		return call{begin, fmt.Sprintf("%d %d - %s", seat, begin, verb)}, false
	}
	return call{begin, fmt.Sprintf("%d %d %d %s %s", seat, begin, end, verb, answer)}, true
}

func main() {
	var count, calls, seed, bound int
	fmt.Sscan(fmt.Sprint(os.Args[3], " ", os.Args[4], " ", os.Args[5]), &count, &calls, &seed)
	fmt.Sscanf(os.Args[1], "channel:%d", &bound)
	kind := map[bool]string{true: "fair", false: fmt.Sprint("buffer ", bound)}[bound == 0]
	kinds := map[string]int{"plain": 1, "mixed": 3}[os.Args[2]]
	channel, logs := make(chan int, bound), make([][]call, count) // YOUR QUEUE; `record` calls it
	var givers, takers sync.WaitGroup
	for n := 0; n < count; n++ {
		seat, verbs, left, to, from := n, []string{"put", "offer", "offer-for"}, &givers, channel, (chan int)(nil)
		if n%2 == 1 {
			verbs, left, to, from = []string{"take", "poll", "poll-for"}, &takers, nil, channel
		}
		left.Add(1)
		go func() {
			defer left.Done()
			chance := rand.New(rand.NewSource(int64(seed*31 + seat)))
			for item, open := seat*calls+1, true; open && (to == nil || item <= seat*calls+calls); item++ {
				made, isOpen := record(to, from, seat, verbs[chance.Intn(kinds)], item, time.Duration(1000+chance.Intn(200000)))
				logs[seat], open = append(logs[seat], made), isOpen
			}
		}()
	}
	givers.Wait()
	close(channel)
	takers.Wait()
	all := []call{{-1, "calls 1 " + kind}}
	for _, log := range logs {
		all = append(all, log...)
	}
	sort.SliceStable(all, func(i, j int) bool { return all[i].begin < all[j].begin })
	out := bufio.NewWriter(os.Stdout)
	defer out.Flush()
	for _, it := range all {
		fmt.Fprintln(out, it.line)
	}
}
