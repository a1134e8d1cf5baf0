import java.util.List;
import java.util.Map;
import java.util.concurrent.*;
import java.util.concurrent.atomic.AtomicLong;

/**
 * A synchronous queue with a fault, which docs/JUDGE.md finds: an offer whose time runs out doesn't look at its item again.
 * <pre>java Hasty.java CALLS > hasty.calls</pre>
 */
public final class Hasty {
    private static final class Item {
        private int number;
        private boolean taken;
    }

    private Item offered;

    /** Offers an item, and waits for a taker up to a limit. Returns whether the item was taken. */
    private synchronized boolean offer(int number, long nanos) throws InterruptedException {
        long end = System.nanoTime() + nanos;
        Item mine = new Item();
        mine.number = number;
        offered = mine;
        notifyAll();
        while (!mine.taken) {
            TimeUnit.NANOSECONDS.timedWait(this, Math.max(1, end - System.nanoTime()));
            if (System.nanoTime() >= end) {
                offered = null;
                return false;
            }
        }
        return true;
    }

    /** Takes the offered item, and waits for one up to a limit. Returns null if none was offered in time. */
    private synchronized Integer poll(long nanos) throws InterruptedException {
        for (long end = System.nanoTime() + nanos; offered == null; ) {
            if (System.nanoTime() >= end) {
                return null;
            }
            TimeUnit.NANOSECONDS.timedWait(this, Math.max(1, end - System.nanoTime()));
        }
        Item found = offered;
        offered = null;
        found.taken = true;
        notifyAll();
        return found.number;
    }

    /** One thread offers items, and another one polls. A counter is their clock: all read it, and it never goes back. */
    public static void main(String[] words) throws Exception {
        Hasty queue = new Hasty();
        AtomicLong clock = new AtomicLong();
        Map<Long, String> log = new ConcurrentSkipListMap<>(Map.of(0L, "calls 1 fair"));
        int calls = Integer.parseInt(words[0]);
        Callable<String> giver = () -> {
            for (int item = 1; item <= calls; item++) {
                long begin = clock.incrementAndGet();
                String answer = queue.offer(item, 100_000) ? "done" : "expired";
                log.put(begin, "0 " + begin + " " + clock.incrementAndGet() + " offer-for " + item + " " + answer);
            }
            return "";
        };
        Callable<String> taker = () -> {
            for (int n = 0; n < calls; n++) {
                long begin = clock.incrementAndGet();
                Integer got = queue.poll(100_000);
                String answer = got == null ? "expired" : "got " + got;
                log.put(begin, "1 " + begin + " " + clock.incrementAndGet() + " poll-for " + answer);
            }
            return "";
        };
        ExecutorService threads = Executors.newFixedThreadPool(2);
        threads.invokeAll(List.of(giver, taker));
        threads.shutdown();
        log.values().forEach(System.out::println);
    }
}
