import com.sun.management.OperatingSystemMXBean;
import java.lang.management.ManagementFactory;
import java.util.Arrays;
import java.util.concurrent.LinkedTransferQueue;
import java.util.concurrent.SynchronousQueue;

/**
 * How long it takes Java's threads to hand items on: the work of {@code bench handoffs}, over the queues of java.util.concurrent.
 *
 * <pre>java bench/Race.java fair|unfair|transfer PAIRS EACH ROUNDS [tails]</pre>
 *
 * So many pairs of platform threads, one of which puts the numbers from 1 to EACH and one takes as many, do so as many rounds as are
 * asked for, each over a new queue, after one round that isn't told. A line a round on standard output tells how many items were taken
 * and their sum; two on standard error how many nanoseconds it took, from before the first thread is started until all have ended, and
 * how many of the processor's. With <code>tails</code> each put is timed by itself, and one line more tells the median of a round's, and
 * what 99 in 100 and 999 in 1,000 didn't exceed.
 */
public final class Race {
    private static final String USAGE = "usage: java bench/Race.java fair|unfair|transfer PAIRS EACH ROUNDS [tails]";
    private static final int MOST_PAIRS = 64;
    private static final int MOST_EACH = 100_000;
    /** The cap on the records of the queue that this one is compared with, which keeps three for an item. */
    private static final long MOST_RECORDS = 1_048_576;

    /** A queue whose put waits until the item is taken. */
    private interface Passing {
        void put(Long item) throws InterruptedException;

        Long take() throws InterruptedException;
    }

    /** The end of a round. */
    private record Finish(long items, long sum, long nanoseconds, long processor, long[] puts) {}

    private static final OperatingSystemMXBean SYSTEM =
            (OperatingSystemMXBean) ManagementFactory.getOperatingSystemMXBean();

    /** A thread that takes items, and what it counted, to be read once it has ended. */
    private static final class Taker extends Thread {
        private final Passing queue;
        private final int each;
        private long items;
        private long sum;

        Taker(Passing queue, int each) {
            this.queue = queue;
            this.each = each;
        }

        @Override
        public void run() {
            try {
                for (int number = 0; number < each; number++) {
                    sum += queue.take();
                    items++;
                }
            } catch (InterruptedException stopped) {
                // Nobody interrupts a thread of this program.
            }
        }
    }

    private Race() {}

    private static Passing synchronous(boolean fair) {
        SynchronousQueue<Long> queue = new SynchronousQueue<>(fair);
        return new Passing() {
            @Override
            public void put(Long item) throws InterruptedException {
                queue.put(item);
            }

            @Override
            public Long take() throws InterruptedException {
                return queue.take();
            }
        };
    }

    private static Passing transfer() {
        LinkedTransferQueue<Long> queue = new LinkedTransferQueue<>();
        return new Passing() {
            @Override
            public void put(Long item) throws InterruptedException {
                queue.transfer(item);
            }

            @Override
            public Long take() throws InterruptedException {
                return queue.take();
            }
        };
    }

    /** A new queue of this name, or null where there is none. */
    private static Passing queueOf(String name) {
        return switch (name) {
            case "fair" -> synchronous(true);
            case "unfair" -> synchronous(false);
            case "transfer" -> transfer();
            default -> null;
        };
    }

    /** Puts the numbers from 1. Each put is timed where there is room for its time, from this place on. */
    private static Thread giver(Passing queue, int each, long[] puts, int from) {
        return new Thread(() -> {
            try {
                for (int item = 1; item <= each; item++) {
                    if (puts.length == 0) {
                        queue.put((long) item);
                        continue;
                    }
                    long start = System.nanoTime();
                    queue.put((long) item);
                    puts[from + item - 1] = System.nanoTime() - start;
                }
            } catch (InterruptedException stopped) {
                // Nobody interrupts a thread of this program.
            }
        });
    }

    /** Runs a round over this queue. */
    private static Finish run(Passing queue, int pairs, int each, boolean tails) throws InterruptedException {
        long[] puts = new long[tails ? pairs * each : 0];
        Thread[] givers = new Thread[pairs];
        Taker[] takers = new Taker[pairs];
        for (int pair = 0; pair < pairs; pair++) {
            givers[pair] = giver(queue, each, puts, pair * each);
            takers[pair] = new Taker(queue, each);
        }
        long busy = SYSTEM.getProcessCpuTime();
        long start = System.nanoTime();
        for (Thread giver : givers) {
            giver.start();
        }
        for (Taker taker : takers) {
            taker.start();
        }
        for (Thread giver : givers) {
            giver.join();
        }
        for (Taker taker : takers) {
            taker.join();
        }
        long nanoseconds = System.nanoTime() - start;
        long processor = SYSTEM.getProcessCpuTime() - busy;
        long items = 0;
        long sum = 0;
        for (Taker taker : takers) {
            items += taker.items;
            sum += taker.sum;
        }
        return new Finish(items, sum, nanoseconds, processor, puts);
    }

    /** What all but one in so many of these times, which are in rising order, don't exceed. */
    private static long allButOneIn(int many, long[] times) {
        return times[times.length - times.length / many - 1];
    }

    private static void fail(String line) {
        System.err.println(line);
        System.exit(2);
    }

    public static void main(String[] words) throws InterruptedException {
        boolean tails = words.length == 5 && words[4].equals("tails");
        if (words.length != 4 && !tails || queueOf(words[0]) == null) {
            fail(USAGE);
        }
        int pairs = 0;
        int each = 0;
        long rounds = 0;
        try {
            pairs = Integer.parseInt(words[1]);
            each = Integer.parseInt(words[2]);
            rounds = Long.parseLong(words[3]);
        } catch (NumberFormatException unread) {
            fail(USAGE);
        }
        boolean within = 1 <= pairs && pairs <= MOST_PAIRS && 1 <= each && each <= MOST_EACH;
        if (!within || 3L * pairs * each > MOST_RECORDS) {
            fail("Race: PAIRS is 1 to 64, EACH 1 to 100000, and 3 * PAIRS * EACH at most 1048576");
        }
        run(queueOf(words[0]), pairs, each, tails);
        for (long round = 0; round < rounds; round++) {
            Finish finish = run(queueOf(words[0]), pairs, each, tails);
            System.out.println("items " + finish.items() + " sum " + finish.sum());
            System.err.println("nanoseconds " + finish.nanoseconds());
            System.err.println("processor " + finish.processor());
            if (tails) {
                long[] puts = finish.puts();
                Arrays.sort(puts);
                System.err.println("put median " + puts[puts.length / 2] + " p99 " + allButOneIn(100, puts) + " p999 "
                        + allButOneIn(1_000, puts));
            }
        }
    }
}
