import java.util.concurrent.ExecutorService;
import java.util.concurrent.Executors;
import java.util.concurrent.TimeUnit;
import java.util.concurrent.atomic.AtomicLong;

/**
 * How long it takes Java's pools to run jobs: the work of {@code bench jobs}, at pools of java.util.concurrent.
 *
 * <pre>java bench/PoolRace.java fixed|cached WORKERS CALLERS EACH NANOSECONDS ROUNDS</pre>
 *
 * Each of so many callers, a platform thread, hands in EACH jobs that work for so long, as fast as it can. So many rounds are held as
 * are asked for, each over a new pool, after two that aren't told. A line a round on standard output tells how many jobs ran; one on
 * standard error how many nanoseconds it took, from before the first caller is started until the pool has terminated. A cached pool has as
 * many workers as it wants: WORKERS counts for a fixed one alone.
 */
public final class PoolRace {
    private static final int MOST_THREADS = 256;

    private PoolRace() {}

    /** What a round is of. */
    private record Race(String pool, int workers, int callers, int each, long lasts) {
        ExecutorService made() {
            return pool.equals("fixed") ? Executors.newFixedThreadPool(workers) : Executors.newCachedThreadPool();
        }
    }

    /** Works for so many nanoseconds, and looks at the clock all the time. */
    private static void work(long lasts) {
        long start = System.nanoTime();
        while (System.nanoTime() - start < lasts) {
            Thread.onSpinWait();
        }
    }

    /** Runs a round, and tells it where it is asked for. */
    private static void run(Race race, boolean told) throws InterruptedException {
        ExecutorService pool = race.made();
        AtomicLong ran = new AtomicLong();
        AtomicLong done = new AtomicLong();
        Thread[] callers = new Thread[race.callers()];
        for (int number = 0; number < callers.length; number++) {
            callers[number] = new Thread(() -> {
                for (int job = 0; job < race.each(); job++) {
                    pool.execute(() -> {
                        if (race.lasts() > 0) {
                            work(race.lasts());
                        }
                        ran.incrementAndGet();
                    });
                }
                if (done.incrementAndGet() == race.callers()) {
                    pool.shutdown();
                }
            });
        }
        long start = System.nanoTime();
        for (Thread caller : callers) {
            caller.start();
        }
        for (Thread caller : callers) {
            caller.join();
        }
        pool.awaitTermination(1, TimeUnit.HOURS);
        long nanoseconds = System.nanoTime() - start;
        if (told) {
            System.out.println("jobs " + ran.get() + " of " + (long) race.callers() * race.each());
            System.err.println("nanoseconds " + nanoseconds);
        }
    }

    private static void fail() {
        System.err.println("usage: java bench/PoolRace.java fixed|cached WORKERS CALLERS EACH NANOSECONDS ROUNDS");
        System.exit(2);
    }

    public static void main(String[] words) throws InterruptedException {
        if (words.length != 6 || !(words[0].equals("fixed") || words[0].equals("cached"))) {
            fail();
        }
        int[] numbers = new int[5];
        try {
            for (int number = 0; number < numbers.length; number++) {
                numbers[number] = Integer.parseInt(words[number + 1]);
            }
        } catch (NumberFormatException unread) {
            fail();
        }
        Race race = new Race(words[0], numbers[0], numbers[1], numbers[2], numbers[3]);
        boolean within = 1 <= race.workers() && race.workers() <= MOST_THREADS && 1 <= race.callers()
                && race.callers() <= MOST_THREADS && 1 <= race.each();
        if (!within) {
            fail();
        }
        for (int round = -2; round < numbers[4]; round++) {
            run(race, round >= 0);
        }
    }
}
