import java.util.concurrent.Exchanger;
import java.util.concurrent.TimeUnit;
import java.util.concurrent.TimeoutException;
import java.util.concurrent.atomic.AtomicInteger;
import java.util.concurrent.atomic.AtomicLong;

/**
 * How many items Java's threads exchange: the work of {@code bench exchanges}, over java.util.concurrent.Exchanger.
 *
 * <pre>java bench/ExchangeRace.java THREADS EACH ROUNDS
 * java bench/ExchangeRace.java alone MILLISECONDS</pre>
 *
 * So many platform threads, each of which has an item, exchange what they have EACH times at one exchanger, as many rounds as are asked
 * for, each at a new one, after two that aren't told. The item of a thread is its number, from 1. A thread ends early if no other is still
 * at work that could come. A line a round on standard output tells how many items the threads have in the end, and their sum; two on
 * standard error how many exchanges there were, each counted at both of its threads, and after how many nanoseconds the last thread but
 * one had made its last. With <code>alone</code> one thread waits so long for a partner, after it did so once before, and a line on
 * standard error tells the processor's nanoseconds that it took.
 */
public final class ExchangeRace {
    private static final int UNTOLD = 2;

    private ExchangeRace() {}

    private static final class Worker extends Thread {
        private final Exchanger<Long> exchanger;
        private final AtomicInteger atWork;
        private final int each;
        private long item;
        private long exchanges;
        /** When it had made its last, if another thread was still at work then. */
        private long end;

        Worker(Exchanger<Long> exchanger, AtomicInteger atWork, int each, long item) {
            this.exchanger = exchanger;
            this.atWork = atWork;
            this.each = each;
            this.item = item;
        }

        @Override
        public void run() {
            try {
                while (exchanges < each && exchangeOnce()) {
                    exchanges++;
                }
            } catch (InterruptedException stopped) {
                // Nobody interrupts a thread of this program.
            }
            if (atWork.getAndDecrement() > 1) {
                end = System.nanoTime();
            }
        }

        private boolean exchangeOnce() throws InterruptedException {
            while (true) {
                try {
                    item = exchanger.exchange(item, 50, TimeUnit.MILLISECONDS);
                    return true;
                } catch (TimeoutException nobody) {
                    if (atWork.get() < 2) {
                        return false;
                    }
                }
            }
        }
    }

    private static void race(int threads, int each, boolean told) throws InterruptedException {
        Exchanger<Long> exchanger = new Exchanger<>();
        AtomicInteger atWork = new AtomicInteger(threads);
        Worker[] workers = new Worker[threads];
        long begin = System.nanoTime();
        for (int number = 0; number < threads; number++) {
            workers[number] = new Worker(exchanger, atWork, each, number + 1);
            workers[number].start();
        }
        long sum = 0;
        long exchanges = 0;
        long nanoseconds = 0;
        for (Worker worker : workers) {
            worker.join();
            sum += worker.item;
            exchanges += worker.exchanges;
            if (worker.end != 0) {
                nanoseconds = Math.max(nanoseconds, worker.end - begin);
            }
        }
        if (told) {
            System.out.println("items " + threads + " sum " + sum);
            System.err.println("exchanges " + exchanges);
            System.err.println("nanoseconds " + nanoseconds);
        }
    }

    private static void alone(int milliseconds) throws InterruptedException {
        AtomicLong processor = new AtomicLong();
        for (int turn = 0; turn < 2; turn++) {
            Thread thread = new Thread(() -> {
                var threads = java.lang.management.ManagementFactory.getThreadMXBean();
                long begin = threads.getCurrentThreadCpuTime();
                try {
                    new Exchanger<Long>().exchange(7L, milliseconds, TimeUnit.MILLISECONDS);
                } catch (TimeoutException | InterruptedException nobody) {
                    processor.set(threads.getCurrentThreadCpuTime() - begin);
                }
            });
            thread.start();
            thread.join();
        }
        System.err.println("processor " + processor.get());
    }

    public static void main(String[] words) throws InterruptedException {
        if (words.length == 2 && words[0].equals("alone")) {
            alone(Integer.parseInt(words[1]));
            return;
        }
        if (words.length != 3) {
            System.err.println("usage: java bench/ExchangeRace.java THREADS EACH ROUNDS | alone MILLISECONDS");
            System.exit(2);
        }
        int rounds = Integer.parseInt(words[2]);
        for (int round = 0; round < UNTOLD + rounds; round++) {
            race(Integer.parseInt(words[0]), Integer.parseInt(words[1]), round >= UNTOLD);
        }
    }
}
