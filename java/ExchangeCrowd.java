import java.util.ArrayList;
import java.util.List;
import java.util.Random;
import java.util.concurrent.CyclicBarrier;
import java.util.concurrent.Exchanger;
import java.util.concurrent.TimeUnit;
import java.util.concurrent.TimeoutException;

/**
 * Ten threads at once at one java.util.concurrent.Exchanger.
 *
 * <pre>java ExchangeCrowd EACH SEED</pre>
 *
 * Each makes so many timed exchanges of chance. A line tells of each, by the number of what it brought, the number of
 * what it got, or that its time ran out: <code>17 got 204</code>, <code>18 none</code>.
 */
public final class ExchangeCrowd {
    private static final int THREADS = 10;

    private ExchangeCrowd() {}

    private static void exchange(Exchanger<Long> exchanger, long item, long limit, List<String> lines)
        throws InterruptedException {
        try {
            lines.add(item + " got " + exchanger.exchange(item, limit, TimeUnit.MICROSECONDS));
        } catch (TimeoutException over) {
            lines.add(item + " none");
        }
    }

    public static void main(String[] words) throws InterruptedException {
        int each = Integer.parseInt(words[0]);
        Exchanger<Long> exchanger = new Exchanger<>();
        CyclicBarrier start = new CyclicBarrier(THREADS);
        List<List<String>> told = new ArrayList<>();
        Thread[] threads = new Thread[THREADS];
        for (int number = 0; number < THREADS; number++) {
            List<String> lines = new ArrayList<>();
            told.add(lines);
            long first = (long) number * each;
            Random chance = new Random(Long.parseLong(words[1]) + number);
            threads[number] = new Thread(() -> {
                try {
                    start.await();
                    for (long at = 0; at < each; at++) {
                        exchange(exchanger, first + at, chance.nextInt(2_000), lines);
                    }
                } catch (Exception fault) {
                    lines.add("fault " + fault);
                }
            });
            threads[number].start();
        }
        for (Thread thread : threads) {
            thread.join();
        }
        told.forEach(lines -> lines.forEach(System.out::println));
    }
}
