import java.nio.file.Files;
import java.nio.file.Path;
import java.util.ArrayList;
import java.util.Comparator;
import java.util.List;
import java.util.Random;
import java.util.concurrent.BlockingQueue;
import java.util.concurrent.Callable;
import java.util.concurrent.CyclicBarrier;
import java.util.concurrent.LinkedTransferQueue;
import java.util.concurrent.SynchronousQueue;
import java.util.concurrent.TimeUnit;
import java.util.concurrent.TransferQueue;
import java.util.concurrent.atomic.AtomicLong;

/**
 * Threads that call the queues of java.util.concurrent at once, with nothing around them, and what they saw.
 *
 * <pre>java Overlaps FOLDER RUNS SEED THREADS CALLS [lines]</pre>
 *
 * Of each run the calls are written to a file of the folder, as `meet judge` reads them: each with its begin and its end
 * by one counter; one that never ends has none. The runs go over the kinds of queues in turn. With `lines` all threads but one come to wait, one after
 * another, each seen to wait before the next one comes; and then that one serves them.
 */
public final class Overlaps {
    private static final String[] KINDS = {"fair", "unfair", "transfer"};

    /** A call: when it began, was seen to wait and ended, each 0 where it wasn't; what is called, and the answer. */
    private record Call(int seat, long begin, long seen, long end, String text, String answer) {
        String line() {
            String asked = seat + " " + begin + (seen > 0 ? " @" + seen : "");
            return end > 0 ? asked + " " + end + " " + text + " " + answer : asked + " - " + text;
        }
    }

    /** What is called, and how. */
    private record Asked(String text, Callable<String> call) {}

    private final String kind;
    private final BlockingQueue<Integer> queue;
    private final AtomicLong clock = new AtomicLong();

    private Overlaps(String kind) {
        this.kind = kind;
        this.queue = kind.equals("transfer") ? new LinkedTransferQueue<>() : new SynchronousQueue<>(kind.equals("fair"));
    }

    private boolean transfers() {
        return kind.equals("transfer");
    }

    private Asked give(int item) {
        return transfers()
            ? new Asked("try " + item, () -> ((TransferQueue<Integer>) queue).tryTransfer(item) ? "done" : "none")
            : new Asked("offer " + item, () -> queue.offer(item) ? "done" : "none");
    }

    private Asked giveFor(int item, long limit) {
        return transfers()
            ? new Asked("try-for " + item, () ->
                ((TransferQueue<Integer>) queue).tryTransfer(item, limit, TimeUnit.MILLISECONDS) ? "done" : "expired")
            : new Asked("offer-for " + item, () ->
                queue.offer(item, limit, TimeUnit.MILLISECONDS) ? "done" : "expired");
    }

    private Asked keep(int item) {
        return new Asked("put " + item, () -> {
            queue.put(item);
            return "done";
        });
    }

    private Asked poll() {
        return new Asked("poll", () -> {
            Integer got = queue.poll();
            return got == null ? "none" : "got " + got;
        });
    }

    private Asked pollFor(long limit) {
        return new Asked("poll-for", () -> {
            Integer got = queue.poll(limit, TimeUnit.MILLISECONDS);
            return got == null ? "expired" : "got " + got;
        });
    }

    private Asked any(Random chance, int item) {
        long limit = 1 + chance.nextInt(3);
        switch (chance.nextInt(transfers() ? 7 : 6)) {
            case 0:
                return give(item);
            case 1:
                return poll();
            case 2:
            case 3:
                return giveFor(item, limit);
            case 6:
                return keep(item);
            default:
                return pollFor(limit);
        }
    }

    /** A seat calls; what was seen of it stands in the list from its begin on. */
    private void make(List<Call> seen, int seat, Asked asked, long[] waits) throws Exception {
        int at;
        Call call;
        synchronized (seen) {
            call = new Call(seat, clock.incrementAndGet(), 0, 0, asked.text(), "");
            at = seen.size();
            seen.add(call);
        }
        String answer = asked.call().call();
        long end = clock.incrementAndGet();
        synchronized (seen) {
            seen.set(at, new Call(seat, call.begin(), waits == null ? 0 : waits[seat], end, call.text(), answer));
        }
    }

    /** So many threads make so many calls each, at once. Who doesn't end within two seconds never does. */
    private List<Call> crowd(long seed, int threads, int calls) throws Exception {
        CyclicBarrier start = new CyclicBarrier(threads);
        List<List<Call>> seen = new ArrayList<>();
        List<Thread> crowd = new ArrayList<>();
        for (int number = 0; number < threads; number++) {
            int seat = number;
            List<Call> mine = new ArrayList<>();
            seen.add(mine);
            Thread thread = new Thread(() -> {
                Random chance = new Random(seed * 31 + seat);
                try {
                    start.await();
                    for (int call = 0; call < calls; call++) {
                        make(mine, seat, any(chance, call * threads + seat + 1), null);
                    }
                } catch (Exception broken) {
                    throw new IllegalStateException(broken);
                }
            });
            thread.setDaemon(true);
            crowd.add(thread);
        }
        for (Thread thread : crowd) {
            thread.start();
        }
        for (Thread thread : crowd) {
            thread.join(2_000);
        }
        List<Call> all = new ArrayList<>();
        for (List<Call> mine : seen) {
            synchronized (mine) {
                all.addAll(mine);
            }
        }
        return all;
    }

    /** All threads but the last wait in a line, and that one serves them; so many times. */
    private List<Call> lines(long seed, int threads, int rounds) throws Exception {
        Random chance = new Random(seed);
        List<Call> all = new ArrayList<>();
        for (int round = 0; round < rounds; round++) {
            boolean give = chance.nextBoolean();
            long[] seen = new long[threads];
            List<Thread> line = new ArrayList<>();
            for (int number = 0; number < threads - 1; number++) {
                int seat = number;
                Thread thread = new Thread(() -> {
                    try {
                        make(all, seat, give ? giveFor(seat + 1, 10_000) : pollFor(10_000), seen);
                    } catch (Exception broken) {
                        throw new IllegalStateException(broken);
                    }
                });
                thread.start();
                line.add(thread);
                awaitWait(thread);
                seen[seat] = clock.incrementAndGet();
            }
            for (int call = 0; call < threads - 1; call++) {
                make(all, threads - 1, give ? poll() : give(10 + call), null);
            }
            for (Thread thread : line) {
                thread.join();
            }
        }
        return all;
    }

    /** Until this thread waits, and a millisecond later it still does. */
    private static void awaitWait(Thread thread) throws InterruptedException {
        for (int seen = 0; seen < 2; seen++) {
            while (thread.getState() != Thread.State.TIMED_WAITING) {
                Thread.onSpinWait();
            }
            Thread.sleep(1);
        }
    }

    public static void main(String[] words) throws Exception {
        int runs = Integer.parseInt(words[1]);
        int threads = Integer.parseInt(words[3]);
        int calls = Integer.parseInt(words[4]);
        Random seeds = new Random(Long.parseLong(words[2]));
        for (int run = 0; run < runs; run++) {
            Overlaps place = new Overlaps(KINDS[run % KINDS.length]);
            long seed = seeds.nextLong();
            List<Call> seen = words.length > 5 ? place.lines(seed, threads, calls) : place.crowd(seed, threads, calls);
            seen.sort(Comparator.comparingLong(Call::begin));
            StringBuilder text = new StringBuilder("calls 1 " + place.kind + "\n");
            for (Call call : seen) {
                text.append(call.line()).append("\n");
            }
            Files.writeString(Path.of(words[0], "run-" + run + ".calls"), text);
        }
        // A call of Java's transfer queue may go round for ever.
        System.exit(0);
    }
}
