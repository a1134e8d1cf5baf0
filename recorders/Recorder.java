import java.util.*;
import java.util.concurrent.*;
import java.util.concurrent.atomic.*;
import java.util.concurrent.locks.LockSupport;
import java.util.stream.*;

/**
 * Records calls of a queue of java.util.concurrent for `meet judge`. Copy it, and put your own queue in at YOUR QUEUE.
 * <pre>java Recorder.java fair|unfair|transfer|array:BOUND|linked[:BOUND] plain|mixed THREADS CALLS SEED > out.calls</pre>
 * Half of the THREADS give and half take, CALLS each. A plain run makes `put` and `take` alone. A mixed run makes
 * immediate and timed calls too, and one thread more interrupts the others, and serves those that are left at the end.
 */
public final class Recorder {
    /** A call, and the rest of its line in the log. A call that never returned has `-` for its end, and no answer. */
    private record Call(int seat, long begin, AtomicReference<String> rest) {
        public String toString() { return seat + " " + begin + " " + rest; }
    }
    private static final long ZERO = System.nanoTime(), STALLED = 1_000;
    private static final List<Thread> threads = new ArrayList<>();
    private static final List<List<Call>> logs = new ArrayList<>();
    private static final AtomicInteger givers = new AtomicInteger(), takers = new AtomicInteger();
    private static BlockingQueue<Integer> queue;
    private static BlockingQueue<Integer> queueOf(String kind, Integer bound) {
        return switch (kind) { // YOUR QUEUE: any BlockingQueue that is empty at the begin
            case "array" -> new ArrayBlockingQueue<>(bound);
            case "linked" -> bound == null ? new LinkedBlockingQueue<>() : new LinkedBlockingQueue<>(bound);
            case "transfer" -> new LinkedTransferQueue<>();
            default -> new SynchronousQueue<>(kind.equals("fair"));
        };
    }

    /** Logs a call of a seat, a thread's number. All threads read one clock, right before the call and right after it. */
    private static void record(int seat, String verb, int number, long nanos) {
        String asked = verb.equals("take") || verb.startsWith("poll") ? verb : verb + " " + number;
        Call call = new Call(seat, System.nanoTime() - ZERO, new AtomicReference<>("- " + asked));
        logs.get(seat).add(call);
        Object found = make(verb, number, nanos);
        long end = System.nanoTime() - ZERO;
        String answer = found == null || found.equals(false) ? (verb.endsWith("-for") ? "expired" : "none")
            : found.equals(true) ? "done" : found instanceof Integer ? "got " + found : "interrupted";
        call.rest.set(end + " " + asked + " " + answer);
    }

    /** Calls the queue. Returns the item that was got or null, whether one was given, or an interrupt. */
    private static Object make(String verb, int number, long nanos) {
        try {
            switch (verb) {
                case "put": queue.put(number); return true;
                case "offer": return queue.offer(number);
                case "offer-for": return queue.offer(number, nanos, TimeUnit.NANOSECONDS);
                case "transfer": ((TransferQueue<Integer>) queue).transfer(number); return true;
                case "try": return ((TransferQueue<Integer>) queue).tryTransfer(number);
                case "try-for": return ((TransferQueue<Integer>) queue).tryTransfer(number, nanos, TimeUnit.NANOSECONDS);
                case "take": return queue.take();
                case "poll": return queue.poll();
                case "poll-for": return queue.poll(nanos, TimeUnit.NANOSECONDS);
            }
        } catch (InterruptedException interrupted) { return interrupted; }
        // Java doesn't say when an interrupt takes effect: this call ends when the thread has seen it, or has ended.
        threads.get(number).interrupt();
        while (threads.get(number).isInterrupted() && threads.get(number).isAlive()) Thread.yield();
        return true;
    }

    public static void main(String[] words) throws Exception {
        boolean mixed = words[1].equals("mixed"), transfers = words[0].equals("transfer");
        int count = Integer.parseInt(words[2]), calls = Integer.parseInt(words[3]);
        String[] kind = words[0].split(":");
        queue = queueOf(kind[0], kind.length > 1 ? Integer.valueOf(kind[1]) : null);
        String[] takes = {"take", "poll", "poll-for"}, gives = (transfers ? "put try try-for transfer" : "put offer offer-for").split(" ");
        for (int n = 0; n <= count; n++) {
            String[] verbs = n % 2 == 0 ? gives : takes;
            int seat = n, kinds = mixed ? verbs.length : 1;
            Random chance = new Random(Long.parseLong(words[4]) * 31 + seat);
            logs.add(Collections.synchronizedList(new ArrayList<>()));
            threads.add(new Thread(n < count ? () -> {
                for (int item = seat * calls + 1; item <= seat * calls + calls; item++)
                    record(seat, verbs[chance.nextInt(kinds)], item, 1_000 + chance.nextInt(200_000));
                (seat % 2 == 0 ? givers : takers).decrementAndGet();
            } : () -> {
                for (int item = seat * calls + 1; mixed; item++, LockSupport.parkNanos(300_000))
                    if (givers.get() > 0 && takers.get() > 0) record(seat, "interrupt", item % count, 0);
                    else record(seat, givers.get() > 0 ? "poll" : gives[1], item, 0);
            }));
        }
        List.of(givers, takers).forEach(left -> left.set(count / 2));
        for (Thread thread : threads) thread.start();
        // Some queues let a call go round for ever: if no call begins for a second, those that are left never end.
        for (long begun = -1, now = 0; now > begun && givers.get() + takers.get() > 0; Thread.sleep(1)) {
            begun = now;
            for (int turn = 0; turn < STALLED && givers.get() + takers.get() > 0; turn++) Thread.sleep(1);
            now = logs.subList(0, count).stream().mapToLong(List::size).sum();
        }
        String judged = words[0].replaceFirst("array|linked", "buffer").replace(':', ' ');
        Stream<Call> all = logs.stream().flatMap(it -> List.copyOf(it).stream()).sorted(Comparator.comparing(Call::begin));
        System.out.print(all.map(Call::toString).collect(Collectors.joining("\n", "calls 1 " + judged + "\n", "\n")));
        System.exit(0);
    }
}
