import java.util.*;
import java.util.concurrent.*;
import java.util.stream.*;

/**
 * Buffers with one fault each, and what threads see of them, as `meet judge` reads it.
 * <pre>java Buffers.java FAULT THREADS CALLS SEED > out.calls</pre>
 * Half of the THREADS give and half take, CALLS each: waiting, immediate and timed calls. A buffer holds four items. Without a fault (`none`)
 * each log is explained.
 */
public final class Buffers {
    private static final int BOUND = 4;
    private static final long ZERO = System.nanoTime();

    /** A queue of a lock, which is right. Faults override what they break. */
    private static class Buffer {
        final ArrayDeque<Integer> items = new ArrayDeque<>();

        boolean isFull() { return items.size() >= BOUND; }
        boolean isEmpty() { return items.isEmpty(); }
        Integer remove() { return items.removeFirst(); }

        /** Gives an item until a time, and returns whether it was given. A limit in the past doesn't wait. */
        synchronized boolean give(int item, long until) throws InterruptedException {
            while (isFull()) if (!await(until)) return false;
            items.addLast(item);
            notifyAll();
            return true;
        }

        synchronized Integer take(long until) throws InterruptedException {
            while (isEmpty()) if (!await(until)) return null;
            Integer item = remove();
            notifyAll();
            return item;
        }

        boolean await(long until) throws InterruptedException {
            long left = until - System.nanoTime();
            if (left <= 0) return false;
            TimeUnit.NANOSECONDS.timedWait(this, left);
            return true;
        }
    }

    private static Buffer bufferOf(String fault) {
        return switch (fault) {
            // The bound is off by one.
            case "bound" -> new Buffer() { @Override boolean isFull() { return items.size() > BOUND; } };
            // An immediate or timed call that gets its item late throws it away.
            case "expiry" -> new Buffer() {
                @Override synchronized Integer take(long until) throws InterruptedException {
                    Integer item = super.take(until);
                    return System.nanoTime() > until && until > 0 ? null : item;
                }
            };
            // The newest item goes first if more than two are there.
            case "newest" -> new Buffer() {
                @Override Integer remove() { return items.size() > 2 ? items.removeLast() : items.removeFirst(); }
            };
            // The item is read under one hold of the lock, and removed under another.
            case "apart" -> new Buffer() {
                @Override Integer take(long until) throws InterruptedException {
                    Integer item;
                    synchronized (this) {
                        while (isEmpty()) if (!await(until)) return null;
                        item = items.peekFirst();
                    }
                    Thread.yield();
                    synchronized (this) {
                        items.pollFirst();
                        notifyAll();
                    }
                    return item;
                }
            };
            default -> new Buffer();
        };
    }

    /** Makes the calls of a seat, a thread's number, and returns their begins and lines. */
    private static List<Map.Entry<Long, String>> logOf(Buffer buffer, int seat, int calls, Random chance) {
        List<Map.Entry<Long, String>> log = new ArrayList<>();
        String[] verbs = seat % 2 == 0 ? new String[] {"put", "offer", "offer-for"} : new String[] {"take", "poll", "poll-for"};
        for (int item = seat * calls + 1; item <= seat * calls + calls; item++) {
            // A call that waits has a limit of 20 milliseconds here, so that each log ends: it is left out if nothing came of it.
            int kind = chance.nextInt(3);
            long begin = System.nanoTime(), until = kind == 1 ? 0 : begin + (kind == 0 ? 20_000_000 : 1_000 + chance.nextInt(200_000));
            Object found;
            try {
                found = seat % 2 == 0 ? (Object) buffer.give(item, until) : buffer.take(until);
            } catch (InterruptedException nobody) {
                throw new IllegalStateException(nobody);
            }
            long end = System.nanoTime();
            boolean nothing = found == null || found.equals(false);
            String asked = verbs[kind] + (seat % 2 == 0 ? " " + item : "");
            String answer = nothing ? (kind == 1 ? "none" : "expired") : found.equals(true) ? "done" : "got " + found;
            if (!nothing || kind != 0)
                log.add(Map.entry(begin - ZERO, seat + " " + (begin - ZERO) + " " + (end - ZERO) + " " + asked + " " + answer));
        }
        return log;
    }

    public static void main(String[] words) throws Exception {
        int count = Integer.parseInt(words[1]), calls = Integer.parseInt(words[2]);
        Buffer buffer = bufferOf(words[0]);
        ExecutorService threads = Executors.newFixedThreadPool(count);
        List<Callable<List<Map.Entry<Long, String>>>> seats = new ArrayList<>();
        for (int n = 0; n < count; n++) {
            int seat = n;
            seats.add(() -> logOf(buffer, seat, calls, new Random(Long.parseLong(words[3]) * 31 + seat)));
        }
        List<Map.Entry<Long, String>> all = new ArrayList<>();
        for (Future<List<Map.Entry<Long, String>>> log : threads.invokeAll(seats)) all.addAll(log.get());
        all.sort(Map.Entry.comparingByKey());
        System.out.print(all.stream().map(Map.Entry::getValue).collect(Collectors.joining("\n", "calls 1 buffer " + BOUND + "\n", "\n")));
        System.exit(0);
    }
}
