import java.util.ArrayDeque;
import java.util.ArrayList;
import java.util.Deque;
import java.util.List;
import java.util.concurrent.TimeUnit;
import java.util.concurrent.locks.Condition;
import java.util.concurrent.locks.ReentrantLock;

/**
 * A synchronous queue of one's own, of a lock and conditions, which writes down each of its steps under its lock: so the
 * lines stand in the order of the steps, and are a trace. docs/TRACES.md walks through it.
 *
 * <pre>java Logged PAIRS ITEMS</pre>
 *
 * So many threads give so many items each, and as many take them, some of them with a limit that runs out; then the
 * trace is written.
 */
public final class Logged {
    /** A request that waits: whose it is, what it gives, and whom it met. */
    private static final class Node {
        final int seat;
        final long ticket;
        final boolean gives;
        final Condition woken;
        long item;
        long partner;

        Node(int seat, long ticket, boolean gives, long item, Condition woken) {
            this.seat = seat;
            this.ticket = ticket;
            this.gives = gives;
            this.item = item;
            this.woken = woken;
        }
    }

    private final ReentrantLock lock = new ReentrantLock();
    private final Deque<Node> line = new ArrayDeque<>();
    private final List<String> trace = new ArrayList<>(List.of("trace 1 fair"));
    private long tickets;

    /** One step, which the lock's holder makes now. */
    private void tell(int seat, long ticket, String deed) {
        trace.add(seat + " " + ticket + " " + deed);
    }

    /** Gives an item, and waits for its taker for so long: whether there was one. */
    boolean offer(int seat, long item, long nanos) throws InterruptedException {
        lock.lock();
        try {
            long ticket = ++tickets;
            Node taker = line.peekFirst();
            if (taker != null && !taker.gives) {
                line.removeFirst();
                taker.item = item;
                taker.partner = ticket;
                taker.woken.signal();
                tell(seat, ticket, "give-meets " + item + " " + taker.ticket);
                return true;
            }
            Node mine = new Node(seat, ticket, true, item, lock.newCondition());
            line.addLast(mine);
            tell(seat, ticket, "give-waits " + item);
            if (!await(mine, nanos)) {
                return false;
            }
            tell(seat, ticket, "done");
            return true;
        } finally {
            lock.unlock();
        }
    }

    /** Takes an item, and waits for its giver for so long: the item, or -1. */
    long poll(int seat, long nanos) throws InterruptedException {
        lock.lock();
        try {
            long ticket = ++tickets;
            Node giver = line.peekFirst();
            if (giver != null && giver.gives) {
                line.removeFirst();
                giver.partner = ticket;
                giver.woken.signal();
                tell(seat, ticket, "take-meets " + giver.item + " " + giver.ticket);
                return giver.item;
            }
            Node mine = new Node(seat, ticket, false, -1, lock.newCondition());
            line.addLast(mine);
            tell(seat, ticket, "take-waits");
            if (!await(mine, nanos)) {
                return -1;
            }
            tell(seat, ticket, "got " + mine.item + " " + mine.partner);
            return mine.item;
        } finally {
            lock.unlock();
        }
    }

    /** Waits until this request was met; or takes it back once its time is up. */
    private boolean await(Node mine, long nanos) throws InterruptedException {
        long left = nanos;
        while (mine.partner == 0) {
            if (left <= 0) {
                line.remove(mine);
                tell(mine.seat, mine.ticket, "withdrawn expired");
                return false;
            }
            left = mine.woken.awaitNanos(left);
        }
        return true;
    }

    private void give(int seat, int items, int pairs) {
        try {
            for (int number = 1; number <= items; number++) {
                while (!offer(seat, (long) number * pairs + seat, TimeUnit.MICROSECONDS.toNanos(50))) {
                    Thread.yield();
                }
            }
        } catch (InterruptedException stopped) {
            throw new IllegalStateException(stopped);
        }
    }

    private void take(int seat, int items) {
        try {
            for (int number = 1; number <= items; number++) {
                while (poll(seat, TimeUnit.MICROSECONDS.toNanos(200)) < 0) {
                    Thread.yield();
                }
            }
        } catch (InterruptedException stopped) {
            throw new IllegalStateException(stopped);
        }
    }

    public static void main(String[] words) throws InterruptedException {
        int pairs = Integer.parseInt(words[0]);
        int items = Integer.parseInt(words[1]);
        Logged queue = new Logged();
        List<Thread> threads = new ArrayList<>();
        for (int pair = 0; pair < pairs; pair++) {
            int giver = pair;
            threads.add(new Thread(() -> queue.give(giver, items, pairs)));
            threads.add(new Thread(() -> queue.take(pairs + giver, items)));
        }
        for (Thread thread : threads) {
            thread.start();
        }
        for (Thread thread : threads) {
            thread.join();
        }
        queue.trace.forEach(System.out::println);
    }
}
