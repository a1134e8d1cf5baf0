import java.util.ArrayList;
import java.util.Collections;
import java.util.List;
import java.util.Random;
import java.util.concurrent.BrokenBarrierException;
import java.util.concurrent.CyclicBarrier;

/**
 * Ten threads that call one queue at once, and an eleventh that interrupts some of them, each once; and the log of it,
 * which a lock keeps in one order: where each call began, and where it ended. Once each thread has made its calls or
 * waits, those that wait are interrupted.
 */
final class Crowd {
    static final int THREADS = 10;
    private static final int CALLS = 5;
    private static final int INTERRUPTS = 3;

    /** A call of a thread, or its interrupting another; and what came of it. */
    static final class Event {
        final int number;
        final int thread;
        final String verb;
        /** What a giver brings. */
        final Item item;
        /** Whom an interrupt is for. */
        final int target;
        Outcome outcome;

        Event(int number, int thread, String verb, long mark, int target) {
            this.number = number;
            this.thread = thread;
            this.verb = verb;
            this.target = target;
            item = Place.gives(verb) ? new Item(mark, number) : null;
        }

        boolean isInterrupt() {
            return verb.equals("interrupt");
        }
    }

    /** That a call began, or that it ended. */
    record Entry(Event event, boolean ends) {}

    final Place place;
    /** The calls, each at its number. */
    final List<Event> events = new ArrayList<>();
    final List<Entry> log = new ArrayList<>();
    private final Random seeds;
    private final CyclicBarrier start = new CyclicBarrier(THREADS + 1);
    private final Thread[] threads = new Thread[THREADS];
    /** The call that each thread is in, if any. */
    private final Event[] current = new Event[THREADS + 1];
    private volatile boolean over;

    Crowd(String order, long seed) {
        place = new Place(order);
        seeds = new Random(seed);
    }

    private Event begin(int thread, String verb, long mark, int target) {
        synchronized (log) {
            Event event = new Event(events.size(), thread, verb, mark, target);
            events.add(event);
            current[thread] = event;
            log.add(new Entry(event, false));
            return event;
        }
    }

    private void end(Event event, Outcome outcome) {
        synchronized (log) {
            event.outcome = outcome;
            current[event.thread] = null;
            log.add(new Entry(event, true));
        }
    }

    private void await() {
        try {
            start.await();
        } catch (InterruptedException | BrokenBarrierException never) {
            throw new IllegalStateException(never);
        }
    }

    private void call(int thread, Random chance) {
        await();
        for (int number = 0; number < CALLS && !over; number++) {
            String verb = Place.request(place.order, chance);
            long limit = chance.nextInt(2) * (1 + chance.nextInt(2)) * 1_000_000L;
            Event event = begin(thread, verb, chance.nextInt(5), 0);
            Outcome outcome;
            try {
                outcome = place.call(verb, event.item, limit).make();
            } catch (InterruptedException cut) {
                outcome = Outcome.INTERRUPTED;
            }
            end(event, outcome);
        }
    }

    private void interrupt(int target) {
        Event event = begin(THREADS, "interrupt", 0, target);
        threads[target].interrupt();
        end(event, Outcome.WENT);
    }

    /** Interrupts who waits without a limit, one after another, until all threads have ended. */
    private void release() {
        for (int target = 0; target < THREADS; target++) {
            Thread thread = threads[target];
            Patience.until(() -> !thread.isAlive() || allWait(), "threads that have ended or wait");
            if (thread.isAlive()) {
                over = true;
                interrupt(target);
                Patience.until(() -> !thread.isAlive(), "the end of a thread that was interrupted");
            }
        }
    }

    /** Whether each thread that hasn't ended is parked in a call without a limit. */
    private boolean allWait() {
        synchronized (log) {
            for (int number = 0; number < THREADS; number++) {
                boolean waits = current[number] != null && threads[number].getState() == Thread.State.WAITING;
                if (threads[number].isAlive() && !waits) {
                    return false;
                }
            }
            return true;
        }
    }

    /** Lets threads that are stuck go on, and end. */
    private void unstick() {
        over = true;
        synchronized (log) {
            for (int number = 0; number < THREADS; number++) {
                threads[number].interrupt();
                if (current[number] != null && Patience.isSpinning(threads[number])) {
                    Seat.leave(place.waiting(current[number].item != null));
                }
            }
        }
    }

    /** Has the threads make their calls, and waits until all have ended; or tells that one was stuck. */
    boolean run() {
        for (int number = 0; number < THREADS; number++) {
            int thread = number;
            Random chance = new Random(seeds.nextLong());
            threads[number] = new Thread(() -> call(thread, chance));
            threads[number].setDaemon(true);
            threads[number].start();
        }
        List<Integer> targets = new ArrayList<>();
        for (int number = 0; number < THREADS; number++) {
            targets.add(number);
        }
        Collections.shuffle(targets, seeds);
        await();
        for (int target : targets.subList(0, seeds.nextInt(INTERRUPTS + 1))) {
            Thread.yield();
            interrupt(target);
        }
        try {
            release();
            return true;
        } catch (Patience.Stuck stuck) {
            unstick();
            return false;
        }
    }
}
