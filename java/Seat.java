import java.util.concurrent.Semaphore;

/**
 * A thread that makes the calls of one seat, one at a time, as it is told. Who drives it sees whether its call has
 * ended, or the thread is parked in it. An interrupt that comes between two calls stays its thread's interrupt status.
 */
final class Seat {
    /** A call of a queue, made by the seat's thread. */
    interface Call {
        Outcome make() throws InterruptedException;
    }

    private final Semaphore told = new Semaphore(0);
    private final Thread thread = new Thread(this::work);
    private volatile Call call;
    private volatile boolean begun;
    private volatile boolean stops;
    private volatile Outcome outcome;
    private volatile RuntimeException fault;

    Seat() {
        thread.setDaemon(true);
        thread.start();
    }

    private void work() {
        while (true) {
            told.acquireUninterruptibly();
            if (stops) {
                return;
            }
            begun = true;
            try {
                outcome = call.make();
            } catch (InterruptedException cut) {
                outcome = Outcome.INTERRUPTED;
            } catch (RuntimeException broken) {
                fault = broken;
            }
        }
    }

    /** Has the thread make this call. */
    void begin(Call next) {
        outcome = null;
        begun = false;
        call = next;
        told.release();
    }

    boolean hasEnded() {
        if (fault != null) {
            throw fault;
        }
        return outcome != null;
    }

    /** Whether the thread is parked in its call. */
    boolean isParked() {
        return begun && isParked(thread) && outcome == null;
    }

    static boolean isParked(Thread thread) {
        Thread.State state = thread.getState();
        return state == Thread.State.WAITING || state == Thread.State.TIMED_WAITING;
    }

    /** Waits until the call has ended, or its thread is parked in it. */
    void settle() {
        Patience.until(() -> hasEnded() || isParked(), "an end of a call, or a thread that is parked in it");
    }

    /** Waits until the call has ended. */
    void awaitEnd() {
        Patience.until(this::hasEnded, "an end of a call");
    }

    /** Leaves a thread behind that does this, and may never end. */
    static void leave(Runnable waiting) {
        Thread thread = new Thread(waiting);
        thread.setDaemon(true);
        thread.start();
    }

    Outcome outcome() {
        return outcome;
    }

    void interrupt() {
        thread.interrupt();
    }

    /** Ends the thread, whatever it waits for; one that is stuck goes on once somebody waits behind it. */
    void stop(Runnable waiting) {
        stops = true;
        thread.interrupt();
        told.release();
        try {
            Patience.until(() -> !thread.isAlive(), "the end of a seat's thread");
        } catch (Patience.Stuck stuck) {
            leave(waiting);
            Patience.until(() -> !thread.isAlive(), "the end of a seat's thread that was stuck");
        }
    }
}
