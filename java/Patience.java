import java.util.HashMap;
import java.util.Map;
import java.util.concurrent.locks.LockSupport;
import java.util.function.BooleanSupplier;

/** Waits for a state that threads come to. */
final class Patience {
    /**
     * A thread goes round and round in a queue. In Java 17 a call of a fair SynchronousQueue that gave up may look for
     * ever for the place where it is to be unlinked, and one that waits in a LinkedTransferQueue may never park.
     */
    static final class Stuck extends RuntimeException {
        private static final long serialVersionUID = 1;

        Stuck() {
            super("stuck");
        }
    }

    /** How long a state may be waited for, in nanoseconds: what takes longer never comes. */
    private static final long LIMIT = 30_000_000_000L;
    private static final int YIELDS = 50;
    private static final long PAUSE = 50_000;
    /**
     * How long it takes until threads are looked at, and between two looks; and how often one has to be seen in the
     * same method.
     */
    private static final long LOOK = 100_000_000;
    private static final int LOOKS = 8;

    private Patience() {}

    /** Waits until this holds; of what never comes to hold it says what it is. */
    static void until(BooleanSupplier holds, String what) {
        long start = System.nanoTime();
        long look = start + LOOK;
        Map<Thread, Integer> seen = new HashMap<>();
        for (int count = 0; !holds.getAsBoolean(); count++) {
            long now = System.nanoTime();
            if (count < YIELDS) {
                Thread.yield();
            } else if (now - start > LIMIT) {
                throw new IllegalStateException("never came: " + what);
            } else {
                LockSupport.parkNanos(PAUSE);
            }
            if (now - look > 0) {
                look = now + LOOK;
                lookForStuck(seen);
            }
        }
    }

    /** Whether a thread that runs is where calls of a queue wait, or where they are unlinked once they gave up. */
    static boolean isSpinning(Thread thread) {
        if (thread.getState() != Thread.State.RUNNABLE) {
            return false;
        }
        for (StackTraceElement frame : thread.getStackTrace()) {
            String name = frame.getClassName();
            boolean synchronous = name.startsWith("java.util.concurrent.SynchronousQueue$");
            boolean transfers = name.equals("java.util.concurrent.LinkedTransferQueue");
            if (synchronous || transfers && frame.getMethodName().equals("awaitMatch")) {
                return true;
            }
        }
        return false;
    }

    private static void lookForStuck(Map<Thread, Integer> seen) {
        Thread[] threads = new Thread[Thread.activeCount() + 1];
        int count = Thread.enumerate(threads);
        for (int number = 0; number < count; number++) {
            Thread thread = threads[number];
            if (!isSpinning(thread)) {
                seen.remove(thread);
            } else if (seen.merge(thread, 1, Integer::sum) >= LOOKS) {
                throw new Stuck();
            }
        }
    }
}
