// A synchronous queue for threads of Java (22 or later): the proved core under a ReentrantLock, and a Condition for each seat.
//
// Proved: each step, its record, and the verdict of the checker. Not proved: this file (its lock, that a wait ends, that the hint
// `wake` is heeded), and the calling convention.
import java.lang.foreign.*;
import java.lang.invoke.MethodHandle;
import java.nio.file.Path;
import java.util.concurrent.TimeUnit;
import java.util.concurrent.locks.*;
import static java.lang.foreign.ValueLayout.*;

public class SyncQueue implements AutoCloseable {
    static final int SEATS = 4;
    static final long OK = 0, HISTORY_FULL = 2, FAIR = 1, GIVE = 2, TAKE = 4, FOLLOW_UP = 6, EXPIRE = 8, INTERRUPT = 9;
    static final long WAITS = 1, MEETS = 2, DONE = 6, GOT = 7, NOT_YET = 9, LATE = 11;
    static MethodHandle queueNew, queueStep, queueCheck, checkerNew, free;

    static MethodHandle find(SymbolLookup library, String name, FunctionDescriptor form) {
        return Linker.nativeLinker().downcallHandle(library.find(name).orElseThrow(), form);
    }

    static void link(SymbolLookup library) {
        queueNew = find(library, "ibis_queue_new", FunctionDescriptor.of(JAVA_LONG, ADDRESS, JAVA_LONG, JAVA_LONG, JAVA_LONG, JAVA_LONG, JAVA_LONG));
        queueStep = find(library, "ibis_queue_step", FunctionDescriptor.of(JAVA_LONG, ADDRESS, JAVA_LONG, JAVA_LONG, JAVA_LONG, ADDRESS));
        queueCheck = find(library, "ibis_queue_check", FunctionDescriptor.of(JAVA_LONG, ADDRESS, ADDRESS, ADDRESS));
        checkerNew = find(library, "ibis_checker_new", FunctionDescriptor.of(JAVA_LONG, ADDRESS, JAVA_LONG, JAVA_LONG));
        free = find(library, "ibis_free", FunctionDescriptor.ofVoid(ADDRESS));
    }

    static void need(boolean holds, String what) {
        if (!holds) throw new IllegalStateException(what);
    }

    final ReentrantLock lock = new ReentrantLock();
    final Condition[] gates = new Condition[SEATS];
    final MemorySegment core, checker, answer, found;

    SyncQueue(Arena arena) throws Throwable {
        core = arena.allocate(16, 8);
        checker = arena.allocate(16, 8);
        answer = arena.allocate(56, 8); // status, outcome, ticket, partner, has_item, item, wake
        found = arena.allocate(56, 8); // status, records, place, why, waiting, uncollected, kept
        for (int i = 0; i < SEATS; i++) gates[i] = lock.newCondition();
        need((long) queueNew.invokeExact(core, FAIR, 0L, (long) SEATS, 1L, 4096L) == OK, "no queue");
        need((long) checkerNew.invokeExact(checker, FAIR, 0L) == OK, "no checker");
    }

    // Pushes the new records on the checker, and folds them away if they are legal.
    void check() throws Throwable {
        need((long) queueCheck.invokeExact(core, checker, found) == OK, "the log is illegal");
    }

    // Makes one step, wakes the seat that may go on, and returns the outcome. The lock is held.
    long step(long verb, long seat, long value) throws Throwable {
        long status;
        while ((status = (long) queueStep.invokeExact(core, verb, seat, value, answer)) == HISTORY_FULL) check();
        need(status == OK, "a step was refused");
        long wake = answer.get(JAVA_LONG, 48);
        if (wake > 0) gates[(int) wake - 1].signal();
        return answer.get(JAVA_LONG, 8);
    }

    // Waits until the request is matched or interrupted, or its time is over (0: no limit). Returns the item of a take, that of a
    // give if it was taken, or 0 if it wasn't matched.
    long ask(long verb, int seat, long item, long millis) throws Throwable {
        lock.lock();
        try {
            long left = TimeUnit.MILLISECONDS.toNanos(millis), outcome = step(verb, seat, item), ticket = answer.get(JAVA_LONG, 16);
            while (outcome == WAITS || outcome == NOT_YET) {
                if (millis > 0) left = gates[seat].awaitNanos(left);
                else gates[seat].awaitUninterruptibly();
                outcome = step(millis > 0 && left <= 0 ? EXPIRE : FOLLOW_UP, seat, ticket);
                if (outcome == LATE) outcome = step(FOLLOW_UP, seat, ticket);
            }
            boolean matched = outcome == MEETS || outcome == DONE || outcome == GOT;
            return !matched ? 0 : verb == GIVE ? item : answer.get(JAVA_LONG, 40);
        } finally {
            lock.unlock();
        }
    }

    void interrupt(int seat) throws Throwable {
        lock.lock();
        try {
            step(INTERRUPT, 0, seat);
        } finally {
            lock.unlock();
        }
    }

    public void close() {
        try {
            free.invokeExact(core);
            free.invokeExact(checker);
        } catch (Throwable fault) {
            throw new AssertionError(fault);
        }
    }
}
