// Two producers and two consumers hand numbers over, by calls with and without a limit, while a fifth thread interrupts them. At the
// end a proved checker has read the log of all calls. It needs Java 22 or later, where java.lang.foreign is final:
//   java --enable-native-access=ALL-UNNAMED examples/c/java/Handoff.java out/c/lib/libibisbookcase.so 10000
import java.lang.foreign.Arena;
import java.lang.foreign.SymbolLookup;
import java.nio.file.Path;
import static java.lang.foreign.ValueLayout.JAVA_LONG;

public class Handoff {
    static volatile boolean done;

    interface Task {
        void run() throws Throwable;
    }

    static Thread start(Task task) {
        Thread thread = new Thread(() -> {
            try {
                task.run();
            } catch (Throwable fault) {
                fault.printStackTrace();
                System.exit(3);
            }
        });
        thread.start();
        return thread;
    }

    // Seats 0 and 1 give the numbers 1 to `each`, seats 2 and 3 take as many. What timed out or was interrupted is made again.
    static long work(SyncQueue queue, int seat, long each) throws Throwable {
        long sum = 0;
        for (long number = 1, got; number <= each; number += got > 0 ? 1 : 0, sum += got)
            got = queue.ask(seat < 2 ? SyncQueue.GIVE : SyncQueue.TAKE, seat, seat < 2 ? number : 0, number % 3 == 0 ? 1 : 0);
        return sum;
    }

    public static void main(String[] args) throws Throwable {
        long each = args.length > 1 ? Long.parseLong(args[1]) : 10000;
        long[] sums = new long[SyncQueue.SEATS];
        Thread[] workers = new Thread[SyncQueue.SEATS];
        try (Arena arena = Arena.ofShared()) {
            SyncQueue.link(SymbolLookup.libraryLookup(Path.of(args[0]).toAbsolutePath(), arena));
            try (SyncQueue queue = new SyncQueue(arena)) {
                for (int i = 0; i < workers.length; i++) {
                    int seat = i;
                    workers[i] = start(() -> sums[seat] = work(queue, seat, each));
                }
                Thread interrupter = start(() -> {
                    for (int seat = 0; !done; seat = (seat + 1) % SyncQueue.SEATS) {
                        queue.interrupt(seat);
                        Thread.sleep(0, 200_000);
                    }
                });
                for (Thread worker : workers) worker.join();
                done = true;
                interrupter.join();
                queue.check();
                long left = queue.found.get(JAVA_LONG, 32) + queue.found.get(JAVA_LONG, 40) + queue.found.get(JAVA_LONG, 48);
                SyncQueue.need(sums[0] + sums[1] == sums[2] + sums[3] && left == 0, "the end");
                System.out.printf("%d items handed over, the log is legal%n", 2 * each);
                System.err.printf("%d records%n", queue.found.get(JAVA_LONG, 8));
            }
        }
    }
}
