import java.util.concurrent.CountDownLatch;

/**
 * A job of a pool: at a worker it runs until it is told to end, and whatever else runs it is its caller, which it lets
 * go at once.
 */
final class Job implements Runnable {
    final int tag;
    private final CountDownLatch end = new CountDownLatch(1);
    private volatile boolean begun;
    /** It isn't the pool's any more: its caller ran it, or it was handed back or dropped. */
    private volatile boolean gone;
    private volatile boolean ranHere;

    Job(int tag) {
        this.tag = tag;
    }

    @Override
    public void run() {
        if (!(Thread.currentThread() instanceof Worker worker)) {
            ranHere = true;
            return;
        }
        worker.job = this;
        begun = true;
        while (end.getCount() > 0) {
            try {
                end.await();
            } catch (InterruptedException shutDownNow) {
                // A job goes on until it is told to end.
            }
        }
        worker.job = null;
    }

    void end() {
        end.countDown();
    }

    boolean isTold() {
        return end.getCount() == 0;
    }

    boolean hasBegun() {
        return begun;
    }

    boolean ranHere() {
        return ranHere;
    }

    void leave() {
        gone = true;
    }

    boolean isGone() {
        return gone;
    }
}
