import java.util.ArrayList;
import java.util.List;
import java.util.Map;
import java.util.TreeMap;
import java.util.concurrent.ArrayBlockingQueue;
import java.util.concurrent.BlockingQueue;
import java.util.concurrent.LinkedBlockingQueue;
import java.util.concurrent.LinkedTransferQueue;
import java.util.concurrent.RejectedExecutionException;
import java.util.concurrent.RejectedExecutionHandler;
import java.util.concurrent.SynchronousQueue;
import java.util.concurrent.ThreadPoolExecutor;
import java.util.concurrent.TimeUnit;

/**
 * Calls at one java.util.concurrent.ThreadPoolExecutor, one after another. Before the next call each job is run, queued
 * or gone, and each worker runs a job that goes on, waits for one, or has ended.
 */
final class PoolPlay {
    private static final int HOURS = 1;

    private final ThreadPoolExecutor pool;
    private final boolean coreTimesOut;
    private final List<Worker> workers = new ArrayList<>();
    private final Map<Integer, Job> jobs = new TreeMap<>();
    private boolean rejected;
    private int ended;
    private final List<String> replies = new ArrayList<>();

    /** By the words of a script's first line: <code>pool CORE MAXIMUM QUEUE [BOUND] POLICY [timeout]</code>. */
    PoolPlay(String[] words, boolean exchanged) {
        int at = words[3].equals("bounded") ? 5 : 4;
        coreTimesOut = words.length > at + 1;
        pool = new ThreadPoolExecutor(Integer.parseInt(words[1]), Integer.parseInt(words[2]), HOURS, TimeUnit.HOURS,
            queueOf(words), this::thread);
        RejectedExecutionHandler policy = policyOf(words[at], exchanged);
        pool.setRejectedExecutionHandler((job, its) -> {
            rejected = true;
            policy.rejectedExecution(job, its);
        });
        pool.allowCoreThreadTimeOut(coreTimesOut);
    }

    private static BlockingQueue<Runnable> queueOf(String[] words) {
        return switch (words[3]) {
            case "fair" -> new SynchronousQueue<>(true);
            case "unfair" -> new SynchronousQueue<>();
            case "transfer" -> new LinkedTransferQueue<>();
            case "linked" -> new LinkedBlockingQueue<>();
            case "bounded" -> new ArrayBlockingQueue<>(Integer.parseInt(words[4]));
            default -> throw new IllegalArgumentException(words[3]);
        };
    }

    /** A policy; where they are exchanged, another one, but never the one that asks for kept jobs. */
    private static RejectedExecutionHandler policyOf(String word, boolean exchanged) {
        String other = switch (word) {
            case "abort" -> "caller";
            case "caller", "oldest" -> "discard";
            default -> "abort";
        };
        return switch (exchanged ? other : word) {
            case "abort" -> new ThreadPoolExecutor.AbortPolicy();
            case "caller" -> new ThreadPoolExecutor.CallerRunsPolicy();
            case "discard" -> new ThreadPoolExecutor.DiscardPolicy();
            case "oldest" -> new ThreadPoolExecutor.DiscardOldestPolicy();
            default -> throw new IllegalArgumentException(word);
        };
    }

    private boolean isTaken(int number) {
        return workers.stream().anyMatch(it -> it.number == number && it.getState() != Thread.State.TERMINATED);
    }

    private Thread thread(Runnable work) {
        int number = 0;
        while (isTaken(number)) {
            number++;
        }
        Worker worker = new Worker(number, work);
        workers.add(worker);
        return worker;
    }

    List<String> replies() {
        return replies;
    }

    /** Whether all have come to rest; where idle workers' time is over, only once those have ended that may. */
    private boolean isSettled(boolean over) {
        int alive = 0;
        int busy = 0;
        for (Worker worker : workers) {
            // In this order: who has no job any more and is parked, is parked for the next one.
            Job job = worker.job;
            if (worker.getState() == Thread.State.TERMINATED) {
                continue;
            }
            if (!Seat.isParked(worker) || job != null && job.isTold()) {
                return false;
            }
            alive++;
            busy += job == null ? 0 : 1;
        }
        boolean queued = !pool.getQueue().isEmpty();
        boolean leave = pool.isShutdown() || over && (coreTimesOut || alive > pool.getCorePoolSize());
        if (alive > busy && (queued || leave)) {
            return false;
        }
        for (Job job : jobs.values()) {
            if (!job.hasBegun() && !job.isGone() && !pool.getQueue().contains(job)) {
                return false;
            }
        }
        boolean terminates = pool.isShutdown() && alive == 0 && !queued;
        return pool.getPoolSize() == alive && pool.getActiveCount() == busy && pool.getCompletedTaskCount() == ended
            && pool.isTerminated() == terminates;
    }

    private void settle(boolean over) {
        Patience.until(() -> isSettled(over), "a pool at rest");
    }

    private List<Integer> queued() {
        List<Integer> tags = new ArrayList<>();
        pool.getQueue().forEach(job -> tags.add(((Job) job).tag));
        return tags;
    }

    private void execute(int tag) {
        Job job = new Job(tag);
        jobs.put(tag, job);
        List<Integer> before = queued();
        int size = pool.getPoolSize();
        rejected = false;
        String answer = null;
        try {
            pool.execute(job);
        } catch (RejectedExecutionException abort) {
            answer = "aborted";
        }
        if (answer == null && job.ranHere()) {
            answer = "ran here";
        } else if (answer == null && rejected && pool.getQueue().contains(job)) {
            before.removeAll(queued());
            before.forEach(dropped -> jobs.get(dropped).leave());
            answer = "dropped the oldest, " + before;
        } else if (answer == null && rejected) {
            answer = "dropped";
        }
        if (answer != null && !pool.getQueue().contains(job)) {
            job.leave();
        }
        settle(false);
        if (answer == null) {
            answer = pool.getQueue().contains(job) ? "kept" : pool.getPoolSize() > size ? "started" : "handed";
        }
        tell("execute " + tag + " " + answer);
    }

    private void finish(Job job) {
        if (workers.stream().noneMatch(worker -> worker.job == job)) {
            throw new IllegalStateException("no worker runs job " + job.tag);
        }
        ended++;
        job.end();
        settle(false);
        tell("finish " + job.tag);
    }

    private void shutdownNow() {
        List<Integer> tags = new ArrayList<>();
        for (Runnable job : pool.shutdownNow()) {
            ((Job) job).leave();
            tags.add(((Job) job).tag);
        }
        settle(false);
        tell("shutdownNow returned " + tags);
    }

    void step(String[] words) {
        switch (words[0]) {
            case "execute" -> execute(Integer.parseInt(words[1]));
            case "finish" -> finish(jobs.get(Integer.parseInt(words[1])));
            case "idle" -> {
                pool.setKeepAliveTime(1, TimeUnit.MILLISECONDS);
                settle(true);
                pool.setKeepAliveTime(HOURS, TimeUnit.HOURS);
                tell("idle");
            }
            case "shutdown" -> {
                pool.shutdown();
                settle(false);
                tell("shutdown");
            }
            case "shutdownNow" -> shutdownNow();
            default -> throw new IllegalArgumentException(words[0]);
        }
    }

    /** Tells a call, and how the pool stands behind it. */
    private void tell(String call) {
        Map<Integer, Integer> running = new TreeMap<>();
        for (Worker worker : workers) {
            Job job = worker.job;
            if (job != null) {
                running.put(worker.number, job.tag);
            }
        }
        String shut = pool.isTerminated() ? "terminated" : pool.isShutdown() ? "shut" : "open";
        replies.add(call + ": " + shut + " size " + pool.getPoolSize() + " active " + pool.getActiveCount()
            + " largest " + pool.getLargestPoolSize() + " completed " + pool.getCompletedTaskCount()
            + " running " + running + " queued " + queued());
    }

    /** Ends the workers; one that is stuck goes on once somebody waits behind it. */
    void stop() {
        pool.shutdownNow();
        jobs.values().forEach(Job::end);
        if (workers.stream().anyMatch(Patience::isSpinning)) {
            Seat.leave(() -> {
                try {
                    pool.getQueue().take();
                } catch (InterruptedException never) {
                    throw new IllegalStateException(never);
                }
            });
        }
    }
}
