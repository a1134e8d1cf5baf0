/** A thread of a pool, with the least number that no other had when it was made, and the job that it runs, if any. */
final class Worker extends Thread {
    final int number;
    volatile Job job;

    Worker(int number, Runnable work) {
        super(work);
        this.number = number;
        setDaemon(true);
    }
}
