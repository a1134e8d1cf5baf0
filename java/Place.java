import java.util.ArrayList;
import java.util.List;
import java.util.Random;
import java.util.concurrent.BlockingQueue;
import java.util.concurrent.LinkedTransferQueue;
import java.util.concurrent.SynchronousQueue;
import java.util.concurrent.TimeUnit;

/** A queue of java.util.concurrent, asked by the verbs of scripts. */
final class Place {
    private static final String[] SYNCHRONOUS = {"put", "take", "put", "take", "offer", "poll"};
    private static final String[] TRANSFER = {"put", "take", "transfer", "take", "transfer", "try", "offer", "poll"};

    final String order;
    private final BlockingQueue<Item> queue;
    /** The same queue, where it is a transfer queue. */
    private final LinkedTransferQueue<Item> transfers;

    Place(String order) {
        this.order = order;
        transfers = order.equals("transfer") ? new LinkedTransferQueue<>() : null;
        queue = switch (order) {
            case "fair" -> new SynchronousQueue<>(true);
            case "unfair" -> new SynchronousQueue<>();
            case "transfer" -> transfers;
            default -> throw new IllegalArgumentException(order);
        };
    }

    /** The other of the two orders of a synchronous queue; of a transfer queue there is no other. */
    static String exchanged(String order) {
        return order.equals("fair") ? "unfair" : order.equals("unfair") ? "fair" : order;
    }

    static boolean gives(String verb) {
        return switch (verb) {
            case "put", "offer", "transfer", "try" -> true;
            default -> false;
        };
    }

    /** A request of chance, those that may wait more often than the others. */
    static String request(String order, Random chance) {
        String[] verbs = order.equals("transfer") ? TRANSFER : SYNCHRONOUS;
        return verbs[chance.nextInt(verbs.length)];
    }

    boolean keeps() {
        return transfers != null;
    }

    /** Whether a call of this verb waits where nobody is there. */
    boolean mayWait(String verb) {
        return verb.equals("take") || verb.equals("transfer") || verb.equals("put") && !keeps();
    }

    /** The call of this verb; a limit above 0, in nanoseconds, is that of the timed form of a call that may wait. */
    Seat.Call call(String verb, Item item, long limit) {
        boolean timed = limit > 0;
        TimeUnit unit = TimeUnit.NANOSECONDS;
        return switch (verb) {
            case "put" -> timed && !keeps() ? () -> Outcome.went(queue.offer(item, limit, unit)) : () -> {
                queue.put(item);
                return Outcome.WENT;
            };
            case "offer" -> () -> Outcome.went(queue.offer(item));
            case "transfer" -> timed ? () -> Outcome.went(transfers.tryTransfer(item, limit, unit)) : () -> {
                transfers.transfer(item);
                return Outcome.WENT;
            };
            case "try" -> () -> Outcome.went(transfers.tryTransfer(item));
            case "take" -> timed ? () -> Outcome.got(queue.poll(limit, unit)) : () -> Outcome.got(queue.take());
            case "poll" -> () -> Outcome.got(queue.poll());
            default -> throw new IllegalArgumentException(verb);
        };
    }

    /** The call drainTo, of so many items at most. */
    Seat.Call drain(int most) {
        return () -> {
            List<Item> items = new ArrayList<>();
            int many = queue.drainTo(items, most);
            if (many != items.size()) {
                throw new IllegalStateException("drainTo says " + many + " of " + items.size());
            }
            return new Outcome(Outcome.End.GOT, items);
        };
    }

    /** What a probe says. */
    String probe(String verb) {
        return switch (verb) {
            case "size" -> Integer.toString(queue.size());
            case "room" -> Integer.toString(queue.remainingCapacity());
            case "consumers" -> Integer.toString(transfers.getWaitingConsumerCount());
            case "peek" -> {
                Item first = queue.peek();
                yield first == null ? "none" : first.written();
            }
            default -> throw new IllegalArgumentException(verb);
        };
    }

    /** Waits in the line for ever, beside who gives or who takes. */
    Runnable waiting(boolean gives) {
        return () -> {
            try {
                if (gives) {
                    queue.put(new Item(0, 0));
                } else {
                    queue.take();
                }
            } catch (InterruptedException never) {
                throw new IllegalStateException(never);
            }
        };
    }

    int size() {
        return queue.size();
    }

    boolean contains(Item item) {
        return queue.contains(item);
    }
}
