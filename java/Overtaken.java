/**
 * How often an interrupt that has returned is overtaken by a call that begins behind it.
 *
 * <pre>java Overtaken TRIES</pre>
 *
 * In a try a thread waits in take; another interrupts it, and offers an item at once, which may reach the thread that
 * was interrupted, as long as that hasn't seen so. A line tells of each queue how often it did.
 */
public final class Overtaken {
    private Overtaken() {}

    private static boolean isOvertaken(String order) throws InterruptedException {
        Place place = new Place(order);
        Seat taker = new Seat();
        taker.begin(place.call("take", null, 0));
        taker.settle();
        Seat.Call offer = place.call(order.equals("transfer") ? "try" : "offer", new Item(5, 2), 0);
        taker.interrupt();
        boolean overtaken = offer.make().is(Outcome.End.WENT);
        taker.awaitEnd();
        if (overtaken != taker.outcome().is(Outcome.End.GOT)) {
            throw new IllegalStateException("an item was given, and not taken");
        }
        taker.stop(() -> { });
        return overtaken;
    }

    public static void main(String[] words) throws InterruptedException {
        int tries = Integer.parseInt(words[0]);
        for (String order : new String[] {"fair", "unfair", "transfer"}) {
            int overtaken = 0;
            for (int number = 0; number < tries; number++) {
                overtaken += isOvertaken(order) ? 1 : 0;
            }
            System.out.println(order + " " + overtaken);
        }
    }
}
