import java.util.List;
import java.util.Random;

/**
 * Records calls of ten threads at once at the queues of java.util.concurrent.
 *
 * <pre>java Crowds COUNT SEED</pre>
 *
 * Of so many runs, of each order in turn, the traces are written: of an order in which interrupts are prompt, or else
 * one in which they are late, which the name says. Where there is none, or none was found in time, that stands in its
 * place.
 */
public final class Crowds {
    private Crowds() {}

    public static void main(String[] words) {
        int count = Integer.parseInt(words[0]);
        Random seeds = new Random(Long.parseLong(words[1]));
        String[] orders = {"fair", "unfair", "transfer"};
        for (int number = 0; number < count; number++) {
            Crowd crowd = new Crowd(orders[number % orders.length], seeds.nextLong());
            String name = crowd.place.order + " crowd " + number;
            if (!crowd.run()) {
                Texts.write(name, List.of("stuck"));
                continue;
            }
            Ordering ordering = new Ordering(crowd, true);
            Ordering.Found found = ordering.search();
            if (found == Ordering.Found.NONE) {
                name += " late";
                ordering = new Ordering(crowd, false);
                found = ordering.search();
            }
            Texts.write(name, switch (found) {
                case ORDER -> ordering.trace();
                case NONE -> List.of("fault there is no order of these calls");
                case GIVEN_UP -> List.of("left out");
            });
        }
    }
}
