import java.util.ArrayList;
import java.util.List;
import java.util.Random;

/**
 * Records calls of chance at the queues of java.util.concurrent, one after another.
 *
 * <pre>java Runs COUNT SEED</pre>
 *
 * Of so many runs, of each order in turn, the traces are written, each seat a thread.
 */
public final class Runs {
    private static final int STEPS = 40;

    private Runs() {}

    private static void step(Play play, String order, int seats, Random chance) throws Pace.Early {
        int seat = chance.nextInt(seats);
        int what = chance.nextInt(10);
        if (what == 0) {
            play.interrupt(seat, chance.nextInt(seats));
        } else if (play.isOpen(seat)) {
            if (play.expiresNext(seat)) {
                play.expire(seat);
            } else {
                play.follow(seat);
            }
        } else if (what == 1) {
            play.drain(seat, chance.nextInt(4));
        } else {
            String verb = Place.request(order, chance);
            play.request(seat, verb, chance.nextInt(5), chance.nextInt(4) == 0 ? play.nextExpiry() : 0);
        }
    }

    private static List<String> run(String order, long seed, long pace) throws Pace.Early {
        Random chance = new Random(seed);
        Play play = new Play(order, 1, pace);
        int seats = 2 + chance.nextInt(5);
        try {
            for (int at = 0; at < STEPS; at++) {
                step(play, order, seats, chance);
                play.look();
            }
            List<String> trace = new ArrayList<>(List.of("trace 1 " + order));
            trace.addAll(play.trace());
            return trace;
        } catch (Patience.Stuck stuck) {
            return List.of("stuck");
        } catch (RuntimeException fault) {
            play.look();
            return List.of("fault " + fault.getMessage());
        } finally {
            play.stop();
        }
    }

    public static void main(String[] words) {
        int count = Integer.parseInt(words[0]);
        Random seeds = new Random(Long.parseLong(words[1]));
        String[] orders = {"fair", "unfair", "transfer"};
        for (int number = 0; number < count; number++) {
            String order = orders[number % orders.length];
            long seed = seeds.nextLong();
            Texts.write(order + " run " + number, Pace.found(pace -> run(order, seed, pace)));
        }
    }
}
