import java.util.List;
import java.util.Set;

/**
 * Plays scripts on the queues of java.util.concurrent.
 *
 * <pre>java Scripts [exchanged]</pre>
 *
 * Each text on standard input is a script; of each the replies are written, by its name. Where the words say so, a fair
 * queue stands in the place of one that isn't, and the other way round. Refused calls, and what Java has no call for,
 * aren't to be among them.
 */
public final class Scripts {
    private static final Set<String> REQUESTS = Set.of("put", "offer", "take", "poll", "transfer", "try");

    private Scripts() {}

    /**
     * Which of the script's expiries ends a request, from 1, where its seat's next ending or request behind it is one;
     * else 0.
     */
    private static int expiryOf(List<String> script, int at) {
        String seat = script.get(at).split(" ")[0];
        int expiries = 0;
        for (int line = 1; line < script.size(); line++) {
            String[] words = script.get(line).split(" ");
            boolean here = line > at && words[0].equals(seat);
            if (here && (REQUESTS.contains(words[1]) || words[1].equals("drain"))) {
                return 0;
            }
            expiries += words[1].equals("expire") ? 1 : 0;
            if (here && words[1].equals("expire")) {
                return expiries;
            }
        }
        return 0;
    }

    private static void step(Play play, List<String> script, int at) throws Pace.Early {
        String[] words = script.get(at).split(" ");
        int seat = Integer.parseInt(words[0]);
        String verb = words[1];
        long number = words.length > 2 ? Long.parseUnsignedLong(words[2]) : 0;
        switch (verb) {
            case "follow" -> play.follow(seat);
            case "expire" -> play.expire(seat);
            case "cancel" -> play.cancel(seat);
            case "interrupt" -> play.interrupt(seat, (int) number);
            case "drain" -> {
                boolean large = number < 0 || number > Integer.MAX_VALUE;
                play.drain(seat, large ? Integer.MAX_VALUE : (int) number);
            }
            case "size", "room", "peek", "consumers" -> play.probe(seat, verb);
            default -> play.request(seat, verb, number, expiryOf(script, at));
        }
    }

    private static List<String> play(List<String> script, boolean exchanged, long pace) throws Pace.Early {
        List<String> words = List.of(script.get(0).split(" "));
        String order = exchanged ? Place.exchanged(words.get(0)) : words.get(0);
        int first = words.indexOf("first");
        Play play = new Play(order, first < 0 ? 1 : Long.parseLong(words.get(first + 1)), pace);
        try {
            for (int at = 1; at < script.size(); at++) {
                step(play, script, at);
                play.look();
            }
            play.close();
            return play.replies();
        } catch (Patience.Stuck stuck) {
            return List.of("stuck");
        } catch (RuntimeException fault) {
            play.look();
            return List.of("fault " + fault.getMessage());
        } finally {
            play.stop();
        }
    }

    public static void main(String[] words) {
        boolean exchanged = List.of(words).contains("exchanged");
        for (Texts.Text text : Texts.read()) {
            Texts.write(text.name(), Pace.found(pace -> play(text.lines(), exchanged, pace)));
        }
    }
}
