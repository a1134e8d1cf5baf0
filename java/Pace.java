import java.util.List;

/** How long calls that are to give up wait: as long as it takes to play what comes before, and no longer. */
final class Pace {
    /** A timed call gave up before its time was to run out: all is to be played once more, at a slower pace. */
    static final class Early extends Exception {
        private static final long serialVersionUID = 1;
    }

    /** What is played at a pace: the nanoseconds between one expiry and the next. */
    interface Attempt {
        List<String> at(long pace) throws Early;
    }

    private static final long FIRST = 20_000_000;
    private static final long LAST = 10_000_000_000L;

    private Pace() {}

    /** What is told of it, at the first pace at which no call gives up early. */
    static List<String> found(Attempt attempt) {
        for (long pace = FIRST; pace <= LAST; pace *= 3) {
            try {
                return attempt.at(pace);
            } catch (Early early) {
                // Once more, slower.
            }
        }
        return List.of("fault calls gave up too early");
    }
}
