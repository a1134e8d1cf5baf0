import java.util.ArrayList;
import java.util.List;
import java.util.Map;
import java.util.TreeMap;
import java.util.concurrent.Exchanger;
import java.util.concurrent.TimeUnit;
import java.util.concurrent.TimeoutException;

/**
 * Plays scripts of exchanges on java.util.concurrent.Exchanger.
 *
 * <pre>java Exchanges</pre>
 *
 * Each text on standard input is a script; of each the replies are written, by its name. A line is a seat, each a
 * thread, and what it does: <code>0 exchange 5</code>, by a call without a limit; <code>0 expiring 5</code>, by a timed
 * one; <code>0 follow</code>, <code>0 expire</code>, <code>1 interrupt 0</code>. Each exchange uses a ticket, from 1.
 */
public final class Exchanges {
    /** A seat, and its call that waited, until an ending tells what became of it. */
    private static final class Party {
        final Seat seat = new Seat();
        boolean open;
        boolean expires;
        Item item;
    }

    private final Exchanger<Item> exchanger = new Exchanger<>();
    private final Map<Integer, Party> parties = new TreeMap<>();
    private final List<String> replies = new ArrayList<>();
    private final long limit;
    private long tickets;

    private Exchanges(long limit) {
        this.limit = limit;
    }

    private Party party(int number) {
        return parties.computeIfAbsent(number, unknown -> new Party());
    }

    private Outcome timed(Item item) throws InterruptedException {
        try {
            return Outcome.got(exchanger.exchange(item, limit, TimeUnit.NANOSECONDS));
        } catch (TimeoutException over) {
            return Outcome.NONE;
        }
    }

    /** What became of a call, behind the seat's number. */
    private static String told(int seat, Party party) {
        Outcome outcome = party.seat.outcome();
        String answer = switch (outcome.end()) {
            case GOT -> "got " + outcome.item().written() + " from t" + outcome.item().ticket;
            case INTERRUPTED -> "interrupted " + party.item.written();
            case NONE -> "expired " + party.item.written();
            case WENT -> throw new IllegalStateException("an exchange brings something");
        };
        return seat + " t" + party.item.ticket + " " + answer;
    }

    private void exchange(int number, long mark, boolean expires) throws Pace.Early {
        Party party = party(number);
        if (party.open) {
            throw new IllegalStateException("seat " + number + " has an open ticket");
        }
        Item item = new Item(mark, ++tickets);
        party.item = item;
        party.expires = expires;
        party.seat.begin(expires ? () -> timed(item) : () -> Outcome.got(exchanger.exchange(item)));
        party.seat.settle();
        party.open = !party.seat.hasEnded();
        if (party.open) {
            replies.add(number + " t" + item.ticket + " waits");
            return;
        }
        if (party.seat.outcome().is(Outcome.End.NONE)) {
            throw new Pace.Early();
        }
        for (Party other : parties.values()) {
            if (other.open && party.seat.outcome().items().contains(other.item)) {
                other.seat.awaitEnd();
            }
        }
        replies.add(told(number, party));
    }

    private void step(String[] words) throws Pace.Early {
        int number = Integer.parseInt(words[0]);
        Party party = party(number);
        if ((words[1].equals("follow") || words[1].equals("expire")) && !party.open) {
            throw new IllegalStateException("seat " + number + " has no open ticket");
        }
        switch (words[1]) {
            case "exchange" -> exchange(number, Long.parseUnsignedLong(words[2]), false);
            case "expiring" -> exchange(number, Long.parseUnsignedLong(words[2]), true);
            case "follow" -> {
                boolean ended = party.seat.hasEnded();
                if (ended && party.seat.outcome().is(Outcome.End.NONE)) {
                    throw new Pace.Early();
                }
                replies.add(ended ? told(number, party) : "- " + number + " notyet");
                party.open = !ended;
            }
            case "expire" -> {
                party.seat.awaitEnd();
                boolean late = !party.seat.outcome().is(Outcome.End.NONE);
                replies.add(late ? "- " + number + " late" : told(number, party));
                party.open = late;
            }
            default -> {
                int target = Integer.parseInt(words[2]);
                Party other = party(target);
                boolean waits = other.open && !other.seat.hasEnded();
                other.seat.interrupt();
                if (waits) {
                    other.seat.awaitEnd();
                }
                replies.add(number + " interrupt " + target + (waits ? " cut t" + other.item.ticket : " flagged"));
            }
        }
        for (Party any : parties.values()) {
            if (any.open && any.expires && any.seat.hasEnded() && any.seat.outcome().is(Outcome.End.NONE)) {
                throw new Pace.Early();
            }
        }
    }

    private static List<String> play(List<String> script, long limit) throws Pace.Early {
        Exchanges play = new Exchanges(limit);
        try {
            for (String line : script) {
                play.step(line.split(" "));
            }
            return play.replies;
        } catch (RuntimeException fault) {
            play.replies.add("fault " + fault.getMessage());
            return play.replies;
        } finally {
            play.parties.values().forEach(party -> party.seat.stop(() -> { }));
        }
    }

    public static void main(String[] words) {
        for (Texts.Text text : Texts.read()) {
            Texts.write(text.name(), Pace.found(limit -> play(text.lines(), limit)));
        }
    }
}
