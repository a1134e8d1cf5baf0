import java.util.ArrayList;
import java.util.List;
import java.util.Map;
import java.util.TreeMap;

/**
 * Calls at one queue, one after another, each seat a thread of its own; and what is told of them, as the replies of a
 * script and as the records of a trace. Before the next call each thread has ended its call or is parked in it. Tickets
 * and records are numbered here: a ticket is known again by the item that its call brought.
 */
final class Play {
    /** A seat, and the ticket of its call that waited, until an ending tells what became of it. */
    private static final class Party {
        final Seat seat = new Seat();
        boolean open;
        int expiry;
        long ticket;
        /** What its call brought, where it gives. */
        Item item;

        boolean waits() {
            return open && !seat.hasEnded();
        }

        /** A giver's item, where it comes back, behind an answer. */
        String back() {
            return item == null ? "" : " " + item.written();
        }
    }

    private final Place place;
    /**
     * The time between two expiries, in nanoseconds: the first comes so long after the start, the second twice as long,
     * and so on.
     */
    private final long pace;
    private final long start = System.nanoTime();
    private int expiries;
    private long nextTicket;
    private long records;
    private final Map<Integer, Party> parties = new TreeMap<>();
    private final List<String> replies = new ArrayList<>();
    private final List<String> trace = new ArrayList<>();

    Play(String order, long firstTicket, long pace) {
        place = new Place(order);
        nextTicket = firstTicket;
        this.pace = pace;
    }

    List<String> replies() {
        return replies;
    }

    List<String> trace() {
        return trace;
    }

    private Party party(int number) {
        return parties.computeIfAbsent(number, unknown -> new Party());
    }

    /** The party of a seat that has no open ticket, or that has one. */
    private Party party(int number, boolean open) {
        Party party = party(number);
        if (party.open != open) {
            throw new IllegalStateException("seat " + number + (open ? " has no open ticket" : " has an open ticket"));
        }
        return party;
    }

    boolean isOpen(int number) {
        return party(number).open;
    }

    boolean waits(int number) {
        return party(number).waits();
    }

    /** The number of the next expiry. */
    int nextExpiry() {
        return ++expiries;
    }

    /** Whether a seat's call waits, and is the next of those that are to expire. */
    boolean expiresNext(int number) {
        int expiry = party(number).expiry;
        return waits(number) && expiry > 0
            && parties.values().stream().noneMatch(other -> other.waits() && 0 < other.expiry && other.expiry < expiry);
    }

    private void tell(int seat, String reply) {
        replies.add("- " + seat + " " + reply);
    }

    private void record(int seat, String reply, long ticket, String deed) {
        records++;
        replies.add(records + " " + seat + " " + reply);
        trace.add(seat + " " + ticket + " " + deed);
    }

    /**
     * Makes a request; one that is to expire as the first, second or so of all, by the timed form of its call; and 0 is
     * never.
     */
    void request(int number, String verb, long mark, int expiry) throws Pace.Early {
        Party party = party(number, false);
        long ticket = nextTicket++;
        party.item = Place.gives(verb) ? new Item(mark, ticket) : null;
        long limit = expiry == 0 ? 0 : start + expiry * pace - System.nanoTime();
        if (limit <= 0 && expiry > 0) {
            throw new Pace.Early();
        }
        party.seat.begin(place.call(verb, party.item, limit));
        party.seat.settle();
        String name = "t" + ticket + " ";
        boolean gives = party.item != null;
        String item = party.back();
        if (!party.seat.hasEnded()) {
            party.open = true;
            party.ticket = ticket;
            party.expiry = expiry;
            record(number, name + "waits", ticket, (gives ? "give-waits" : "take-waits") + item);
            return;
        }
        Outcome outcome = party.seat.outcome();
        if (limit > 0 && place.mayWait(verb) && outcome.is(Outcome.End.NONE)) {
            throw new Pace.Early();
        }
        switch (outcome.end()) {
            case INTERRUPTED ->
                record(number, name + "interrupted" + item, ticket, "entry-interrupted " + (gives ? "give" : "take"));
            case NONE -> record(number, name + "none" + item, ticket, (gives ? "give-fails" : "take-fails") + item);
            case GOT -> recordTaken(number, ticket, outcome.item());
            case WENT -> {
                long taker = takerOf(party.item);
                if (taker == 0) {
                    record(number, name + "kept", ticket, "give-kept" + item);
                } else {
                    record(number, name + "gave" + item + " to t" + taker, ticket, "give-meets" + item + " " + taker);
                }
            }
        }
    }

    /**
     * The ticket of the call that waited and got this item, or 0 where the item lies in the queue; one of both comes to
     * hold.
     */
    private long takerOf(Item item) {
        Patience.until(() -> place.contains(item) || metBy(item) != 0, "who got an item that was given");
        return metBy(item);
    }

    private long metBy(Item item) {
        for (Party other : parties.values()) {
            if (other.open && other.seat.hasEnded() && other.seat.outcome().items().contains(item)) {
                return other.ticket;
            }
        }
        return 0;
    }

    /** Tells that a request got this item; its giver's call has ended, if it waited. */
    private void recordTaken(int number, long ticket, Item item) {
        for (Party other : parties.values()) {
            if (other.open && other.ticket == item.ticket) {
                other.seat.awaitEnd();
            }
        }
        String what = item.written();
        String reply = "t" + ticket + " got " + what + " from t" + item.ticket;
        record(number, reply, ticket, "take-meets " + what + " " + item.ticket);
    }

    /** Tells a seat what became of its call. */
    void follow(int number) throws Pace.Early {
        Party party = party(number, true);
        if (party.waits()) {
            tell(number, "notyet");
            return;
        }
        Outcome outcome = party.seat.outcome();
        String name = "t" + party.ticket + " ";
        party.open = false;
        switch (outcome.end()) {
            case WENT -> record(number, name + "done", party.ticket, "done");
            case GOT -> {
                String what = outcome.item().written();
                long from = outcome.item().ticket;
                record(number, name + "got " + what + " from t" + from, party.ticket, "got " + what + " " + from);
            }
            case INTERRUPTED ->
                record(number, name + "interrupted" + party.back(), party.ticket, "withdrawn interrupted");
            case NONE -> throw new Pace.Early();
        }
    }

    /** Waits until the time of a seat's call runs out, or tells that it was met or cut before. */
    void expire(int number) {
        Party party = party(number, true);
        if (party.expiry > 0) {
            party.seat.awaitEnd();
        }
        if (party.waits() || !party.seat.outcome().is(Outcome.End.NONE)) {
            tell(number, "late");
            return;
        }
        party.open = false;
        record(number, "t" + party.ticket + " expired" + party.back(), party.ticket, "withdrawn expired");
    }

    /** A cancel has no call in Java: only one that comes too late is told. */
    void cancel(int number) {
        if (party(number, true).waits()) {
            throw new IllegalStateException("Java has no cancel");
        }
        tell(number, "late");
    }

    void interrupt(int number, int target) {
        Party party = party(target);
        if (party.waits()) {
            party.seat.interrupt();
            party.seat.awaitEnd();
            record(number, "interrupt " + target + " cut t" + party.ticket, party.ticket, "interrupt " + target);
        } else {
            party.seat.interrupt();
            record(number, "interrupt " + target + " flagged", 0, "interrupt " + target);
        }
    }

    void drain(int number, int most) {
        Party party = party(number, false);
        party.item = null;
        party.seat.begin(place.drain(most));
        party.seat.awaitEnd();
        List<Item> items = party.seat.outcome().items();
        for (Item item : items) {
            recordTaken(number, nextTicket++, item);
        }
        tell(number, "drained " + items.size());
    }

    void probe(int number, String verb) {
        tell(number, place.probe(verb));
    }

    /** That no timed call has given up which wasn't told to expire. */
    void look() throws Pace.Early {
        for (Party party : parties.values()) {
            if (party.open && party.expiry > 0 && party.seat.hasEnded() && party.seat.outcome().is(Outcome.End.NONE)) {
                throw new Pace.Early();
            }
        }
    }

    /**
     * Tells how many records there are, how many calls wait or weren't followed up, and how many items lie in the
     * queue.
     */
    void close() {
        long waiting = parties.values().stream().filter(Party::waits).count();
        long givers = parties.values().stream().filter(party -> party.waits() && party.item != null).count();
        long open = parties.values().stream().filter(party -> party.open).count();
        long kept = place.keeps() ? place.size() - givers : place.size();
        replies.add("legal " + records + " waiting " + waiting + " uncollected " + (open - waiting) + " kept " + kept);
    }

    void stop() {
        parties.values().forEach(party -> party.seat.stop(place.waiting(party.item != null)));
    }
}
