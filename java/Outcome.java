import java.util.List;

/** What came of a call: how it ended, and the items that it got. */
record Outcome(End end, List<Item> items) {
    /** WENT of a giver, GOT of a taker or a drain; NONE where nobody was there, or the time ran out. */
    enum End { WENT, GOT, NONE, INTERRUPTED }

    static final Outcome WENT = new Outcome(End.WENT, List.of());
    static final Outcome NONE = new Outcome(End.NONE, List.of());
    static final Outcome INTERRUPTED = new Outcome(End.INTERRUPTED, List.of());

    static Outcome went(boolean went) {
        return went ? WENT : NONE;
    }

    static Outcome got(Item item) {
        return item == null ? NONE : new Outcome(End.GOT, List.of(item));
    }

    boolean is(End other) {
        return end == other;
    }

    Item item() {
        return items.get(0);
    }
}
