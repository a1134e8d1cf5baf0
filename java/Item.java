/**
 * What is handed on: a mark, and the ticket of the call that brought it. Two items are one only where they are the same
 * object.
 */
final class Item {
    final long mark;
    final long ticket;

    Item(long mark, long ticket) {
        this.mark = mark;
        this.ticket = ticket;
    }

    /** The mark as scripts write it: from 0 to 2^64 - 1. */
    String written() {
        return Long.toUnsignedString(mark);
    }
}
