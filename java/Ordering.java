import java.util.ArrayList;
import java.util.Arrays;
import java.util.HashSet;
import java.util.List;
import java.util.Set;

/**
 * Looks for a linearization of calls that overlapped: an order of their steps that is one legal history. A request
 * comes between its call's begin and end, and the ending of one that waits between it and that end. An interrupt comes
 * between its begin and its end where it is to be prompt, and else as late as the thread that it is for shows it.
 *
 * A step comes only where the next entry of the log is an end that needs it, since none has to come sooner. Who met
 * whom is known by the items.
 */
final class Ordering {
    /** How a search ended. */
    enum Found { ORDER, NONE, GIVEN_UP }

    private static final int MOST_STEPS = 30_000;
    /** What a call has come to. */
    private static final byte AHEAD = 0;
    private static final byte WAITS = 1;
    private static final byte KEPT = 2;
    private static final byte MET = 3;
    private static final byte CUT = 4;
    private static final byte DONE = 5;

    /** A record, and those before it. */
    private record Step(Step before, Crowd.Event event, String deed, int with) {
        /** Whether it is a request's, which uses a ticket. */
        boolean asks() {
            return deed.startsWith("give-") || deed.startsWith("take-") || deed.startsWith("entry-");
        }
    }

    /** Where a search is: what each call has come to, the line, who is flagged, and the records so far. */
    private static final class State {
        final byte[] stages;
        final int[] line;
        final int flags;
        final Step last;

        State(byte[] stages, int[] line, int flags, Step last) {
            this.stages = stages;
            this.line = line;
            this.flags = flags;
            this.last = last;
        }

        State with(int call, byte stage, int[] newLine, int newFlags, Step step) {
            byte[] changed = stages.clone();
            changed[call] = stage;
            return new State(changed, newLine, newFlags, step);
        }
    }

    private final Crowd crowd;
    private final boolean prompt;
    private final Crowd.Event[] events;
    /** Of each call the one that it met, or -1. */
    private final int[] partners;
    /** Where in the log each call begins, and where it ends. */
    private final int[] begins;
    private final int[] ends;
    private final Set<String> tried = new HashSet<>();
    private State end;

    Ordering(Crowd crowd, boolean prompt) {
        this.crowd = crowd;
        this.prompt = prompt;
        events = crowd.events.toArray(Crowd.Event[]::new);
        partners = new int[events.length];
        begins = new int[events.length];
        ends = new int[events.length];
        for (int at = 0; at < crowd.log.size(); at++) {
            Crowd.Entry entry = crowd.log.get(at);
            (entry.ends() ? ends : begins)[entry.event().number] = at;
        }
        Arrays.fill(partners, -1);
        for (Crowd.Event event : events) {
            for (Item item : event.outcome.items()) {
                partners[event.number] = (int) item.ticket;
                partners[(int) item.ticket] = event.number;
            }
        }
    }

    Found search() {
        State start = new State(new byte[events.length], new int[0], 0, null);
        boolean found = from(0, new ArrayList<>(), start);
        return found ? Found.ORDER : tried.size() >= MOST_STEPS ? Found.GIVEN_UP : Found.NONE;
    }

    /** Whether there is an order of what the log has from this entry on, where these calls have begun and not ended. */
    private boolean from(int entry, List<Crowd.Event> begun, State state) {
        int at = entry;
        List<Crowd.Event> open = new ArrayList<>(begun);
        State now = state;
        for (; at < crowd.log.size(); at++) {
            Crowd.Event event = crowd.log.get(at).event();
            if (!crowd.log.get(at).ends()) {
                open.add(event);
                continue;
            }
            if (event.isInterrupt() && !prompt) {
                continue;
            }
            byte stage = now.stages[event.number];
            if (stage == AHEAD || stage == WAITS) {
                return fromStep(at, open, now, event);
            }
            if (stage == MET || stage == CUT) {
                String deed = stage == CUT ? "withdrawn interrupted" : event.item == null ? "got" : "done";
                Step step = new Step(now.last, event, deed, partners[event.number]);
                now = now.with(event.number, DONE, now.line, now.flags, step);
            }
            open.remove(event);
        }
        end = now;
        return true;
    }

    /** Whether there is an order with one more step before this entry, the end of a call that isn't there yet. */
    private boolean fromStep(int at, List<Crowd.Event> open, State state, Crowd.Event wanted) {
        String key = at + " " + Arrays.toString(state.stages) + Arrays.toString(state.line) + state.flags;
        if (tried.size() >= MOST_STEPS || !tried.add(key)) {
            return false;
        }
        State first = step(state, wanted);
        if (first != null && from(at, open, first)) {
            return true;
        }
        for (Crowd.Event event : open) {
            State next = event == wanted ? null : step(state, event);
            if (next != null && from(at, open, next)) {
                return true;
            }
        }
        return false;
    }

    /** The state behind the next step of a call, or none where it can't come now. */
    private State step(State state, Crowd.Event event) {
        byte stage = state.stages[event.number];
        if (event.isInterrupt()) {
            return stage == AHEAD ? interrupt(state, event) : null;
        }
        if (stage == WAITS && event.outcome.is(Outcome.End.NONE)) {
            Step step = new Step(state.last, event, "withdrawn expired", -1);
            return state.with(event.number, DONE, without(state.line, event.number), state.flags, step);
        }
        return stage == AHEAD ? request(state, event) : null;
    }

    private static int[] without(int[] line, int call) {
        return Arrays.stream(line).filter(other -> other != call).toArray();
    }

    private State interrupt(State state, Crowd.Event event) {
        for (int call : state.line) {
            if (events[call].thread == event.target && state.stages[call] == WAITS) {
                if (!events[call].outcome.is(Outcome.End.INTERRUPTED)) {
                    return null;
                }
                Step step = new Step(state.last, event, "interrupt", call);
                State next = state.with(call, CUT, without(state.line, call), state.flags, step);
                return next.with(event.number, DONE, next.line, next.flags, step);
            }
        }
        Step step = new Step(state.last, event, "interrupt", -1);
        return state.with(event.number, DONE, state.line, state.flags | 1 << event.target, step);
    }

    /** Whom a request of this side meets, or -1. */
    private int met(State state, boolean gives) {
        if (state.line.length == 0 || (events[state.line[0]].item != null) == gives) {
            return -1;
        }
        return state.line[crowd.place.order.equals("unfair") ? state.line.length - 1 : 0];
    }

    /** Whether a call goes to the line too soon, where the first in it is met: another that is ahead is met sooner. */
    private boolean isTooSoon(State state, Crowd.Event event) {
        int with = partners[event.number];
        boolean stays = with < 0 && event.outcome.is(Outcome.End.WENT);
        if (crowd.place.order.equals("unfair") || with < 0 && !stays) {
            return false;
        }
        for (Crowd.Event other : events) {
            int met = partners[other.number];
            boolean ahead = state.stages[other.number] == AHEAD && (other.item == null) == (event.item == null);
            if (ahead && met >= 0 && (stays || ends[met] < begins[with])) {
                return true;
            }
        }
        return false;
    }

    private State request(State state, Crowd.Event event) {
        boolean gives = event.item != null;
        String side = gives ? "give" : "take";
        int number = event.number;
        int with = met(state, gives);
        int partner = partners[number];
        if (with >= 0) {
            if (with != partner) {
                return null;
            }
            Step step = new Step(state.last, event, side + "-meets", with);
            State next = state.with(number, DONE, without(state.line, with), state.flags, step);
            return state.stages[with] == KEPT ? next : next.with(with, MET, next.line, next.flags, step);
        }
        if (partner >= 0 && state.stages[partner] != AHEAD) {
            return null;
        }
        int[] longer = Arrays.copyOf(state.line, state.line.length + 1);
        longer[state.line.length] = number;
        if (isTooSoon(state, event)) {
            return null;
        }
        if (gives && crowd.place.keeps() && !crowd.place.mayWait(event.verb) && !event.verb.equals("try")) {
            return state.with(number, KEPT, longer, state.flags, new Step(state.last, event, "give-kept", -1));
        }
        if (!crowd.place.mayWait(event.verb)) {
            Step step = new Step(state.last, event, side + "-fails", -1);
            return event.outcome.is(Outcome.End.NONE) ? state.with(number, DONE, state.line, state.flags, step) : null;
        }
        int flag = 1 << event.thread;
        if ((state.flags & flag) != 0) {
            Step step = new Step(state.last, event, "entry-interrupted " + side, -1);
            boolean shown = event.outcome.is(Outcome.End.INTERRUPTED);
            return shown ? state.with(number, DONE, state.line, state.flags & ~flag, step) : null;
        }
        return state.with(number, WAITS, longer, state.flags, new Step(state.last, event, side + "-waits", -1));
    }

    /** The trace of the order that was found. */
    List<String> trace() {
        List<Step> steps = new ArrayList<>();
        for (Step step = end.last; step != null; step = step.before()) {
            steps.add(0, step);
        }
        long[] tickets = new long[events.length];
        long last = 0;
        List<String> lines = new ArrayList<>(List.of("trace 1 " + crowd.place.order));
        for (Step step : steps) {
            Crowd.Event event = step.event();
            if (step.asks()) {
                tickets[event.number] = ++last;
            }
            long other = step.with() < 0 ? 0 : tickets[step.with()];
            if (event.isInterrupt()) {
                lines.add(event.thread + " " + other + " interrupt " + event.target);
                continue;
            }
            Item item = event.item != null ? event.item : step.with() < 0 ? null : events[step.with()].item;
            String what = switch (step.deed()) {
                case "give-waits", "give-fails", "give-kept" -> " " + item.written();
                case "give-meets", "take-meets", "got" -> " " + item.written() + " " + other;
                default -> "";
            };
            lines.add(event.thread + " " + tickets[event.number] + " " + step.deed() + what);
        }
        return lines;
    }
}
