import java.util.List;

/**
 * Plays scripts of pools on java.util.concurrent.ThreadPoolExecutor.
 *
 * <pre>java Pools [exchanged]</pre>
 *
 * Each text on standard input is a script; of each the replies are written, by its name. Where the words say so,
 * another policy stands in the place of each. The first line is <code>pool CORE MAXIMUM QUEUE [BOUND] POLICY
 * [timeout]</code>, with a queue that is fair, unfair, transfer, linked or bounded, a policy that is abort, caller,
 * discard or oldest, and whether core workers time out too. A call is <code>execute TAG</code>, of a job that runs
 * until <code>finish TAG</code>; <code>idle</code>, which ends the time of idle workers; <code>shutdown</code> or
 * <code>shutdownNow</code>.
 */
public final class Pools {
    private Pools() {}

    private static List<String> answered(List<String> script, boolean exchanged) {
        PoolPlay play = new PoolPlay(script.get(0).split(" "), exchanged);
        try {
            for (String line : script.subList(1, script.size())) {
                play.step(line.split(" "));
            }
            return play.replies();
        } catch (Patience.Stuck stuck) {
            return List.of("stuck");
        } catch (RuntimeException fault) {
            return List.of("fault " + fault.getMessage());
        } finally {
            play.stop();
        }
    }

    public static void main(String[] words) {
        boolean exchanged = List.of(words).contains("exchanged");
        for (Texts.Text text : Texts.read()) {
            Texts.write(text.name(), answered(text.lines(), exchanged));
        }
    }
}
