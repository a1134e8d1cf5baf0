import java.io.BufferedReader;
import java.io.InputStreamReader;
import java.nio.charset.StandardCharsets;
import java.util.ArrayList;
import java.util.List;

/** Texts one after another, each behind a line with its name: what the programs of this folder read and write. */
final class Texts {
    private static final String MARK = "== ";

    /** A text of lines, and its name. */
    record Text(String name, List<String> lines) {}

    private Texts() {}

    /** The texts on standard input. */
    static List<Text> read() {
        List<Text> texts = new ArrayList<>();
        new BufferedReader(new InputStreamReader(System.in, StandardCharsets.US_ASCII)).lines().forEach(line -> {
            if (line.startsWith(MARK)) {
                texts.add(new Text(line.substring(MARK.length()), new ArrayList<>()));
            } else {
                texts.get(texts.size() - 1).lines().add(line);
            }
        });
        return texts;
    }

    static void write(String name, List<String> lines) {
        System.out.println(MARK + name);
        lines.forEach(System.out::println);
    }
}
