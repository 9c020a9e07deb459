import java.io.IOException;
import java.nio.file.Files;
import java.nio.file.Path;
import java.util.Arrays;

/** The whole conformance kit over the binding: each case of the folder named, or of the repository's own. docs/EMBEDDING.md has the command. */
final class Kit {
    private Kit() {}

    /** passed, failed or skipped, as 0, 1 and 2; a case is skipped for a command that the library has no call for. */
    private static int outcome(Path data, String name) throws IOException {
        try {
            byte[] answers = Replay.replay(Files.readAllBytes(data.resolve(name + ".script")));
            return Arrays.equals(answers, Files.readAllBytes(data.resolve(name + ".answers"))) ? 0 : 1;
        } catch (Replay.NotBound command) {
            return 2;
        }
    }

    public static void main(String[] arguments) throws IOException {
        Path data = Path.of(arguments.length > 0 ? arguments[0] : "crates/test_conformance/data");
        int[] counts = new int[3];
        for (String name : Files.readAllLines(data.resolve("index"))) {
            int what = outcome(data, name);
            counts[what]++;
            if (what == 1) {
                System.out.println("failed: " + name);
            }
        }
        System.out.printf("the kit over Java: %d passed, %d failed, %d skipped%n", counts[0], counts[1], counts[2]);
        System.exit(counts[1] == 0 && counts[0] > 0 ? 0 : 1);
    }
}
