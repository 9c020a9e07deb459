import geysertray.Explanation;
import geysertray.Geysertray;
import geysertray.Panel;
import geysertray.Refused;
import java.io.IOException;
import java.nio.charset.StandardCharsets;
import java.nio.file.Files;
import java.nio.file.Path;
import java.util.List;
import java.util.Optional;
import java.util.OptionalLong;

/** What the kit's scripts do not call, on examples/panel.set. Each line that fails is told, and the status is 1. */
final class Calls {
    private static int failures;

    private Calls() {}

    private static void expect(Object expected, Object told) {
        if (!expected.equals(told)) {
            System.out.println("expected " + expected + ", got " + told);
            failures++;
        }
    }

    private static void refused(long number, Runnable call) {
        try {
            call.run();
            expect("a refusal", "none");
        } catch (Refused refusal) {
            expect(number, refusal.number());
        }
    }

    private static void look(Panel panel) {
        Panel.Value ok = new Panel.Value(Panel.Kind.TEXT, 0, "Ok", 1);
        Panel.Value minus4 = new Panel.Value(Panel.Kind.SIGNED, -4, null, 1);
        expect(Optional.of(new Panel.Entry(1, ok)), panel.entryAt(9, 0));
        expect(Optional.of(new Panel.Entry(2, minus4)), panel.entryAt(9, 1));
        expect(Optional.empty(), panel.entryAt(9, 2));
        expect(List.of(2L, 2L, 0L, 0L), List.of(panel.count(9), panel.length(9), panel.count(8), panel.length(8)));
        List<Optional<Panel.PageEntry>> rows = List.of(Optional.of(new Panel.PageEntry(1, minus4)), Optional.empty(), Optional.of(new Panel.PageEntry(0, ok)));
        expect(rows, panel.page(9, new long[] {2, 7, 1}, 3));
        refused(16, () -> panel.page(9, new long[65], 65));
        refused(14, () -> panel.page(9, new long[2], 1));
    }

    private static void send(byte[] set) {
        try (Panel panel = new Panel(7, new Panel.Limits(4096, 8, 4, 16), new long[] {5}, new Panel.Slot[] {new Panel.Slot(5, 0)}, new long[] {9})) {
            expect(OptionalLong.of(1), panel.send(new Panel.Batch(7, 1, 1, 0, 4, set, 1)).cursor());
            look(panel);
            refused(8, () -> panel.send(new Panel.Batch(7, 2, 1, 0, 4, set, 1)));
            Explanation present = new Explanation(8, Optional.of("key-present"), OptionalLong.of(0), OptionalLong.of(1), List.of());
            expect(Optional.of(present), panel.explain(new Panel.Batch(7, 2, 1, 0, 4, set, 1)));
            look(panel);
            panel.send(new Panel.Batch(7, 2, 1, 0, 4, set, 3));
            expect("a refusal", "none");
        } catch (IllegalArgumentException noSuchEdition) {
            expect("no such edition or command", noSuchEdition.getMessage());
        }
    }

    public static void main(String[] arguments) throws IOException {
        send(Files.readAllBytes(Path.of("examples/panel.set")));
        byte[] terms = "7\tOk\n".getBytes(StandardCharsets.US_ASCII);
        byte[] made = Geysertray.importTerms(terms, 9, new Geysertray.Envelope(1, 1, 1, OptionalLong.empty(), 0, 1, 1, 1), 1, Geysertray.SET_BYTES);
        expect("P\t1\nC\t9\t7\tT\tOk\n", Geysertray.setListing(made, 1));
        expect("1.0.0", Geysertray.version());
        System.out.println(failures == 0 ? "a panel in Java: ok" : failures + " failed");
        System.exit(failures == 0 ? 0 : 1);
    }
}
