package geysertray;

import static java.lang.foreign.ValueLayout.JAVA_BYTE;

import java.lang.foreign.Arena;
import java.lang.foreign.MemorySegment;
import java.nio.charset.StandardCharsets;
import java.util.ArrayList;
import java.util.Arrays;
import java.util.List;
import java.util.OptionalLong;

/** The calls on bytes, which need no panel. Editions are 1 and 2; a refused call throws Refused. */
public final class Geysertray {
    public static final int SET_BYTES = 32768;
    public static final int DEPENDS_KEYS = 2520;
    private static final int FINDING_NUMBERS = 945;

    private Geysertray() {}

    public record Finding(long kind, long domain, long secondary) {}

    /** The patch that they belong to, from 0, or none for the set. */
    public record Findings(OptionalLong patch, List<Finding> found) {}

    public record Key(long collection, long key) {}

    /** Either never, with the first operation that contradicts those before it; or the keys that must be there and those that must be absent. */
    public record Dependencies(boolean never, long patch, long operation, List<Key> held, List<Key> lacked) {}

    /** A patch without its operations. */
    public record Envelope(
            long id, long stream, long document, OptionalLong surface, long previousRevision, long revision, long epoch, long sequence) {}

    /** What the patch checks find in a set. */
    public static Findings check(byte[] set, long edition) {
        try (Arena arena = Arena.ofConfined()) {
            MemorySegment out = Library.room(arena, FINDING_NUMBERS);
            MemorySegment told =
                    Library.accepted(arena, "check", 6, Library.lend(arena, set), (long) set.length, edition, out, (long) FINDING_NUMBERS);
            List<Finding> found = new ArrayList<>();
            for (int i = 0; i < Panel.at(told, 5); i++) {
                found.add(new Finding(Panel.at(out, 3 * i), Panel.at(out, 3 * i + 1), Panel.at(out, 3 * i + 2)));
            }
            return new Findings(Panel.at(told, 2) == 0 ? OptionalLong.empty() : OptionalLong.of(Panel.at(told, 3)), found);
        }
    }

    /** What a panel must hold and lack for a set to apply, with room for so many numbers, two a key; DEPENDS_KEYS keys are the most. */
    public static Dependencies depends(byte[] set, long edition, int room) {
        try (Arena arena = Arena.ofConfined()) {
            MemorySegment out = Library.room(arena, room);
            MemorySegment told = Library.accepted(arena, "depends", 7, Library.lend(arena, set), (long) set.length, edition, out, (long) room);
            int held = (int) Panel.at(told, 5);
            int all = held + (int) Panel.at(told, 6);
            return new Dependencies(Panel.at(told, 2) != 0, Panel.at(told, 3), Panel.at(told, 4), keys(out, 0, held), keys(out, held, all));
        }
    }

    private static List<Key> keys(MemorySegment out, int from, int to) {
        List<Key> keys = new ArrayList<>();
        for (int i = from; i < to; i++) {
            keys.add(new Key(Panel.at(out, 2 * i), Panel.at(out, 2 * i + 1)));
        }
        return keys;
    }

    /** A set of this edition in the other one, in at most so many bytes; SET_BYTES hold every set. */
    public static byte[] convert(byte[] set, long edition, int room) {
        try (Arena arena = Arena.ofConfined()) {
            return written(arena, room, "convert", Library.lend(arena, set), (long) set.length, edition);
        }
    }

    /** Lines of key, tab and text as a set with one patch of inserts. */
    public static byte[] importTerms(byte[] terms, long collection, Envelope patch, long edition, int room) {
        try (Arena arena = Arena.ofConfined()) {
            long surfaced = patch.surface().isPresent() ? 1 : 0;
            return written(
                    arena, room, "import_terms", Library.lend(arena, terms), (long) terms.length, edition, collection, patch.id(), patch.stream(),
                    patch.document(), surfaced, patch.surface().orElse(0), patch.previousRevision(), patch.revision(), patch.epoch(), patch.sequence());
        }
    }

    /** What a set makes of an empty panel, as Panel.listing tells it. */
    public static String setListing(byte[] set, long edition) {
        try (Arena arena = Arena.ofConfined()) {
            byte[] lines = written(arena, Panel.LISTING_BYTES, "set_listing", Library.lend(arena, set), (long) set.length, edition);
            String text = new String(lines, StandardCharsets.UTF_8);
            if (text.startsWith("E\t")) {
                throw new Refused(Long.parseLong(text.substring(2).strip()), null);
            }
            return text;
        }
    }

    /** The library's version, as 1.0.0. */
    public static String version() {
        long number = Library.number("version");
        return "%d.%d.%d".formatted(number / 1000000, number / 1000 % 1000, number % 1000);
    }

    /** The bytes that a call writes behind these arguments into so much room. */
    private static byte[] written(Arena arena, int room, String name, Object... before) {
        MemorySegment out = arena.allocate(room + 1L);
        Object[] arguments = Arrays.copyOf(before, before.length + 2);
        arguments[before.length] = out;
        arguments[before.length + 1] = (long) room;
        long bytes = Panel.at(Library.accepted(arena, name, 3, arguments), 2);
        return out.asSlice(0, bytes).toArray(JAVA_BYTE);
    }
}
