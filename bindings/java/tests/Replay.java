import geysertray.Explanation;
import geysertray.Geysertray;
import geysertray.Panel;
import geysertray.Refused;
import geysertray.Turns;
import java.math.BigInteger;
import java.nio.charset.StandardCharsets;
import java.util.ArrayList;
import java.util.Arrays;
import java.util.HexFormat;
import java.util.List;
import java.util.Locale;
import java.util.Map;
import java.util.Optional;
import java.util.OptionalLong;
import java.util.function.Function;
import java.util.function.Supplier;

/** Answers a replay script over the binding. kit/README.md has the form of commands and answers. */
final class Replay implements AutoCloseable {
    private static final int LINE_BYTES = 131072;
    private static final int KEPT_ANCHORS = 129;
    private static final int PAGE_KEYS = 128;
    private static final int LINE_BATCHES = 16;
    private static final List<String> STEPS = List.of("activate", "suspend", "resume", "close", "noop");

    /** The form of a command's fields: n a number, s a slot, o a number or none, h bytes in hex, e an edition, a a step; c, d, p and k are rooms, m a batch of a group. */
    private static final Map<String, String> FORMS = Map.ofEntries(
            Map.entry("session", "nnnnn"), Map.entry("node", "n"), Map.entry("binding", "ns"), Map.entry("collection", "n"), Map.entry("create", ""),
            Map.entry("apply", "an"), Map.entry("batch", "nnnnnh"), Map.entry("explain", "nnnnnh"), Map.entry("check", "h"), Map.entry("list", "h"), Map.entry("show", ""),
            Map.entry("value binding", "ns"), Map.entry("value node", "n"), Map.entry("value entry", "nn"), Map.entry("mark binding", "ns"),
            Map.entry("mark node", "n"), Map.entry("mark entry", "nn"), Map.entry("edition", "e"), Map.entry("convert", "ch"), Map.entry("depends", "dh"),
            Map.entry("print", "np"), Map.entry("length", "n"), Map.entry("senders", "n"), Map.entry("wait", "n"), Map.entry("turn", ""), Map.entry("import", "cnnnnonnnnh"));
    private static final Map<Character, Long> LAST = Map.of('n', -1L, 'o', -1L, 'k', 128L, 's', 0xffffffffL, 'c', 32768L, 'd', 16384L, 'p', 131072L);
    private static final List<String> READING_RULES =
            Explanation.RULE_NAMES.subList(Explanation.RULE_NAMES.indexOf("set-too-long"), Explanation.RULE_NAMES.indexOf("findings"));
    private static final List<String> NOT_BOUND = List.of();
    private static final List<String> NEED_A_SESSION = List.of("apply", "batch", "explain", "group", "show", "value", "mark", "print", "length", "page", "turn");

    /** A line that is no command. */
    static final class BadLine extends Exception {
        private static final long serialVersionUID = 1;
    }

    /** A command whose call the library does not export. */
    static final class NotBound extends Exception {
        private static final long serialVersionUID = 1;
    }

    private long id;
    private Panel.Limits limits = new Panel.Limits(0, 0, 0, 0);
    private final List<Long> nodes = new ArrayList<>();
    private final List<Panel.Slot> bindings = new ArrayList<>();
    private final List<Long> collections = new ArrayList<>();
    private long edition = 1;
    private Panel panel;
    private boolean hasOptional;
    private Turns turns;

    /** The answers to a script, up to its end or its first bad line. */
    static byte[] replay(byte[] script) throws NotBound {
        StringBuilder out = new StringBuilder();
        String[] lines = new String(script, StandardCharsets.ISO_8859_1).split("\n", -1);
        int count = 1;
        try (Replay state = new Replay()) {
            for (; count < lines.length || !lines[count - 1].isEmpty(); count++) {
                if (count == lines.length || lines[count - 1].length() > LINE_BYTES) {
                    throw new BadLine();
                }
                out.append(state.answer(lines[count - 1]));
            }
        } catch (BadLine fault) {
            out.append(line("?", count));
        }
        return out.toString().getBytes(StandardCharsets.UTF_8);
    }

    @Override
    public void close() {
        if (panel != null) {
            panel.close();
        }
    }

    // ---- fields

    private static long number(String field, long last) throws BadLine {
        if (!field.matches("0|[1-9][0-9]{0,19}") || new BigInteger(field).bitLength() > 64) {
            throw new BadLine();
        }
        long value = Long.parseUnsignedLong(field);
        if (Long.compareUnsigned(value, last) > 0) {
            throw new BadLine();
        }
        return value;
    }

    private static byte[] bytes(String field) throws BadLine {
        if (field.equals("-")) {
            return new byte[0];
        }
        if (field.length() % 2 != 0 || !field.matches("[0-9a-f]+")) {
            throw new BadLine();
        }
        return HexFormat.of().parseHex(field);
    }

    private static long place(List<String> words, String field) throws BadLine {
        if (!words.contains(field)) {
            throw new BadLine();
        }
        return words.indexOf(field);
    }

    /** A batch of a group: seven numbers with a comma between, the sixth an edition. */
    private static Panel.GroupBatch member(String field) throws BadLine {
        String[] parts = field.split(",", -1);
        if (parts.length != 7) {
            throw new BadLine();
        }
        long[] n = new long[7];
        for (int i = 0; i < 7; i++) {
            n[i] = i == 5 ? place(List.of("1", "2"), parts[i]) + 1 : number(parts[i], -1L);
        }
        return new Panel.GroupBatch(n[0], n[1], n[2], n[3], n[4], n[5], n[6]);
    }

    /** The form of a command that has a number of fields of its own, or null. */
    private static String form(String command, int fields) {
        return switch (command) {
            case "page" -> "nk" + "n".repeat(Math.clamp(fields - 2, 0, PAGE_KEYS));
            case "group" -> "m".repeat(Math.clamp(fields - 1, 0, LINE_BATCHES)) + "h";
            default -> FORMS.get(command);
        };
    }

    private Object value(char kind, String field) throws BadLine {
        if (kind == 'o') {
            hasOptional = !field.equals("-");
        }
        return switch (kind) {
            case 'o' -> hasOptional ? number(field, -1L) : 0L;
            case 'h' -> bytes(field);
            case 'm' -> member(field);
            case 'a' -> place(STEPS, field);
            case 'e' -> place(List.of("1", "2"), field) + 1;
            default -> number(field, LAST.get(kind));
        };
    }

    // ---- one line

    private String answer(String text) throws BadLine, NotBound {
        if (text.isEmpty() || text.startsWith("#")) {
            return "";
        }
        List<String> fields = new ArrayList<>(Arrays.asList(text.split(" ", -1)));
        String word = fields.remove(0);
        if (NOT_BOUND.contains(word)) {
            throw new NotBound();
        }
        String command = (word.equals("value") || word.equals("mark")) && !fields.isEmpty() ? word + " " + fields.remove(0) : word;
        String form = form(command, fields.size());
        if (form == null || form.length() != fields.size()) {
            throw new BadLine();
        }
        Object[] values = new Object[form.length()];
        for (int i = 0; i < values.length; i++) {
            values[i] = value(form.charAt(i), fields.get(i));
        }
        if (panel == null && NEED_A_SESSION.contains(word)) {
            return line("N");
        }
        if (command.equals("group")) {
            return group(Arrays.stream(values).filter(it -> it instanceof Panel.GroupBatch).map(it -> (Panel.GroupBatch) it).toList(), setOf(values));
        }
        return run(command, Arrays.stream(values).filter(it -> it instanceof Long).mapToLong(it -> (long) it).toArray(), setOf(values));
    }

    /** Bytes are a command's last field. */
    private static byte[] setOf(Object[] values) {
        return values.length > 0 && values[values.length - 1] instanceof byte[] set ? set : null;
    }

    private String run(String command, long[] numbers, byte[] set) {
        return switch (command) {
            case "session" -> setUp(numbers);
            case "node" -> keep(nodes, numbers[0]);
            case "binding" -> keep(bindings, new Panel.Slot(numbers[0], (int) numbers[1]));
            case "collection" -> keep(collections, numbers[0]);
            case "create" -> create();
            case "apply" -> apply(numbers);
            case "batch" -> batch(numbers, set);
            case "explain" -> explain(numbers, set);
            case "edition" -> edition(numbers[0]);
            case "senders" -> told("J", () -> turns = new Turns(numbers[0]), it -> line("J", 0));
            case "wait", "turn" -> turns == null ? line("N") : onTurns(command, numbers);
            case "check", "list", "convert", "depends", "import" -> onBytes(command, numbers, set);
            default -> look(command, numbers);
        };
    }

    private String onTurns(String command, long[] numbers) {
        if (command.equals("wait")) {
            return told("J", () -> await(numbers[0]), it -> line("J", 0));
        }
        return turns.turn(panel.cursor()).map(it -> line("J", it.sender(), it.number())).orElse(line("J", "none"));
    }

    private Turns await(long sender) {
        turns.await(sender);
        return turns;
    }

    private String onBytes(String command, long[] numbers, byte[] set) {
        return switch (command) {
            case "check" -> told("K", () -> Geysertray.check(set, edition), Replay::findings);
            case "list" -> told("E", () -> Geysertray.setListing(set, edition), it -> it);
            case "convert" -> told("T", () -> Geysertray.convert(set, edition, (int) numbers[0]), it -> line("T", 0, HexFormat.of().formatHex(it)));
            case "import" -> told("I", () -> bringIn(numbers, set), it -> line("I", 0, HexFormat.of().formatHex(it)));
            default -> told("D", () -> Geysertray.depends(set, edition, (int) numbers[0]), Replay::dependencies);
        };
    }

    private String look(String command, long[] numbers) {
        return switch (command) {
            case "value binding" -> value(panel.binding(numbers[0], (int) numbers[1]));
            case "value node" -> panel.node(numbers[0]).map(it -> line("V", "A", it.availability())).orElse(line("V", "-"));
            case "value entry" -> value(panel.entry(numbers[0], numbers[1]));
            case "mark binding" -> mark(panel.binding(numbers[0], (int) numbers[1]).map(Panel.Value::mark));
            case "mark node" -> mark(panel.node(numbers[0]).map(Panel.Availability::mark));
            case "mark entry" -> mark(panel.entry(numbers[0], numbers[1]).map(Panel.Value::mark));
            case "print" -> told("O", () -> panel.print(numbers[0], (int) numbers[1]), it -> line("O", 0, it.getBytes(StandardCharsets.UTF_8).length) + it);
            case "length" -> line("Z", panel.length(numbers[0]));
            case "page" -> told("Y", () -> panel.page(numbers[0], Arrays.copyOfRange(numbers, 2, numbers.length), (int) numbers[1]), Replay::page);
            default -> panel.listing();
        };
    }

    private byte[] bringIn(long[] n, byte[] terms) {
        OptionalLong surface = hasOptional ? OptionalLong.of(n[5]) : OptionalLong.empty();
        return Geysertray.importTerms(terms, n[1], new Geysertray.Envelope(n[2], n[3], n[4], surface, n[6], n[7], n[8], n[9]), edition, (int) n[0]);
    }

    // ---- the session

    private String setUp(long[] numbers) {
        id = numbers[0];
        limits = new Panel.Limits(numbers[1], numbers[2], numbers[3], numbers[4]);
        nodes.clear();
        bindings.clear();
        collections.clear();
        return "";
    }

    private static <T> String keep(List<T> anchors, T anchor) {
        if (anchors.size() < KEPT_ANCHORS) {
            anchors.add(anchor);
        }
        return "";
    }

    private String create() {
        close();
        panel = null;
        try {
            panel = new Panel(id, limits, longs(nodes), bindings.toArray(Panel.Slot[]::new), longs(collections));
        } catch (Refused refusal) {
            return line("S", refusal.number());
        }
        return line("S", 0);
    }

    private static long[] longs(List<Long> numbers) {
        return numbers.stream().mapToLong(it -> it).toArray();
    }

    private String edition(long number) {
        edition = number;
        return "";
    }

    private String apply(long[] numbers) {
        Panel.Answer answer = answered(() -> panel.step(Panel.Command.values()[(int) numbers[0]], numbers[1]));
        String lifecycle = answer.lifecycle().name().toLowerCase(Locale.ROOT);
        return line("L", word(answer), answer.number(), answer.stage(), answer.logical(), answer.emitted(), lifecycle, cursor(answer.cursor()), numbers[1]);
    }

    private String batch(long[] n, byte[] set) {
        return batchLine(answered(() -> panel.send(new Panel.Batch(n[0], n[1], n[2], n[3], n[4], set, edition))));
    }

    private static String batchLine(Panel.Answer answer) {
        return line("R", word(answer), answer.number(), answer.stage(), answer.logical(), answer.emitted(), cursor(answer.cursor()));
    }

    private String group(List<Panel.GroupBatch> batches, byte[] sets) {
        try {
            Panel.Taken taken = panel.sendGroup(batches, sets);
            return line("U", 0, taken.count(), cursor(taken.cursor()));
        } catch (Refused refusal) {
            return refusal.answer() == null ? line("U", refusal.number()) : line("U", 0, 0, refusal.place()) + batchLine(refusal.answer());
        }
    }

    private String explain(long[] n, byte[] set) {
        return panel.explain(new Panel.Batch(n[0], n[1], n[2], n[3], n[4], set, edition)).map(Replay::reason).orElse(line("W", 0));
    }

    private static Panel.Answer answered(Supplier<Panel.Answer> call) {
        try {
            return call.get();
        } catch (Refused refusal) {
            return refusal.answer();
        }
    }

    // ---- lines of answers

    private static String reason(Explanation it) {
        if (it.rule().isEmpty()) {
            return line("W", 0, "withheld");
        }
        List<Object> fields = new ArrayList<>(List.of("W", it.number(), it.rule().get()));
        fields.addAll(figures(it, it.rule().get()));
        return line(fields.toArray());
    }

    /** The figures of a rule, in the order of docs/RULES.md. */
    private static List<Object> figures(Explanation it, String rule) {
        List<Object> fields = new ArrayList<>(it.figures());
        if (rule.equals("findings")) {
            fields.add(0, it.patch().isEmpty() ? "set" : (Object) it.patch().getAsLong());
        } else if (rule.equals("cursor") && fields.isEmpty()) {
            fields.add("-");
        } else if (it.operation().isPresent() || READING_RULES.contains(rule)) {
            fields.add(orNone(it.patch()));
            fields.add(orNone(it.operation()));
        }
        return fields;
    }

    private static Object orNone(OptionalLong number) {
        return number.isPresent() ? (Object) number.getAsLong() : "-";
    }

    private static String line(Object... fields) {
        StringBuilder out = new StringBuilder();
        for (Object field : fields) {
            out.append(field instanceof Long number ? Long.toUnsignedString(number) : field).append('\t');
        }
        out.setCharAt(out.length() - 1, '\n');
        return out.toString();
    }

    /** The lines of what a call answers, or its refusal's number behind the letter. */
    private static <T> String told(String letter, Supplier<T> call, Function<T, String> lines) {
        try {
            return lines.apply(call.get());
        } catch (Refused refusal) {
            return line(letter, refusal.number());
        }
    }

    private static String word(Panel.Answer answer) {
        return answer.disposition().name().toLowerCase(Locale.ROOT).replace('_', '-');
    }

    private static Object cursor(OptionalLong cursor) {
        return cursor.isPresent() ? (Object) cursor.getAsLong() : "-";
    }

    private static String mark(Optional<Long> mark) {
        return line("X", mark.map(it -> (Object) it).orElse("-"));
    }

    private static String value(Optional<Panel.Value> found) {
        return found.map(it -> "V\t" + fields(it)).orElse(line("V", "-"));
    }

    private static String page(List<Optional<Panel.PageEntry>> rows) {
        StringBuilder out = new StringBuilder(line("Y", 0, rows.size()));
        rows.forEach(row -> out.append(row.map(it -> "M\t" + Long.toUnsignedString(it.position()) + "\t" + fields(it.value())).orElse(line("M", "-"))));
        return out.toString();
    }

    private static String fields(Panel.Value value) {
        return switch (value.kind()) {
            case QUAD -> line("Q", value.number());
            case SIGNED -> line("S", Long.toString(value.number()));
            case TEXT -> line("T", value.text().replace("\\", "\\\\").replace("\t", "\\t").replace("\n", "\\n").replace("\r", "\\r"));
            case UNSIGNED -> line("U", value.number());
            case SCORE -> line("M", value.number());
        };
    }

    private static String findings(Geysertray.Findings findings) {
        Object place = findings.patch().isPresent() ? (Object) findings.patch().getAsLong() : "set";
        StringBuilder out = new StringBuilder(line("K", 0, place, findings.found().size()));
        findings.found().forEach(it -> out.append(line("F", it.kind(), it.domain(), it.secondary())));
        return out.toString();
    }

    private static String dependencies(Geysertray.Dependencies told) {
        if (told.never()) {
            return line("D", 0, "never", told.patch(), told.operation());
        }
        StringBuilder out = new StringBuilder(line("D", 0, "needs", told.held().size(), told.lacked().size()));
        told.held().forEach(it -> out.append(line("Q", it.collection(), it.key())));
        told.lacked().forEach(it -> out.append(line("Q", it.collection(), it.key())));
        return out.toString();
    }
}
