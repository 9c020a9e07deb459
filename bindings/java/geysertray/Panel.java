package geysertray;

import static java.lang.foreign.ValueLayout.JAVA_BYTE;
import static java.lang.foreign.ValueLayout.JAVA_LONG;

import java.lang.foreign.Arena;
import java.lang.foreign.MemoryLayout;
import java.lang.foreign.MemorySegment;
import java.nio.charset.StandardCharsets;
import java.util.ArrayList;
import java.util.List;
import java.util.Optional;
import java.util.OptionalLong;
import java.util.stream.LongStream;

/**
 * A session and its panel, in memory of its own, which close gives back. Numbers are unsigned, as Long.toUnsignedString prints them. A refused call
 * throws Refused, which names the rule, and leaves the panel as it was. One thread at a time may use a panel; different panels share nothing.
 */
public final class Panel implements AutoCloseable {
    public static final int TEXT_BYTES = 240;
    public static final int PAGE_WIDTH = 262;
    public static final int LISTING_BYTES = 102150;
    public static final int PRINT_BYTES = 46848;
    private static final int HEAD_NUMBERS = 11;
    private static final int BINDING_BYTES = 16960;
    private static final int AVAILABILITY_BYTES = 1088;
    private static final int ENTRY_BYTES = 34432;
    private static final int LENGTH_BYTES = 2048;
    private static final int PLAN_BINDING_BYTES = 1792;
    private static final int PLAN_ENTRY_BYTES = 4096;
    private static final long NOT_A_GROUP = 17;
    private static final MemoryLayout VALUE = Library.struct(8, TEXT_BYTES);
    private static final MemoryLayout NUMBER_AND_VALUE = Library.struct(9, TEXT_BYTES);

    public enum Disposition { APPLIED, NO_CHANGE, REJECTED }

    public enum Command { ACTIVATE, SUSPEND, RESUME, CLOSE, NO_OP }

    public enum Lifecycle { CREATED, ACTIVE, SUSPENDED, CLOSED }

    public enum Kind { QUAD, SIGNED, TEXT, UNSIGNED, SCORE }

    public record Limits(long stimulusBytes, long diagnostics, long patches, long references) {}

    public record Slot(long node, int slot) {}

    /** A batch: what its sender declares of a set, and the set's bytes in an edition, 1 or 2. */
    public record Batch(long session, long sequence, long patches, long stimulusBytes, long references, byte[] set, long edition) {}

    /** A batch of a group: what its sender declares of a set, the set's edition, and how many bytes it has. */
    public record GroupBatch(long session, long sequence, long patches, long stimulusBytes, long references, long edition, long bytes) {
        LongStream numbers() {
            return LongStream.of(session, sequence, patches, stimulusBytes, references, edition, bytes);
        }
    }

    /** A group that was taken: how many batches, and the cursor after them. */
    public record Taken(long count, OptionalLong cursor) {}

    /** What became of a batch or of a step; the cursor stands as after the call, and so does the lifecycle, which a batch does not tell. */
    public record Answer(Disposition disposition, long number, long stage, long logical, long emitted, OptionalLong cursor, Lifecycle lifecycle) {}

    /** A text has its kind and the text, every other kind a number; mark is the patch that last gave the value. */
    public record Value(Kind kind, long number, String text, long mark) {}

    public record Entry(long key, Value value) {}

    public record Availability(long availability, long mark) {}

    public record PageEntry(long position, Value value) {}

    private record Half(MemorySegment head, MemorySegment bindings, MemorySegment availability, MemorySegment entries, MemorySegment lengths) {
        Half(Arena arena) {
            this(Library.room(arena, HEAD_NUMBERS), arena.allocate(BINDING_BYTES), arena.allocate(AVAILABILITY_BYTES), arena.allocate(ENTRY_BYTES), arena.allocate(LENGTH_BYTES));
        }
    }

    /** Where a batch is planned: zeros before each call, and zeros again after it. */
    private record Plan(MemorySegment bindings, MemorySegment availability, MemorySegment entries) {
        Plan(Arena arena) {
            this(arena.allocate(PLAN_BINDING_BYTES), arena.allocate(AVAILABILITY_BYTES), arena.allocate(PLAN_ENTRY_BYTES));
        }
    }

    private final Arena memory = Arena.ofShared();
    private final MemorySegment nodes;
    private final MemorySegment pairs;
    private final MemorySegment collections;
    private final long nodeCount;
    private final long pairNumbers;
    private final long collectionCount;
    private Half half = new Half(memory);
    private Half next = new Half(memory);
    private Half spare = new Half(memory);
    private final Plan plan = new Plan(memory);

    public Panel(long id, Limits limits, long[] nodes, Slot[] bindings, long[] collections) {
        long[] numbers = new long[2 * bindings.length];
        for (int i = 0; i < bindings.length; i++) {
            numbers[2 * i] = bindings[i].node();
            numbers[2 * i + 1] = Integer.toUnsignedLong(bindings[i].slot());
        }
        this.nodes = Library.lend(memory, nodes);
        this.pairs = Library.lend(memory, numbers);
        this.collections = Library.lend(memory, collections);
        nodeCount = nodes.length;
        pairNumbers = numbers.length;
        collectionCount = collections.length;
        for (Half each : List.of(half, next)) {
            long refusal = create(id, limits, each);
            if (refusal != 0) {
                close();
                throw new Refused(refusal, null);
            }
        }
    }

    private long create(long id, Limits limits, Half each) {
        return Library.number(
                "create", id, limits.stimulusBytes(), limits.diagnostics(), limits.patches(), limits.references(), nodes, nodeCount, pairs, pairNumbers,
                collections, collectionCount, each.head(), each.bindings(), each.availability(), each.entries(), each.lengths());
    }

    @Override
    public void close() {
        memory.close();
    }

    /** One lifecycle step. */
    public Answer step(Command command, long stimulusBytes) {
        try (Arena arena = Arena.ofConfined()) {
            MemorySegment told = Library.answer(arena, "lifecycle_step", Library.struct(9, 0), 0, half.head(), (long) command.ordinal(), stimulusBytes);
            return answered(told, 6, Lifecycle.values()[(int) at(told, 5)]);
        }
    }

    /** One batch. */
    public Answer send(Batch batch) {
        try (Arena arena = Arena.ofConfined()) {
            MemorySegment told = Library.answer(
                    arena, "batch", Library.struct(7, 0), 0, half.head(), nodes, nodeCount, pairs, pairNumbers, collections, collectionCount, half.bindings(),
                    half.availability(), half.entries(), batch.session(), batch.sequence(), batch.patches(), batch.stimulusBytes(), batch.references(),
                    Library.lend(arena, batch.set()), (long) batch.set().length, batch.edition(), next.head(), next.bindings(), next.availability(),
                    next.entries(), next.lengths(), plan.bindings(), plan.availability(), plan.entries());
            Answer answer = answered(told, 5, null);
            if (answer.disposition() == Disposition.APPLIED) {
                stand(1);
            }
            return answer;
        }
    }

    /** By which rule send would refuse this batch; none where it would be taken. Nothing is sent. */
    public Optional<Explanation> explain(Batch batch) {
        try (Arena arena = Arena.ofConfined()) {
            return Explanation.of(Library.answer(
                    arena, "explain", Library.struct(12, 0), 0, half.head(), nodes, nodeCount, pairs, pairNumbers, collections,
                    collectionCount, half.bindings(), half.availability(), half.entries(), batch.session(), batch.sequence(), batch.patches(),
                    batch.stimulusBytes(), batch.references(), Library.lend(arena, batch.set()), (long) batch.set().length, batch.edition()));
        }
    }

    /** Up to eight batches as if sent singly in order, or none of them; their sets lie end to end in the bytes. */
    public Taken sendGroup(List<GroupBatch> batches, byte[] sets) {
        long[] numbers = batches.stream().flatMapToLong(GroupBatch::numbers).toArray();
        try (Arena arena = Arena.ofConfined()) {
            MemorySegment told = Library.answer(
                    arena, "group", Library.struct(10, 0), 3, half.head(), nodes, nodeCount, pairs, pairNumbers, collections, collectionCount, half.bindings(),
                    half.availability(), half.entries(), Library.lend(arena, numbers), (long) numbers.length, Library.lend(arena, sets), (long) sets.length,
                    next.head(), next.bindings(), next.availability(), next.entries(), next.lengths(), spare.head(), spare.bindings(), spare.availability(),
                    spare.entries(), spare.lengths());
            if (at(told, 4) == NOT_A_GROUP) {
                throw new Refused(NOT_A_GROUP, null);
            }
            Answer answer = told(told.asSlice(24), 5, null);
            if (answer.disposition() == Disposition.REJECTED) {
                throw new Refused(answer.number(), answer, at(told, 1));
            }
            stand((int) at(told, 2));
            return new Taken(at(told, 0), answer.cursor());
        }
    }

    /** The session stands in the half of this number: 0 its own, 1 the next, 2 the spare one. */
    private void stand(int number) {
        Half before = half;
        if (number == 1) {
            half = next;
            next = before;
        }
        if (number == 2) {
            half = spare;
            spare = before;
        }
    }

    private static Answer told(MemorySegment told, int hasCursor, Lifecycle lifecycle) {
        Disposition disposition = Disposition.values()[(int) at(told, 0)];
        OptionalLong cursor = at(told, hasCursor) == 0 ? OptionalLong.empty() : OptionalLong.of(at(told, hasCursor + 1));
        return new Answer(disposition, at(told, 1), at(told, 2), at(told, 3), at(told, 4), cursor, lifecycle);
    }

    private static Answer answered(MemorySegment told, int hasCursor, Lifecycle lifecycle) {
        Answer answer = told(told, hasCursor, lifecycle);
        if (answer.disposition() == Disposition.REJECTED) {
            throw new Refused(answer.number(), answer);
        }
        return answer;
    }

    /** The number of the last batch that was applied. */
    public OptionalLong cursor() {
        return at(half.head(), 2) == 0 ? OptionalLong.empty() : OptionalLong.of(at(half.head(), 3));
    }

    public Optional<Value> binding(long node, int slot) {
        try (Arena arena = Arena.ofConfined()) {
            return value(Library.answer(arena, "binding_value", VALUE, 0, half.head(), half.bindings(), node, slot), 0);
        }
    }

    public Optional<Availability> node(long node) {
        try (Arena arena = Arena.ofConfined()) {
            MemorySegment told = Library.answer(arena, "node_availability", Library.struct(4, 0), 0, half.head(), half.availability(), node);
            return at(told, 1) == 0 ? Optional.empty() : Optional.of(new Availability(at(told, 3), at(told, 2)));
        }
    }

    public Optional<Value> entry(long collection, long key) {
        try (Arena arena = Arena.ofConfined()) {
            return value(Library.answer(arena, "entry_value", VALUE, 0, half.head(), half.entries(), collection, key), 0);
        }
    }

    /** The entry at a position of its collection, from 0. */
    public Optional<Entry> entryAt(long collection, long position) {
        try (Arena arena = Arena.ofConfined()) {
            MemorySegment told = Library.answer(arena, "entry_at", NUMBER_AND_VALUE, 1, half.head(), half.entries(), collection, position);
            return value(told, 1).map(value -> new Entry(at(told, 0), value));
        }
    }

    /** How many entries a collection has, counted in its rows. */
    public long count(long collection) {
        try (Arena arena = Arena.ofConfined()) {
            return at(Library.accepted(arena, "entry_count", 3, half.head(), half.entries(), collection), 2);
        }
    }

    /** How many entries a collection has, as it is kept with the panel. */
    public long length(long collection) {
        try (Arena arena = Arena.ofConfined()) {
            return at(Library.accepted(arena, "collection_length", 3, half.head(), half.lengths(), collection), 2);
        }
    }

    /** Up to 64 keys of a collection looked up together, into so many places. */
    public List<Optional<PageEntry>> page(long collection, long[] keys, int places) {
        try (Arena arena = Arena.ofConfined()) {
            MemorySegment rows = arena.allocate((long) PAGE_WIDTH * places + 1);
            MemorySegment told = Library.accepted(
                    arena, "collection_page", 3, half.head(), half.entries(), collection, Library.lend(arena, keys), (long) keys.length, rows,
                    (long) PAGE_WIDTH * places);
            List<Optional<PageEntry>> page = new ArrayList<>();
            for (long i = 0; i < at(told, 2); i++) {
                MemorySegment row = rows.asSlice(i * PAGE_WIDTH, PAGE_WIDTH);
                MemorySegment place = Library.answer(arena, "page_row", NUMBER_AND_VALUE, 1, row);
                page.add(value(place, 1).map(value -> new PageEntry(at(place, 0), value)));
            }
            return page;
        }
    }

    /** A collection laid out for paper, in lines of 80 characters, into so many bytes; PRINT_BYTES hold every print. */
    public String print(long collection, int room) {
        try (Arena arena = Arena.ofConfined()) {
            MemorySegment out = arena.allocate(room + 1L);
            return text(out, at(Library.accepted(arena, "print_collection", 3, half.head(), half.entries(), collection, out, (long) room), 2));
        }
    }

    /** Every record of the panel, one to a line. */
    public String listing() {
        try (Arena arena = Arena.ofConfined()) {
            MemorySegment out = arena.allocate(LISTING_BYTES);
            MemorySegment told =
                    Library.accepted(arena, "listing", 3, half.head(), half.bindings(), half.availability(), half.entries(), out, (long) LISTING_BYTES);
            return text(out, at(told, 2));
        }
    }

    static long at(MemorySegment told, int index) {
        return told.getAtIndex(JAVA_LONG, index);
    }

    static String text(MemorySegment out, long bytes) {
        return new String(out.asSlice(0, bytes).toArray(JAVA_BYTE), StandardCharsets.UTF_8);
    }

    /** The value whose struct begins at this number. */
    private static Optional<Value> value(MemorySegment told, int from) {
        if (at(told, from + 1) == 0) {
            return Optional.empty();
        }
        Kind kind = Kind.values()[(int) at(told, from + 3) - 1];
        long number = switch (kind) {
            case QUAD -> at(told, from + 4);
            case SIGNED -> at(told, from + 5);
            case UNSIGNED, SCORE -> at(told, from + 6);
            case TEXT -> 0;
        };
        String text = kind == Kind.TEXT ? text(told.asSlice(8L * (from + 8)), at(told, from + 7)) : null;
        return Optional.of(new Value(kind, number, text, at(told, from + 2)));
    }
}
