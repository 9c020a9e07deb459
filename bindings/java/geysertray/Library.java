package geysertray;

import static java.lang.foreign.ValueLayout.ADDRESS;
import static java.lang.foreign.ValueLayout.JAVA_BYTE;
import static java.lang.foreign.ValueLayout.JAVA_INT;
import static java.lang.foreign.ValueLayout.JAVA_LONG;

import java.lang.foreign.Arena;
import java.lang.foreign.FunctionDescriptor;
import java.lang.foreign.Linker;
import java.lang.foreign.MemoryLayout;
import java.lang.foreign.MemorySegment;
import java.lang.foreign.SegmentAllocator;
import java.lang.foreign.SymbolLookup;
import java.lang.invoke.MethodHandle;
import java.lang.invoke.MethodHandles;
import java.lang.invoke.MethodType;
import java.util.Map;
import java.util.concurrent.ConcurrentHashMap;
import java.util.stream.Stream;

/** The calls of libgeysertray. The file is the one that the property geysertray.library names, else libgeysertray.so.1 where the loader finds it. */
final class Library {
    static final long NO_SESSION = 3;
    static final long NO_SUCH = 4;
    static final long REJECTED = 2;

    private static final Linker LINKER = Linker.nativeLinker();
    private static final SymbolLookup SYMBOLS =
            SymbolLookup.libraryLookup(System.getProperty("geysertray.library", "libgeysertray.so.1"), Arena.global());
    private static final Map<String, MethodHandle> HANDLES = new ConcurrentHashMap<>();

    private Library() {}

    /** A struct of so many numbers, and so many bytes behind them. */
    static MemoryLayout struct(int numbers, int bytes) {
        MemoryLayout words = MemoryLayout.sequenceLayout(numbers, JAVA_LONG);
        return bytes == 0
                ? MemoryLayout.structLayout(words)
                : MemoryLayout.structLayout(words, MemoryLayout.sequenceLayout(bytes, JAVA_BYTE));
    }

    /** A call that answers one number. Arguments are Long, Integer for 32 bits, and MemorySegment. */
    static long number(String name, Object... arguments) {
        return (long) invoke(name, JAVA_LONG, null, arguments);
    }

    /** A call that answers a struct whose first number, or that at the index given, is its disposition; where there is no session or no such edition it throws. */
    static MemorySegment answer(Arena arena, String name, MemoryLayout struct, int disposition, Object... arguments) {
        MemorySegment told = (MemorySegment) invoke(name, struct, arena, arguments);
        long what = told.getAtIndex(JAVA_LONG, disposition);
        if (what == NO_SESSION) {
            throw new IllegalStateException("the panel's memory holds no session: something else wrote to it");
        }
        if (what == NO_SUCH) {
            throw new IllegalArgumentException("no such edition or command");
        }
        return told;
    }

    /** The same of a call whose second number is that of its refusal, which is thrown. */
    static MemorySegment accepted(Arena arena, String name, int numbers, Object... arguments) {
        MemorySegment told = answer(arena, name, struct(numbers, 0), 0, arguments);
        if (told.getAtIndex(JAVA_LONG, 0) == REJECTED) {
            throw new Refused(told.getAtIndex(JAVA_LONG, 1), null);
        }
        return told;
    }

    /** Bytes, numbers or room for a call, never nowhere. */
    static MemorySegment lend(Arena arena, byte[] bytes) {
        return arena.allocate(bytes.length + 1L).copyFrom(MemorySegment.ofArray(bytes));
    }

    static MemorySegment lend(Arena arena, long[] numbers) {
        return room(arena, numbers.length).copyFrom(MemorySegment.ofArray(numbers));
    }

    static MemorySegment room(Arena arena, long numbers) {
        return arena.allocate(8 * numbers + 8, 8);
    }

    private static Object invoke(String name, MemoryLayout result, SegmentAllocator allocator, Object[] arguments) {
        MethodHandle handle = HANDLES.computeIfAbsent(name, it -> handle(it, result, arguments));
        try {
            return handle.invokeExact(allocator, arguments);
        } catch (Throwable fault) {
            throw new IllegalStateException("geysertray_" + name, fault);
        }
    }

    /** The call as a method of an allocator, which a number does not need, and of an array of its arguments. */
    private static MethodHandle handle(String name, MemoryLayout result, Object[] arguments) {
        MemoryLayout[] parameters = Stream.of(arguments).map(Library::layout).toArray(MemoryLayout[]::new);
        MemorySegment symbol = SYMBOLS.find("geysertray_" + name).orElseThrow(() -> new UnsupportedOperationException("geysertray_" + name));
        MethodHandle call = LINKER.downcallHandle(symbol, FunctionDescriptor.of(result, parameters)).asSpreader(Object[].class, arguments.length);
        if (call.type().parameterCount() == 1) {
            call = MethodHandles.dropArguments(call, 0, SegmentAllocator.class);
        }
        return call.asType(MethodType.methodType(Object.class, SegmentAllocator.class, Object[].class));
    }

    private static MemoryLayout layout(Object argument) {
        return argument instanceof MemorySegment ? ADDRESS : argument instanceof Integer ? JAVA_INT : JAVA_LONG;
    }
}
