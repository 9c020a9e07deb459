package geysertray;

import java.lang.foreign.Arena;
import java.lang.foreign.MemorySegment;
import java.util.Optional;
import java.util.OptionalLong;

/** Turns among one to eight senders to one panel, numbered from 0. A refused call throws Refused and leaves the turns as they were. */
public final class Turns {
    private static final int TURNS_NUMBERS = 11;

    private final MemorySegment numbers = Library.room(Arena.ofAuto(), TURNS_NUMBERS);

    /** Whose turn it is, and the number for its batch. */
    public record Turn(long sender, long number) {}

    public Turns(long senders) {
        done(Library.number("turns_set_up", numbers, senders));
    }

    /** The sender waits for its turn from now on. */
    public void await(long sender) {
        done(Library.number("turns_register", numbers, sender));
    }

    /** Whose turn it is now, with the panel's cursor; it waits no more. Empty where nobody waits. */
    public Optional<Turn> turn(OptionalLong cursor) {
        try (Arena arena = Arena.ofConfined()) {
            long hasCursor = cursor.isPresent() ? 1 : 0;
            MemorySegment told = Library.answer(arena, "turns_next", Library.struct(4, 0), 0, numbers, hasCursor, cursor.orElse(0));
            return Panel.at(told, 1) == 0 ? Optional.empty() : Optional.of(new Turn(Panel.at(told, 2), Panel.at(told, 3)));
        }
    }

    private static void done(long refusal) {
        if (refusal != 0) {
            throw new Refused(refusal, null);
        }
    }
}
