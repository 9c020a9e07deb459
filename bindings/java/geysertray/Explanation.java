package geysertray;

import java.lang.foreign.MemorySegment;
import java.util.List;
import java.util.Optional;
import java.util.OptionalLong;
import java.util.stream.IntStream;

/**
 * Why a batch is refused: the number, the rule's name as in docs/RULES.md, the patch and the operation that it tells, and its other figures. Where the
 * session's limit of 0 diagnostics withholds it, the number is 0 and the rule empty.
 */
public record Explanation(long number, Optional<String> rule, OptionalLong patch, OptionalLong operation, List<Long> figures) {
    /** The names of the rules, from 1. */
    public static final List<String> RULE_NAMES = List.of(new String[] {
        // made from crates/c_answers by c/make_header.py
        "foreign-session",
        "closed",
        "declared-patches",
        "declared-bytes",
        "declared-patches-and-bytes",
        "set-too-long",
        "heading",
        "too-few-bytes",
        "operation-tag",
        "value-kind",
        "optional",
        "availability",
        "quad",
        "score",
        "text-not-utf8",
        "patch-count",
        "operation-count",
        "text-length",
        "text-characters",
        "bytes-left",
        "findings",
        "counts-differ",
        "references",
        "unknown-target",
        "cursor",
        "key-present",
        "key-absent",
        "neighbour-absent",
        "bindings-full",
        "availabilities-full",
        "entries-full",
        // end of what is made
    });

    /** What the library tells of a batch that it would refuse; none where it would take it. */
    static Optional<Explanation> of(MemorySegment told) {
        if (Panel.at(told, 0) != Library.REJECTED) {
            return Optional.empty();
        }
        long rule = Panel.at(told, 2);
        Optional<String> name = rule == 0 ? Optional.empty() : Optional.of(RULE_NAMES.get((int) rule - 1));
        List<Long> figures = IntStream.rangeClosed(1, (int) Panel.at(told, 7)).mapToObj(i -> Panel.at(told, 7 + i)).toList();
        return Optional.of(new Explanation(Panel.at(told, 1), name, index(told, 3), index(told, 5), figures));
    }

    /** The number behind the one that tells whether there is one. */
    private static OptionalLong index(MemorySegment told, int has) {
        return Panel.at(told, has) == 0 ? OptionalLong.empty() : OptionalLong.of(Panel.at(told, has + 1));
    }
}
