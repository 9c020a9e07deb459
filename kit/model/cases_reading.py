"""Canonical bytes: each field's fault, and which of 10 and 12 comes first."""

from build import patch, patches_of, quad, read_notation, signed, text, unsigned
from canonical import HEADINGS, encode_head, encode_operation, encode_set, u32, u64
from kit import PANEL, batch, on_panel, rules_of
from patch import availability, binding, insert, move, remove, update

rules_of("Canonical bytes")

READ = "spec_patch Read.%s"
HEADING = HEADINGS[1]
HEAD = u32(27) + HEADING
assert HEADING == b"UI_DNA2_PROJECTION_PATCH_V1" and len(HEADING) == 27


def refused(name, rule, definition, number, *sets):
    """Sets that give this number to check, list and a batch; the panel stays."""
    lines, answers = [], []
    for data in sets:
        digits = data.hex() or "-"
        lines += ["check " + digits, "list " + digits, batch(4, [], count=1, references=1, data=data)]
        answers += ["K %d" % number, "E %d" % number, "R rejected %d 4 1 1 3" % number]
    on_panel(name, rule, definition, lines, answers)


def reads(name, rule, definition, patches, panel):
    """A set that reads, applied to the panel."""
    on_panel(name, rule, definition, [batch(4, patches)], ["R applied 0 0 0 0 4"], panel=panel)


ONE = patch(1, [availability(5, 1)])
GOOD = encode_set([ONE])


def with_operations(*operations, count=None):
    """A set of one patch with these operations, given as bytes."""
    return HEAD + u32(1) + encode_head(ONE) + u32(len(operations) if count is None else count) + b"".join(operations)


# ---- the heading and the patch count

refused("read_no_bytes_10", "no bytes are too few: 10", READ % "readSet", 10, b"")
refused(
    "read_heading_length_10", "a heading length other than 27 is another heading: 10", READ % "readPatches", 10,
    u32(26) + HEADING[:26] + u32(0), u32(28) + HEADING + b"1" + u32(0), u32(0) + u32(0), u32(26) + HEADING + u32(0),
    u32(28) + HEADING + u32(0), b"\0\0\0\x1b" + HEADING + u32(0),
)
refused(
    "read_heading_letters_10", "any other letters are another heading: 10", READ % "readPatches", 10,
    u32(27) + b"V" + HEADING[1:] + u32(0), u32(27) + HEADING[:26] + b"2" + u32(0), u32(27) + HEADING.lower() + u32(0),
)
refused(
    "read_heading_cut_10", "a heading that ends early: 10", READ % "readPatches", 10, u32(27)[:3], u32(27), HEAD[:30],
    HEAD,
)
refused(
    "read_patch_count_cut_10", "a patch count of fewer than four bytes: 10", READ % "readCount", 10, HEAD + b"\0\0\0",
)
refused(
    "read_patch_count_65_is_12", "65 patches are over the capacity: 12 at the count, before what follows it",
    READ % "readCount", 12, HEAD + u32(65), HEAD + u32(2**32 - 1), HEAD + u32(65) + b"\xff" * 9,
)
refused(
    "read_patch_count_64_needs_patches", "64 patches are within the capacity; then the bytes are too few: 10",
    READ % "readCounted", 10, HEAD + u32(64),
)
on_panel(
    "read_64_patches", "64 patches can be read and applied", READ % "readCounted",
    [batch(4, [patch(n, [availability(5, n % 5)]) for n in range(1, 65)])], ["R applied 0 0 0 0 4"],
    panel=["P 4", "B 5 0 Q 2", "A 5 4", "C 9 1 T Ok", "C 9 2 S -4"], patches=64,
)

# ---- the fields of a patch

ENVELOPE = READ % "readEnvelope"
at = len(HEAD) + 4
for field, size in [("id", 8), ("stream", 8), ("document", 8), ("surface", 1), ("previous_revision", 8), ("revision", 8),
    ("epoch", 8), ("sequence", 8)]:
    refused(
        "read_%s_cut_10" % field, "a patch that ends before or inside its %s: 10" % field.replace("_", " "), ENVELOPE,
        10, *dict.fromkeys([GOOD[:at], GOOD[: at + size - 1]]),
    )
    at += size
refused(
    "read_operation_count_cut_10", "an operation count of fewer than four bytes: 10", READ % "readPatch", 10, GOOD[:at],
    GOOD[: at + 3],
)
SURFACE = len(HEAD) + 4 + 24
refused(
    "read_surface_byte_10", "the byte before an optional surface is 0 or 1, else 10", READ % "readOptional", 10,
    GOOD[:SURFACE] + b"\2" + GOOD[SURFACE + 1 :], GOOD[:SURFACE] + b"\xff" + u64(1) + GOOD[SURFACE + 1 :],
)
refused(
    "read_surface_number_cut_10", "byte 1 and too few bytes for the surface: 10", READ % "readOptional", 10,
    GOOD[:SURFACE] + b"\1" + u64(1)[:7],
)
on_panel(
    "read_with_surface", "a patch with a surface is eight bytes longer and does the same", READ % "readOptional",
    [batch(4, [ONE._replace(surface=2**64 - 1)])], ["R applied 0 0 0 0 4"],
    panel=["P 4", "B 5 0 Q 2", "A 5 1", "C 9 1 T Ok", "C 9 2 S -4"],
)
refused(
    "read_operation_count_129_is_12", "129 operations are over the capacity: 12 at the count, before what follows it",
    READ % "readPatch", 12, with_operations(count=129), with_operations(b"\xff", count=2**32 - 1),
)
refused(
    "read_operation_count_128_needs_operations",
    "128 operations are within the capacity; then the bytes are too few: 10", READ % "readPatch", 10,
    with_operations(count=128),
)

# ---- operations

OPERATION = READ % "readOperation"
refused(
    "read_operation_tag_10", "an operation's first byte is 1 to 6, else 10", OPERATION, 10,
    with_operations(b"\0" + u64(5) + b"\1"), with_operations(b"\7" + u64(5) + b"\1"),
    with_operations(b"\xff" + u64(5) + b"\1"),
)
SAMPLES = {
    "binding": binding(5, 0, quad(2)), "availability": availability(5, 1), "insert": insert(9, 3, unsigned(1), before=1),
    "update": update(9, 1, signed(-1)), "remove": remove(9, 1), "move": move(9, 1, 2),
}
for name, operation in SAMPLES.items():
    data = encode_operation(operation)
    refused(
        "read_%s_cut_10" % name, "a %s operation that ends early, at each of its bytes: 10" % name, OPERATION, 10,
        *(with_operations(data[:length], count=1) for length in range(len(data))),
    )
refused(
    "read_availability_byte_10", "an availability byte is 0 to 4, else 10", READ % "readAvailability", 10,
    with_operations(b"\2" + u64(5) + b"\5"), with_operations(b"\2" + u64(5) + b"\xff"),
)
refused(
    "read_insert_optional_byte_10", "the byte before an insert's neighbour is 0 or 1, else 10", READ % "readOptional",
    10, with_operations(b"\3" + u64(9) + u64(3) + b"\2" + u64(1) + b"\1\0"),
)
refused(
    "read_move_optional_byte_10", "the byte before a move's neighbour is 0 or 1, else 10", READ % "readOptional", 10,
    with_operations(b"\6" + u64(9) + u64(1) + b"\2" + u64(2)),
)
refused(
    "read_value_tag_10", "a value's first byte is 1 to 4, else 10", READ % "readValue", 10,
    with_operations(b"\4" + u64(9) + u64(1) + b"\0\0"), with_operations(b"\4" + u64(9) + u64(1) + b"\5" + u64(0)),
)
refused(
    "read_quad_byte_10", "a quad byte is 0 to 3, else 10", READ % "readQuad", 10,
    with_operations(b"\4" + u64(9) + u64(1) + b"\1\4"), with_operations(b"\4" + u64(9) + u64(1) + b"\1\xff"),
)
reads(
    "read_tags_are_not_enum_order",
    "value tags: 1 quad, 2 signed, 3 text, 4 unsigned, which is not the order of the Rust's enum", READ % "valueAfter",
    read_notation("patch\nupdate 9 1 U 3\nupdate 9 2 T 3"), ["P 4", "B 5 0 Q 2", "A 5 3", "C 9 1 U 3", "C 9 2 T 3"],
)
reads(
    "read_numbers_are_little_endian", "numbers stand with their low byte first", READ % "readU64",
    patches_of([update(9, 1, unsigned(0x0102030405060708)), update(9, 2, signed(-2))]),
    ["P 4", "B 5 0 Q 2", "A 5 3", "C 9 1 U 72623859790382856", "C 9 2 S -2"],
)

# ---- the end, and the whole length

refused(
    "read_bytes_left_10", "bytes left at the end: 10", READ % "ended", 10, GOOD + b"\0", GOOD + GOOD,
    HEAD + u32(0) + b"\0",
)
refused(
    "read_fewer_operations_than_counted_10", "fewer operations than counted: 10", READ % "readCounted", 10,
    with_operations(encode_operation(availability(5, 1)), count=2),
)
refused(
    "read_more_operations_than_counted_10", "more operations than counted: 10, as bytes left", READ % "ended", 10,
    with_operations(encode_operation(availability(5, 1)), encode_operation(binding(5, 0, quad(0))), count=1),
)
FULL_TEXTS = [binding(5, slot, text("x" * 160)) for slot in range(64)]
LARGEST = patches_of(FULL_TEXTS, FULL_TEXTS, FULL_TEXTS[:54] + [binding(5, 54, text("y" * 136))])
assert len(encode_set(LARGEST)) == 32768
on_panel(
    "read_32768_bytes", "a set of 32,768 bytes can be read and applied", READ % "readSet", [batch(4, LARGEST)],
    ["R applied 0 0 0 0 4"], references=183, bindings=[(5, slot) for slot in range(64)],
    panel=["P 67"] + ["B 5 %d T %s" % (slot, "y" * 136 if slot == 54 else "x" * 160) for slot in range(64)] + PANEL[2:],
)
refused(
    "read_32769_bytes_is_12", "one byte too many for a set is 12, here behind a good one", READ % "readSet", 12,
    encode_set(LARGEST) + b"\0",
)
refused(
    "read_32769_bytes_wrong_heading_is_12", "one byte too many for a set is 12, and no heading is looked at",
    READ % "readSet", 12, bytes(32769),
)
refused(
    "read_32768_bytes_malformed_10", "32,768 bytes are read, and what is wrong with them is 10", READ % "readSet", 10,
    bytes(32768),
)

# ---- 10 or 12, whichever comes first

LONG = b"\4" + u64(9) + u64(1) + b"\3" + u32(241)
BAD = b"\4" + u64(9) + u64(1) + b"\1\4"
refused(
    "read_12_before_10", "a text over its capacity before a bad quad byte: 12", "spec_patch Reader.followed", 12,
    with_operations(LONG + b"x" * 241, BAD), with_operations(LONG + b"x" * 241, count=1),
)
refused(
    "read_10_before_12", "a bad quad byte before a text over its capacity: 10", "spec_patch Reader.followed", 10,
    with_operations(BAD, LONG + b"x" * 241),
)
refused(
    "read_heading_before_count_10", "a wrong heading before a patch count over its capacity: 10",
    "spec_patch Reader.followed", 10, u32(27) + HEADING[:26] + b"2" + u32(65),
)
refused(
    "read_count_before_bytes_left_12", "an operation count over its capacity before bytes left at the end: 12",
    "spec_patch Reader.followed", 12, with_operations(count=129) + b"\0",
)
refused(
    "read_fault_of_second_patch_10", "a fault in the second patch, behind a good first one", "spec_patch Reader.many",
    10, HEAD + u32(2) + GOOD[len(HEAD) + 4 :] + encode_head(ONE) + u32(1) + BAD,
)
refused(
    "read_capacity_of_second_patch_12", "a count over its capacity in the second patch", "spec_patch Reader.many", 12,
    HEAD + u32(2) + GOOD[len(HEAD) + 4 :] + encode_head(ONE) + u32(129),
)
