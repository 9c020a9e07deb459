"""The second edition: match scores, headings, sessions that take both editions, and the converter."""

from build import hex_of, patch, patches_of, quad, read_notation, score, signed, text, unsigned
from canonical import HEADINGS, encode_head, encode_set, u32, u64
from cases_reading import LARGEST
from cases_script import bad
from chance import Chance
from checks import findings
from kit import PANEL, PANEL_SET, STARTED, batch, case, check, listed, on_panel, rules_of, set_up, started
from kit import answered, random_case
from patch import availability, binding, insert, move, operations_of, remove, update
from projection import Projection
from random_sets import COLLECTIONS, NODES, SLOTS, operations

rules_of("Job 13 in document 02", answers="02")

SCORE = "spec_patch Read.readScore"
KINDS = "spec_patch Edition.addedKinds and Read.inEdition"
HEADING = "spec_patch Edition.digit and Encode.heading"
PRINTED = "spec_listing Listing.valueFields"
TOLD = "spec_replay Replay.withEdition"
CONVERT = "spec_conversion Conversion.convert"
BATCH = "spec_session Batch.batch"
SECOND = HEADINGS[2]
assert SECOND == b"UI_DNA2_PROJECTION_PATCH_V2" and len(SECOND) == 27
ONE = patch(1, [availability(5, 1)])


def with_operations(edition, *made, count=None):
    """A set of one patch with these operations, given as bytes."""
    head = u32(27) + HEADINGS[edition] + u32(1) + encode_head(ONE)
    return head + u32(len(made) if count is None else count) + b"".join(made)


def refused(name, rule, definition, edition, number, *sets):
    """Sets that give this number to check, list, a batch and the converter, told this edition; the panel stays."""
    lines, answers = ["edition %d" % edition], []
    for data in sets:
        digits = data.hex() or "-"
        lines += [
            "check " + digits, "list " + digits, batch(4, [], count=1, references=1, data=data), "convert 32768 " + digits,
        ]
        answers += ["K %d" % number, "E %d" % number, "R rejected %d 4 1 1 3" % number, "T %d" % number]
    on_panel(name, rule, definition, lines, answers)


def scored(byte):
    """A value of kind 5 as bytes, in each operation that has a value."""
    value = b"\5" + bytes([byte])
    return {
        "binding": b"\1" + u64(5) + u32(0) + value, "insert": b"\3" + u64(9) + u64(3) + b"\0" + value,
        "update": b"\4" + u64(9) + u64(1) + value,
    }


LONG = b"\4" + u64(9) + u64(1) + b"\3" + u32(241) + b"x" * 241

# ---- scores

for byte in (0, 100):
    for name, made, alone, panel in [
        ("binding", binding(5, 1, score(byte)), ["P 1", "B 5 1 M %d" % byte],
            ["P 5", "B 5 0 Q 2", "B 5 1 M %d" % byte, "A 5 3", "C 9 1 T Ok", "C 9 2 S -4"]),
        ("insert", insert(9, 3, score(byte)), ["P 1", "C 9 3 M %d" % byte],
            ["P 5", "B 5 0 Q 2", "A 5 3", "C 9 1 T Ok", "C 9 2 S -4", "C 9 3 M %d" % byte]),
        ("update", update(9, 2, score(byte)), ["E 8"], ["P 4", "B 5 0 Q 2", "A 5 3", "C 9 1 T Ok", "C 9 2 M %d" % byte]),
    ]:
        sent = patches_of([made])
        assert encode_set(sent, 2).endswith(bytes([5, byte]))
        on_panel(
            "score_%d_in_%s" % (byte, name), "a score of %d can stand in a %s and prints as M" % (byte, name), SCORE,
            ["edition 2", check(sent, 2), listed(sent, 2), batch(4, sent, edition=2)],
            ["K 0 set 0"] + alone + ["R applied 0 0 0 0 4"], panel=panel,
        )
for byte in (101, 255):
    for name, made in scored(byte).items():
        refused("score_%d_in_%s_10" % (byte, name), "a score above 100 is 10", SCORE, 2, 10, with_operations(2, made))
refused(
    "score_bytes_above_100_10", "every byte above 100 is 10", SCORE, 2, 10,
    *(with_operations(2, scored(byte)["update"]) for byte in (102, 127, 128, 200, 254)),
)
refused(
    "score_cut_10", "kind 5 and no byte behind it is too few bytes: 10", SCORE, 2, 10,
    *(with_operations(2, made[:-1]) for made in scored(0).values()),
)
refused(
    "score_of_eight_bytes_10", "a score is one byte; what stands behind it is bytes left, or no operation: 10", SCORE, 2, 10,
    with_operations(2, scored(7)["update"] + bytes(7)),
    with_operations(2, scored(7)["update"] + bytes(7), scored(7)["binding"]),
)
refused(
    "score_in_v1_10", "any score in V1 is 10, whatever its byte", KINDS, 1, 10,
    *(with_operations(1, made) for byte in (0, 50, 100, 101) for made in scored(byte).values()),
)
refused(
    "score_in_v1_at_its_kind_10", "V1 has no kind 5: 10 at the kind's byte, also where nothing follows it", KINDS, 1, 10,
    with_operations(1, scored(0)["binding"][:-1]), with_operations(1, scored(0)["update"], LONG),
)
refused(
    "score_in_v1_behind_12", "a text too long before a score in V1: 12 comes first in reading", KINDS, 1, 12,
    with_operations(1, LONG, scored(0)["update"]),
)
refused(
    "score_101_before_12_gives_10", "a score above 100 before a text too long: 10 comes first in reading", SCORE, 2, 10,
    with_operations(2, scored(101)["binding"], LONG),
)
refused(
    "score_101_behind_12_gives_12", "a text too long before a score above 100: 12 comes first in reading", SCORE, 2, 12,
    with_operations(2, LONG, scored(101)["binding"]),
)
refused(
    "edition_2_value_kinds_10", "V2 has the value kinds 1 to 5; any other is 10", KINDS, 2, 10,
    *(with_operations(2, b"\4" + u64(9) + u64(1) + bytes([kind, 0])) for kind in (0, 6, 7, 255)),
)
on_panel(
    "score_every_value", "0 to 100 are 101 different scores", SCORE,
    ["edition 2"] + [line for n in range(101) for line in (batch(4 + n, patches_of([update(9, 2, score(n))]), edition=2),
    "value entry 9 2")],
    [line for n in range(101) for line in ("R applied 0 0 0 0 %d" % (4 + n), "V M %d" % n)],
    panel=["P 4", "B 5 0 Q 2", "A 5 3", "C 9 1 T Ok", "C 9 2 M 100"],
)
case(
    "score_prints_as_m", "list, show and value print a score as M and its decimal; 7 as U, as S and as M are three values",
    PRINTED,
    set_up() + ["edition 2"]
    + [line(patches_of([
        binding(5, 0, score(7)), binding(5, 1, unsigned(7)), insert(9, 1, score(7)), insert(9, 2, signed(7)),
        insert(9, 3, unsigned(7)),
    ])) for line in (lambda sent: listed(sent, 2), lambda sent: batch(1, sent, edition=2))]
    + ["show", "value binding 5 0", "value entry 9 1", "value entry 9 2"],
    ["S 0", "P 5", "B 5 0 M 7", "B 5 1 U 7", "C 9 1 M 7", "C 9 2 S 7", "C 9 3 U 7", "R applied 0 0 0 0 1"]
    + ["P 5", "B 5 0 M 7", "B 5 1 U 7", "C 9 1 M 7", "C 9 2 S 7", "C 9 3 U 7", "V M 7", "V M 7", "V S 7"],
)

# ---- headings

V1_PANEL, V2_PANEL = encode_set(PANEL_SET, 1), encode_set(PANEL_SET, 2)
assert V2_PANEL == V1_PANEL[:30] + b"2" + V1_PANEL[31:] and len(V2_PANEL) == 181
refused(
    "edition_2_refuses_v1_heading_10", "V1's heading is 10 where V2 is told, and nothing behind it is read", HEADING, 2, 10,
    encode_set([]), V1_PANEL, u32(27) + HEADINGS[1] + u32(65),
)
refused(
    "edition_1_refuses_v2_heading_10", "V2's heading is 10 where V1 is told, and nothing behind it is read", HEADING, 1, 10,
    encode_set([], 2), V2_PANEL, u32(27) + SECOND + u32(65),
)
refused(
    "edition_2_other_headings_10", "any heading but V2's is 10", HEADING, 2, 10,
    *(
        u32(27) + letters + u32(0)
        for letters in (SECOND[:26] + b"3", SECOND[:26] + b"0", SECOND.lower(), SECOND[:25] + b"v2", b"V" + SECOND[1:])
    ),
    u32(26) + SECOND[:26] + u32(0), u32(28) + SECOND + b"2" + u32(0), u32(26) + SECOND + u32(0), u32(27) + SECOND[:26], b"",
)
case(
    "edition_in_force", "check and list read in the edition that was told last; at the start it is V1", TOLD,
    [
        check(PANEL_SET), check(PANEL_SET, 2), "edition 2", check(PANEL_SET), check(PANEL_SET, 2), listed(PANEL_SET),
        listed(PANEL_SET, 2),
    ]
    + ["edition 2", listed([], 2), "edition 1", check(PANEL_SET), check(PANEL_SET, 2), listed(PANEL_SET)],
    ["K 0 set 0", "K 10", "K 10", "K 0 set 0", "E 10"] + PANEL + ["P 0", "K 0 set 0", "K 10"] + PANEL,
)
case(
    "edition_stays_in_force", "a new set-up, a creation and 13 leave the edition", TOLD,
    ["edition 2"] + set_up() + [batch(3, PANEL_SET, edition=2), "session 8 0 0 0 0"]
    + ["node %d" % node for node in range(1, 130)]
    + ["create", check(PANEL_SET, 2)] + set_up() + [batch(1, PANEL_SET), batch(1, PANEL_SET, edition=2), "show"],
    STARTED + ["S 13", "K 0 set 0", "S 0", "R rejected 10 4 1 1 -", "R applied 0 0 0 0 1"] + PANEL,
)
case(
    "edition_needs_no_session", "the edition can be told before there is a session, and prints nothing", TOLD,
    ["edition 2", "edition 1", "edition 2", "show", listed(PANEL_SET, 2)], ["N"] + PANEL,
)

# ---- everything else is V1's

SAME = read_notation("""
patch id=11 stream=3 document=4 surface=5 previous=6 revision=7 epoch=8 sequence=9
binding 5 1 S -9223372036854775808
insert 9 3 before 1 T zwei Wörter
update 9 2 Q 3
availability 5 4
patch id=12 stream=3 document=4 previous=7 revision=9 epoch=8 sequence=10
move 9 1
remove 9 2
insert 9 4 U 18446744073709551615
""")
AFTER = [
    "P 6", "B 5 0 Q 2", "B 5 1 S -9223372036854775808", "A 5 4", "C\t9\t3\tT\tzwei Wörter".encode(), "C 9 1 T Ok",
    "C 9 4 U 18446744073709551615",
]
case(
    "edition_2_lays_out_the_rest_alike", "the same patches in V1 and in V2 do the same", "spec_patch Encode.encode",
    ["# V1"] + started() + [batch(4, SAME), "show", "edition 2", "# V2"] + set_up()
    + [batch(3, PANEL_SET, edition=2), batch(4, SAME, edition=2), "show"],
    (STARTED + ["R applied 0 0 0 0 4"] + AFTER) * 2,
)
FOUND = [patch(0, [], stream=0, previous=4, revision=4)]
case(
    "edition_2_findings", "the patch checks find the same in V2", "spec_checks Findings.findings",
    ["edition 2", check(FOUND, 2), check([ONE, ONE._replace(epoch=2), ONE], 2), listed(FOUND, 2)],
    ["K 0 0 4", "F 6 0 0", "F 10 0 0", "F 13 0 0", "F 14 0 0", "K 0 set 3", "F 4 1 1", "F 5 1 1", "F 8 1 1", "E 11"],
)
refused(
    "edition_2_capacities_12", "V2 has V1's capacities: patches, operations, bytes and characters of a text",
    "spec_patch Read.readSet", 2, 12,
    u32(27) + SECOND + u32(65), with_operations(2, count=129), with_operations(2, LONG),
    with_operations(2, LONG[:-245] + u32(161) + b"x" * 161),
    encode_set(LARGEST, 2) + b"\0", bytes(32769),
)
refused(
    "edition_2_malformed_10", "V2 has V1's rules on bytes: text, tags, lengths and bytes left", "spec_patch Read.readSet", 2,
    10,
    with_operations(2, LONG[:-245] + u32(3) + b"\xed\xa0\x80"), with_operations(2, LONG[:-1]),
    with_operations(2, b"\7" + u64(5) + b"\1"),
    with_operations(2, b"\4" + u64(9) + u64(1) + b"\1\4"), encode_set([ONE], 2) + b"\0", encode_set([ONE], 2)[:-1], u32(27)
    + SECOND + u32(64),
)
for number, rule, parts, begun in [
    (1, "another session (1) comes before the reading", dict(session=8), []),
    (2, "a closed session (2) comes before the reading", {}, ["apply close 0"]),
    (4, "a limit that is passed (4) comes before the reading", dict(stimulus=101), []),
]:
    stage, lifecycle = {1: 1, 2: 2, 4: 4}[number], "closed" if begun else "created"
    on_panel(
        "edition_2_%d_before_10" % number, rule, BATCH, begun + ["edition 2", batch(4, PANEL_SET, **parts), "apply noop 0"],
        ["L applied 0 0 0 0 closed 3 0"] * len(begun) + ["R rejected %d %d 1 1 3" % (number, stage)]
        + ["L %s created 3 0" % "no-change 0 0 0 0" if not begun else "L rejected 2 2 1 1 closed 3 0"],
    )
on_panel(
    "edition_2_later_steps", "findings 11, counts 5, targets 6, the cursor 7 and an operation 8, with scores in the set",
    BATCH,
    ["edition 2", batch(4, patches_of([update(9, 1, score(1)), update(9, 1, score(2))]), edition=2)]
    + [
        batch(4, patches_of([update(9, 1, score(1))]), references=2, edition=2),
        batch(4, patches_of([binding(6, 0, score(1))]), edition=2),
    ]
    + [
        batch(5, patches_of([update(9, 1, score(1))]), edition=2),
        batch(4, patches_of([update(9, 1, score(1))], [update(9, 7, score(2))]), edition=2),
    ],
    [
        "R rejected 11 4 1 1 3", "R rejected 5 4 1 1 3", "R rejected 6 5 1 1 3", "R rejected 7 6 1 1 3",
        "R rejected 8 8 1 1 3",
    ],
)
on_panel(
    "edition_2_empty_set", "the empty set of V2 has 35 bytes and answers NoChange", BATCH,
    ["edition 2", batch(900, [], edition=2), check([], 2), listed([], 2), batch(4, [])],
    ["R no-change 0 0 0 0 3", "K 0 set 0", "P 0", "R rejected 10 4 1 1 3"],
)
assert len(encode_set([], 2)) == 35

# ---- a session takes batches of both editions

MIXED = [
    (
        2, "patch\nupdate 9 1 M 100\nbinding 5 1 M 0\ninsert 9 3 M 55",
        ["P 6", "B 5 0 Q 2", "B 5 1 M 0", "A 5 3", "C 9 1 M 100", "C 9 2 S -4", "C 9 3 M 55"]
    ),
    (
        1, "patch\navailability 5 0\nmove 9 3 before 1",
        ["P 6", "B 5 0 Q 2", "B 5 1 M 0", "A 5 0", "C 9 3 M 55", "C 9 1 M 100", "C 9 2 S -4"]
    ),
    (
        1, "patch\nupdate 9 1 T V1\nremove 9 3\nbinding 5 0 U 1",
        ["P 5", "B 5 0 U 1", "B 5 1 M 0", "A 5 0", "C 9 1 T V1", "C 9 2 S -4"]
    ),
    (
        2, "patch\ninsert 9 4 before 1 T V2\nupdate 9 2 M 1",
        ["P 6", "B 5 0 U 1", "B 5 1 M 0", "A 5 0", "C 9 4 T V2", "C 9 1 T V1", "C 9 2 M 1"]
    ),
    (1, "patch\nbinding 5 1 Q 0", ["P 6", "B 5 0 U 1", "B 5 1 Q 0", "A 5 0", "C 9 4 T V2", "C 9 1 T V1", "C 9 2 M 1"]),
]
case(
    "edition_both_on_one_session",
    "a session has no edition: V1 batches on a session that holds scores, and V2 batches on one that took V1", BATCH,
    started() + [
        line for number, (edition, sent, _) in enumerate(MIXED, 4)
        for line in ("edition %d" % edition, batch(number, read_notation(sent), edition=edition), "show")
    ],
    STARTED + [line for number, (_, _, panel) in enumerate(MIXED, 4) for line in ["R applied 0 0 0 0 %d" % number] + panel],
)
HELD = ["P 4", "B 5 0 Q 2", "A 5 3", "C 9 1 M 42", "C 9 2 S -4"]
on_panel(
    "edition_1_refusal_leaves_scores", "a V1 batch that is refused leaves the scores that the session holds", BATCH,
    ["edition 2", batch(4, patches_of([update(9, 1, score(42))]), edition=2), "edition 1"]
    + [
        batch(5, patches_of([update(9, 1, quad(0))], [remove(9, 7)])), batch(5, patches_of([update(9, 1, score(43))])),
        "value entry 9 1",
    ],
    ["R applied 0 0 0 0 4", "R rejected 8 8 1 1 4", "R rejected 10 4 1 1 4", "V M 42"], panel=HELD,
)
WHOLE = patches_of(
    [insert(9, 3, score(100)), update(9, 1, score(0))], [update(9, 3, score(1)), move(9, 1)],
    [remove(9, 2), binding(5, 1, score(99))],
)
SPLIT = ["P 5", "B 5 0 Q 2", "B 5 1 M 99", "A 5 3", "C 9 3 M 1", "C 9 1 M 0"]
case(
    "edition_2_whole_and_pieces", "whole and pieces in V2, each call told V2, end alike",
    "spec_splitting Splitting; session_splitting Claim",
    started() + ["edition 2", batch(4, WHOLE, edition=2), "show", "edition 1"] + started() + ["edition 2"]
    + [batch(4 + at, [piece], edition=2) for at, piece in enumerate(WHOLE)] + ["show"],
    STARTED + ["R applied 0 0 0 0 4"] + SPLIT + STARTED + ["R applied 0 0 0 0 %d" % n for n in (4, 5, 6)] + SPLIT,
)

# ---- the converter

EMPTY = {
    1: "1b000000" "55495f444e41325f50524f4a454354494f4e5f50415443485f5631" "00000000",
    2: "1b000000" "55495f444e41325f50524f4a454354494f4e5f50415443485f5632" "00000000",
}
assert all(hex_of([], edition) == digits for edition, digits in EMPTY.items())


def other_letter(digits, edition):
    """The set with the last letter of its heading changed, byte 30."""
    assert digits[60:62] == "3%d" % edition
    return digits[:60] + "3%d" % (3 - edition) + digits[62:]


def converts(name, rule, *sets, room=32768):
    """Sets that turn into V2, and back into the very same bytes; the panel stays."""
    lines, answers = [], []
    for patches in sets:
        first, second = hex_of(patches), other_letter(hex_of(patches), 1)
        lines += ["edition 1", "convert %d %s" % (room, first), "edition 2", "convert %d %s" % (room, second)]
        answers += ["T 0 " + second, "T 0 " + first]
    on_panel("convert_" + name, rule, CONVERT, lines, answers)


on_panel(
    "convert_empty_set", "the empty set turns into the other edition's empty set: one letter changes", CONVERT,
    ["convert 35 " + EMPTY[1], "edition 2", "convert 35 " + EMPTY[2]], ["T 0 " + EMPTY[2], "T 0 " + EMPTY[1]],
)
converts("both_ways", "any set without a score turns into V2 and back into its own bytes", PANEL_SET, SAME, [ONE])
converts("full_set", "a set of 32,768 bytes can be converted both ways", LARGEST)
converts(
    "64_patches_and_128_operations", "sets at their capacities can be converted both ways", [
        patch(n, [availability(5, n % 5)]) for n in range(1, 65)
    ],
    patches_of([insert(9, key, unsigned(5)) for key in range(128)]),
)
converts(
    "without_patch_checks", "no patch checks are made: sets with findings are converted", FOUND, [ONE, ONE, ONE],
    [patch(1, [])],
)
converts("fives_that_are_no_scores", "the byte 5 in a number, a key or a text is no score", patches_of([
    binding(5, 5, unsigned(5)), insert(5, 5, text(b"\5\5\5"), before=4), remove(5, 5),
    update(5, 5, signed(0x0505050505050505)), move(5, 5),
]))
case(
    "convert_needs_no_session", "the converter needs no session", CONVERT,
    ["convert 35 " + EMPTY[1], "edition 2", "convert 35 " + EMPTY[2], "show"], ["T 0 " + EMPTY[2], "T 0 " + EMPTY[1], "N"],
)
case(
    "convert_leaves_the_edition", "the edition in force stays: the same line converts again, and its result does not",
    CONVERT,
    ["convert 35 " + EMPTY[1], "convert 35 " + EMPTY[1], "convert 35 " + EMPTY[2], check(PANEL_SET)], ["T 0 " + EMPTY[2]] * 2
    + ["T 10", "K 0 set 0"],
)
RESULT = other_letter(hex_of(SAME), 1)
on_panel(
    "convert_result_does_the_same", "what the converter gives is read in the other edition as the same patches", CONVERT,
    ["convert 32768 " + hex_of(SAME), "edition 2", batch(4, SAME, data=bytes.fromhex(RESULT))],
    ["T 0 " + RESULT, "R applied 0 0 0 0 4"], panel=AFTER,
)


def eighteen(name, rule, *sets, room=32768, number=18):
    on_panel(
        "convert_" + name, rule, CONVERT, ["edition 2"] + ["convert %d %s" % (room, data.hex()) for data in sets],
        ["T %d" % number] * len(sets),
    )


eighteen(
    "score_18", "a score in any operation on the way to V1 is 18, also 0",
    *(with_operations(2, made) for byte in (0, 100) for made in scored(byte).values()),
)
eighteen(
    "score_of_a_later_patch_18", "a score in the last operation of the last patch is 18", encode_set(WHOLE, 2),
    encode_set(SAME + patches_of([remove(9, 1), update(9, 4, score(1))]), 2),
)
eighteen(
    "score_with_findings_18", "no patch checks are made before 18",
    encode_set([patch(1, [update(9, 1, score(1)), update(9, 1, score(1))], id=0)], 2),
)
eighteen("score_before_14_is_18", "18 comes before 14", with_operations(2, scored(5)["update"]), room=0)
eighteen(
    "score_behind_10", "10 comes before 18, wherever the fault stands", with_operations(2, scored(5)["update"]) + b"\0",
    with_operations(2, scored(5)["update"], scored(101)["binding"]),
    with_operations(2, scored(5)["update"], count=2), with_operations(1, scored(5)["update"]), number=10,
)
eighteen(
    "score_behind_12", "12 comes before 18, wherever the fault stands", with_operations(2, scored(5)["update"], LONG),
    with_operations(2, scored(5)["update"]) + bytes(32768), number=12,
)
on_panel(
    "convert_rooms", "an output of just the set's length will do, one byte less is 14", CONVERT,
    ["convert %d %s" % (room, hex_of(PANEL_SET)) for room in (181, 182, 180, 35, 0)] + ["edition 2"]
    + ["convert %d %s" % (room, hex_of(PANEL_SET, 2)) for room in (181, 180)]
    + ["convert 34 " + EMPTY[2], "convert 35 " + EMPTY[2]],
    ["T 0 " + hex_of(PANEL_SET, 2)] * 2 + ["T 14"] * 3 + ["T 0 " + hex_of(PANEL_SET), "T 14", "T 14", "T 0 " + EMPTY[1]],
)
on_panel(
    "convert_full_set_14", "a set of 32,768 bytes needs all of them", CONVERT,
    ["convert 32767 " + hex_of(LARGEST), "edition 2", "convert 32767 " + hex_of(LARGEST, 2)], ["T 14"] * 2,
)
on_panel(
    "convert_reading_before_14", "10 and 12 come before 14", CONVERT,
    ["convert 0 -", "convert 0 " + EMPTY[2], "convert 0 " + (u32(27) + HEADINGS[1] + u32(65)).hex(), "convert 0 "
    + "00" * 32769], ["T 10", "T 10", "T 12", "T 12"],
)

# ---- a random run

BEGIN = set_up(patches=16, references=600, nodes=NODES, bindings=SLOTS, collections=COLLECTIONS)


def with_scores(chance, made):
    """Some of the values turned into scores."""
    if not hasattr(made, "value") or chance.once_in(2):
        return made
    return made._replace(value=score(chance.below(101)))


def run_of_editions(seed, batches):
    """Batches of both editions on one session; and the same with each score as U, all in V1."""
    chance, lines, plain = Chance(seed), list(BEGIN), list(BEGIN)
    projection = Projection()
    for number in range(1, batches + 1):
        made, projection = operations(chance, projection, 6, 9, 10**9)
        edition = chance.between(1, 2)
        sent = patches_of([with_scores(chance, one) if edition == 2 else one for one in made])
        assert not findings(sent)[1]
        alike = [
            one._replace(value=unsigned(one.value[1])) if getattr(one, "value", (0, 0))[0] == 5 else one
            for one in operations_of(sent)
        ]
        lines += ["edition %d" % edition, batch(number, sent, edition=edition), "show"]
        plain += [batch(number, patches_of(alike)), "show"]
    return lines, plain


MANY, PLAIN = run_of_editions(13, 60)
ANSWERED = random_case(
    "edition_random_run", "60 random batches of both editions on one session, the panel shown after each", BATCH, MANY,
)
UNSCORED = answered("".join(line + "\n" for line in PLAIN).encode())
assert ANSWERED.count(b"\tM\t") > 100 and ANSWERED.count(b"applied") == 60
assert ANSWERED.replace(b"\tM\t", b"\tU\t") == UNSCORED

# ---- the script

for name, line in [
    ("edition_missing", "edition"), ("edition_empty", "edition "), ("edition_0", "edition 0"), ("edition_3", "edition 3"),
    ("edition_01", "edition 01"),
    ("edition_v2", "edition V2"), ("edition_twice", "edition 2 2"), ("edition_upper_case", "Edition 2"),
    ("edition_21", "edition 21"),
]:
    bad(name, "edition has one field, 1 or 2", "spec_replay Script.edition", line)
for name, line in [
    ("missing_hex", "convert 35"), ("missing_room", "convert " + EMPTY[1]), ("extra_field", "convert 35 - -"),
    ("room_32769", "convert 32769 -"),
    ("room_leading_zero", "convert 035 -"), ("room_dash", "convert - -"), ("room_2_64", "convert 18446744073709551616 -"),
    ("hex_odd", "convert 35 1b0"),
    ("hex_upper_case", "convert 35 1B00"), ("hex_empty", "convert 35 "), ("alone", "convert"),
]:
    bad(
        "convert_" + name, "convert has a room of at most 32,768 bytes, and hex", "spec_replay Script.convertArguments",
        line,
    )
