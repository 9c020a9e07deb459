"""The rule behind an answer: one case at least for each rule that explain names, with its number and its figures."""

from build import patches_of, quad, score, text
from canonical import encode_set, u32
from cases_script import bad
from kit import PANEL, STARTED, batch, case, on_panel, rules_of, set_up, started
from patch import availability, binding, insert, move, remove, update

rules_of("the rule behind an answer in kit/README.md", answers="01 and kit/README.md")

STEPS = "spec_explain Explain.explainSteps"
READING = "spec_explain Locate.locate"
RULE = "spec_explain OperationRule.ruleOf"
CALL = "spec_explain Explain.explain"
LAST = 2**64 - 1
Q = quad(0)


def explain(sequence, patches, **parts):
    """An explain line; what is left out is true."""
    return batch(sequence, patches, **parts).replace("batch", "explain", 1)


def one(*operations):
    return patches_of(operations)


def told(name, rule, definition, line, answer):
    """One explain line on the panel, which stays."""
    on_panel("explain_" + name, rule, definition, [line], [answer])


GOOD = one(availability(5, 0))

# ---- none

on_panel(
    "explain_none", "a batch that applies has no reason, nor has one without patches, whatever its number; nothing is changed", STEPS,
    [explain(4, GOOD), explain(900, []), explain(4, GOOD), "apply noop 0"], ["W 0"] * 3 + ["L no-change 0 0 0 0 created 3 0"],
)
case(
    "explain_without_a_session", "without a session the answer is N", CALL, [explain(4, GOOD)] + set_up(nodes=[0] * 129) + [explain(4, GOOD)],
    ["N", "S 13", "N"],
)

# ---- steps 1 to 3

told("foreign_session", "the id that is named, and the session's own", STEPS, explain(4, GOOD, session=8), "W 1 foreign-session 8 7")
on_panel(
    "explain_closed", "a closed session", STEPS, ["apply close 0", explain(4, GOOD), explain(4, [])],
    ["L applied 0 0 0 0 closed 3 0", "W 2 closed", "W 2 closed"],
)
on_panel(
    "explain_declared_limits", "which of two declared figures is over its limit, or both; all four figures are told", STEPS,
    [explain(4, GOOD, count=9), explain(4, GOOD, stimulus=101), explain(4, GOOD, count=9, stimulus=101), explain(4, GOOD, count=8, stimulus=100)],
    [
        "W 4 declared-patches 9 8 10 100", "W 4 declared-bytes 1 8 101 100", "W 4 declared-patches-and-bytes 9 8 101 100",
        "W 5 counts-differ 8 1 1 1",
    ],
)

# ---- step 4: a heading of 31 bytes, the patch count at 31, the first patch at 35, its operation count at 92, its first operation at 96

SET = encode_set(GOOD)
assert len(SET) == 106


def changed(data, at, *put):
    return data[:at] + bytes(put) + data[at + len(put) :]


def unread(name, rule, data, answer, edition=1):
    lines = ["edition %d" % edition] * (edition != 1)
    on_panel("explain_" + name, rule, READING, lines + [explain(4, GOOD, data=data)], [answer])


unread("set_too_long", "more than 32,768 bytes, at position 0 before any reading", b"\0" * 32769, "W 12 set-too-long 0 - -")
on_panel(
    "explain_heading", "the byte of the heading that differs: its length, or a letter; a set of the other edition differs in the last", READING,
    [explain(4, GOOD, data=data) for data in (changed(SET, 0, 26), changed(SET, 4, 0x75), encode_set(GOOD, 2))],
    ["W 10 heading 0 - -", "W 10 heading 4 - -", "W 10 heading 30 - -"],
)
on_panel(
    "explain_too_few_bytes", "the field that is cut off, with the patch and the operation in which it stands", READING,
    [explain(4, GOOD, data=SET[:size]) for size in (0, 10, 33, 35, 95, 96, 100, 105)],
    [
        "W 10 too-few-bytes 0 - -", "W 10 too-few-bytes 10 - -", "W 10 too-few-bytes 31 - -", "W 10 too-few-bytes 35 0 -",
        "W 10 too-few-bytes 92 0 -", "W 10 too-few-bytes 96 0 0", "W 10 too-few-bytes 97 0 0", "W 10 too-few-bytes 105 0 0",
    ],
)
unread("operation_tag", "a tag that no operation has", changed(SET, 96, 7), "W 10 operation-tag 96 0 0")
TWO = encode_set(patches_of([availability(5, 0)], [availability(5, 1), availability(5, 2)]))
unread("second_operation_of_a_second_patch", "patch and operation are told by index from 0", changed(TWO, 177, 0), "W 10 operation-tag 177 1 1")
UPDATE = encode_set(one(update(9, 1, Q)))
on_panel(
    "explain_value_kind", "a kind that no value has, or that the first edition has not", READING,
    [explain(4, GOOD, data=changed(UPDATE, 113, kind)) for kind in (0, 5, 6)], ["W 10 value-kind 113 0 0"] * 3,
)
on_panel(
    "explain_optional", "an optional's byte other than 0 and 1: a surface, a neighbour", READING,
    [explain(4, GOOD, data=changed(SET, 59, 2)), explain(4, GOOD, data=changed(encode_set(one(insert(9, 3, Q))), 113, 255))],
    ["W 10 optional 59 0 -", "W 10 optional 113 0 0"],
)
unread("availability", "an availability byte over 4", changed(SET, 105, 5), "W 10 availability 105 0 0")
unread("quad", "a quad byte over 3", changed(UPDATE, 114, 4), "W 10 quad 114 0 0")
unread("score", "a score over 100", changed(encode_set(one(update(9, 1, score(100))), 2), 114, 101), "W 10 score 114 0 0", edition=2)


def texted(content):
    return explain(4, GOOD, data=encode_set(one(update(9, 1, text(content)))))


on_panel(
    "explain_texts", "a text that RFC 3629 forbids or that has too many characters is told at its first byte, one of too many bytes at its length",
    READING, [texted(b"\xed\xa0\x80"), texted(b"a" * 241), texted(b"a" * 161), texted(b"a" * 160)],
    ["W 10 text-not-utf8 118 0 0", "W 12 text-length 114 0 0", "W 12 text-characters 118 0 0", "W 0"],
)
unread("text_cut_off", "a text cut off lacks bytes, however long it was to be", encode_set(one(update(9, 1, text(b"a" * 241))))[:-1], "W 10 too-few-bytes 118 0 0")
unread("patch_count", "65 patches", changed(SET, 31, *u32(65)), "W 12 patch-count 31 - -")
unread("operation_count", "129 operations", changed(SET, 92, *u32(129)), "W 12 operation-count 92 0 -")
unread("bytes_left", "bytes behind the last patch", SET + b"\0\0", "W 10 bytes-left 106 - -")
told(
    "findings_of_a_patch", "the patch with findings, how many, and the first record", STEPS,
    explain(4, patches_of([availability(5, 0)], [update(9, 1, Q), update(9, 1, Q), move(9, 2, 2)])), "W 11 findings 1 2 2 2 2",
)
told(
    "findings_of_the_set", "findings between patches are the set's", STEPS, explain(4, patches_of([availability(5, 0)]) * 3),
    "W 11 findings set 2 4 1 1",
)

# ---- steps 5 to 8

on_panel(
    "explain_counts_differ", "declared and actual patches, declared and actual references", STEPS,
    [explain(4, GOOD, count=2), explain(4, GOOD, references=0), explain(4, GOOD, count=0, references=5)],
    ["W 5 counts-differ 2 1 1 1", "W 5 counts-differ 1 1 0 1", "W 5 counts-differ 0 1 5 1"],
)
case(
    "explain_references", "the references that there are, and their limit", STEPS,
    set_up(references=1) + [explain(4, one(availability(5, 0), update(9, 1, Q))), explain(4, GOOD)], ["S 0", "W 4 references 2 1", "W 0"],
)
case(
    "explain_counts_before_references", "counts that differ are told before the limit of references", STEPS,
    set_up(references=1) + [explain(4, one(availability(5, 0), update(9, 1, Q)), references=1)], ["S 0", "W 5 counts-differ 1 1 1 2"],
)
told(
    "unknown_target", "how many targets are unknown, repeats included, and where the first is", STEPS,
    explain(4, patches_of([availability(5, 0)], [binding(5, 1, Q), remove(8, 1), availability(6, 0), insert(8, 2, Q)])),
    "W 6 unknown-target 3 1 1",
)
on_panel("explain_cursor", "the number that the cursor takes", STEPS, [explain(3, GOOD), explain(5, GOOD)], ["W 7 cursor 4"] * 2)
case(
    "explain_cursor_takes_none", "after 2^64-1 there is none; Uninitialized takes every number", STEPS,
    set_up() + [explain(900, GOOD), batch(LAST, GOOD), explain(0, GOOD), explain(LAST, GOOD)],
    ["S 0", "W 0", "R applied 0 0 0 0 %d" % LAST, "W 7 cursor -", "W 7 cursor -"],
)

# ---- step 9

on_panel(
    "explain_key_present", "an insert of a key that is there, before its neighbour is looked for", RULE,
    [explain(4, one(insert(9, 1, Q))), explain(4, one(insert(9, 1, Q, before=7)))], ["W 8 key-present 0 0"] * 2,
)
on_panel(
    "explain_key_absent", "an update, a removal or a move of a key that is not there, before its neighbour is looked for", RULE,
    [explain(4, one(operation)) for operation in (update(9, 7, Q), remove(9, 7), move(9, 7), move(9, 7, 8))], ["W 8 key-absent 0 0"] * 4,
)
on_panel(
    "explain_neighbour_absent", "an insert or a move before a key that is not there", RULE,
    [explain(4, one(operation)) for operation in (insert(9, 7, Q, before=8), move(9, 1, 8))], ["W 8 neighbour-absent 0 0"] * 2,
)
told(
    "first_failing_operation", "of two operations that fail the first is named, by patch and place in it", STEPS,
    explain(4, patches_of([insert(9, 3, Q), remove(9, 3)], [update(9, 1, Q), update(9, 3, Q), insert(9, 1, Q)])), "W 8 key-absent 1 1",
)
MANY = range(1, 66)
FULL = patches_of([binding(node, 0, Q) for node in MANY[:64]] + [availability(node, 0) for node in MANY[:64]], [insert(9, key, Q) for key in range(128)])
case(
    "explain_full", "which of three tables is full; what is there can be replaced", RULE,
    set_up(nodes=MANY, bindings=[(node, 0) for node in MANY], references=256)
    + [batch(1, FULL)] + [explain(2, one(operation)) for operation in (
        binding(65, 0, Q), availability(65, 0), insert(9, 128, Q), insert(9, 5, Q), insert(9, 128, Q, before=900), binding(64, 0, quad(1)),
    )],
    [
        "S 0", "R applied 0 0 0 0 1", "W 9 bindings-full 0 0", "W 9 availabilities-full 0 0", "W 9 entries-full 0 0", "W 8 key-present 0 0",
        "W 8 neighbour-absent 0 0", "W 0",
    ],
)

# ---- the cap, and the order of the steps

case(
    "explain_withheld", "under a limit of 0 diagnostics the call tells that there is a reason, and not which", CALL,
    set_up(diagnostics=0) + [explain(4, GOOD), explain(4, GOOD, session=8), explain(4, one(remove(9, 1))), explain(4, GOOD, data=b"")],
    ["S 0", "W 0"] + ["W 0 withheld"] * 3,
)
case(
    "explain_with_a_cap_of_1", "the cap decides nothing else of the reason", CALL,
    set_up(diagnostics=1) + [explain(4, one(availability(6, 0), availability(8, 0)))], ["S 0", "W 6 unknown-target 2 0 0"],
)
on_panel(
    "explain_and_batch", "the number is the batch's, and a batch that follows is answered as without the call", CALL,
    [explain(4, one(remove(9, 7))), batch(4, one(remove(9, 7))), explain(4, GOOD), batch(4, GOOD), explain(4, GOOD)],
    ["W 8 key-absent 0 0", "R rejected 8 8 1 1 3", "W 0", "R applied 0 0 0 0 4", "W 7 cursor 5"],
    panel=["P 4", "B 5 0 Q 2", "A 5 0", "C 9 1 T Ok", "C 9 2 S -4"],
)
on_panel(
    "explain_first_step", "of two rules that a batch breaks the earlier step's is told", STEPS,
    [explain(9, GOOD, session=8, count=9), explain(9, GOOD, count=9, data=b""), explain(9, one(remove(8, 7)), count=2), explain(9, one(remove(8, 7))),
    explain(9, one(remove(9, 7)))],
    ["W 1 foreign-session 8 7", "W 4 declared-patches 9 8 10 100", "W 5 counts-differ 2 1 1 1", "W 6 unknown-target 1 0 0", "W 7 cursor 4"],
)

bad("explain_of_five_fields", "explain has six fields", "spec_replay Script.command", "explain 7 4 1 10 1")
bad("explain_of_seven_fields", "explain has six fields", "spec_replay Script.command", explain(4, GOOD) + " 0")
