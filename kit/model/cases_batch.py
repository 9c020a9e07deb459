"""One batch, steps 1 to 6: session, lifecycle, limits, bytes, counts."""

from build import patch, patches_of, quad, text, unsigned
from canonical import encode_set
from kit import batch, case, on_panel, rules_of, set_up
from patch import availability, binding, update
from sizes import LAST_U64

rules_of("One batch, from entry to leaf")

STEP = "spec_session Batch.batchChecks, step %d"
ONE = patches_of([availability(5, 1)])
TWO = patches_of([availability(5, 1)], [availability(5, 2)])
APPLIED = "R applied 0 0 0 0 4"


def panel_with(byte):
    """The panel after node 5's availability was set."""
    return ["P 4", "B 5 0 Q 2", "A 5 %d" % byte, "C 9 1 T Ok", "C 9 2 S -4"]


# ---- step 1

on_panel(
    "step1_own_session_passes", "a batch that names its session passes", STEP % 1, [batch(4, ONE)], [APPLIED],
    panel=panel_with(1),
)
on_panel(
    "step1_foreign_session_1", "another session id gives 1", STEP % 1, [batch(4, ONE, session=8)],
    ["R rejected 1 1 1 1 3"],
)
on_panel(
    "step1_session_0_is_foreign", "0 stands for no session of its own", STEP % 1, [batch(4, ONE, session=0)],
    ["R rejected 1 1 1 1 3"],
)
on_panel(
    "step1_empty_batch_foreign_session_1", "a batch without patches is held to step 1 too", STEP % 1,
    [batch(4, [], session=8)], ["R rejected 1 1 1 1 3"],
)

# ---- step 2

on_panel(
    "step2_created_takes_batches", "a Created session takes batches", STEP % 2, ["apply noop 0", batch(4, ONE)],
    ["L no-change 0 0 0 0 created 3 0", APPLIED], panel=panel_with(1),
)
on_panel(
    "step2_active_takes_batches", "an Active session takes batches", STEP % 2, ["apply activate 0", batch(4, ONE)],
    ["L applied 0 0 0 0 active 3 0", APPLIED], panel=panel_with(1),
)
on_panel(
    "step2_suspended_takes_batches", "a Suspended session takes batches", STEP % 2,
    ["apply activate 0", "apply suspend 0", batch(4, ONE)],
    ["L applied 0 0 0 0 active 3 0", "L applied 0 0 0 0 suspended 3 0", APPLIED], panel=panel_with(1),
)
on_panel(
    "step2_closed_2", "a Closed session refuses every batch with 2", STEP % 2,
    ["apply close 0", batch(4, ONE), batch(9, [])],
    ["L applied 0 0 0 0 closed 3 0", "R rejected 2 2 1 1 3", "R rejected 2 2 1 1 3"],
)

# ---- step 3

on_panel(
    "step3_patch_limit_equal_passes", "a patch count equal to its limit passes", STEP % 3, [batch(4, TWO)], [APPLIED],
    panel=panel_with(2), patches=2,
)
on_panel(
    "step3_patch_limit_one_over_4", "a patch count one over its limit gives 4", STEP % 3, [batch(4, TWO)],
    ["R rejected 4 4 1 1 3"], patches=1,
)
on_panel(
    "step3_bytes_equal_pass", "stimulus bytes equal to their limit pass", STEP % 3, [batch(4, ONE, stimulus=100)],
    [APPLIED], panel=panel_with(1),
)
on_panel(
    "step3_bytes_one_over_4", "stimulus bytes one over their limit give 4", STEP % 3, [batch(4, ONE, stimulus=101)],
    ["R rejected 4 4 1 1 3"],
)
on_panel(
    "step3_two_limits_passed_together", "both limits passed at once are one rejection with one diagnostic", STEP % 3,
    [batch(4, TWO, stimulus=101)], ["R rejected 4 4 1 1 3"], patches=1,
)
on_panel(
    "step3_looks_at_declared_count",
    "step 3 looks at the declared count: over the limit it is 4, though the set has one patch", STEP % 3,
    [batch(4, ONE, count=9)], ["R rejected 4 4 1 1 3"],
)
on_panel(
    "step3_false_count_within_limit_is_5", "a false count within the limit passes step 3 and is met at step 5",
    STEP % 3, [batch(4, TWO, count=1)], ["R rejected 5 4 1 1 3"], patches=1,
)
on_panel(
    "step3_bytes_are_not_counted", "the byte figure is declared and never held against the set's length", STEP % 3,
    [batch(4, ONE, stimulus=0)], [APPLIED], panel=panel_with(1),
)
case(
    "step3_patch_limit_0", "a patch limit of 0 lets only batches without patches pass", STEP % 3,
    set_up(patches=0) + [batch(4, ONE), batch(4, []), "show"],
    ["S 0", "R rejected 4 4 1 1 -", "R no-change 0 0 0 0 -", "P 0"],
)
case(
    "step3_byte_limit_0", "a byte limit of 0 lets only 0 pass", STEP % 3,
    set_up(stimulus=0) + [batch(4, ONE, stimulus=0), "show", batch(5, ONE, stimulus=1), "show"],
    ["S 0", "R applied 0 0 0 0 4", "P 1", "A 5 1", "R rejected 4 4 1 1 4", "P 1", "A 5 1"],
)
on_panel(
    "step3_limits_of_2_64_1_refuse_nothing", "limits of 2^64-1 refuse nothing; the count is then met at step 5",
    STEP % 3, [batch(4, ONE, count=LAST_U64, stimulus=LAST_U64), batch(4, ONE, stimulus=LAST_U64)],
    ["R rejected 5 4 1 1 3", APPLIED], panel=panel_with(1), stimulus=LAST_U64, patches=LAST_U64,
)

# ---- step 4; cases_reading has each fault of the bytes

LOOSE = encode_set(ONE) + b"\0"
FOUND = [patch(1, [availability(5, 1)], previous=2, revision=2)]
on_panel(
    "step4_malformed_10", "bytes that do not read give 10", STEP % 4, [batch(4, ONE, data=LOOSE)],
    ["R rejected 10 4 1 1 3"],
)
on_panel(
    "step4_over_capacity_12", "a count over its capacity gives 12", STEP % 4,
    [batch(4, patches_of([binding(5, 0, text("x" * 161))]))], ["R rejected 12 4 1 1 3"],
)
on_panel(
    "step4_findings_11", "a set that reads and has a finding gives 11", STEP % 4, [batch(4, FOUND)],
    ["R rejected 11 4 1 1 3"],
)
on_panel(
    "step4_reading_before_checks",
    "all bytes are read before the patch checks: 10 at the end wins over a finding in front", STEP % 4,
    [batch(4, FOUND, data=encode_set(FOUND) + b"\0")], ["R rejected 10 4 1 1 3"],
)
on_panel(
    "step4_many_findings_one_diagnostic", "however many findings there are, 11 has logical count 1", STEP % 4,
    [batch(4, [patch(1, [availability(5, 1)] * 4, stream=0, previous=2, revision=2)])], ["R rejected 11 4 1 1 3"],
)
on_panel(
    "step4_no_bytes_10", "no bytes at all are no set: 10, also with patch count 0", STEP % 4, [batch(4, [], data=b"")],
    ["R rejected 10 4 1 1 3"],
)

# ---- step 5

on_panel(
    "step5_patch_count_too_high_5", "a declared patch count above the actual one gives 5", STEP % 5,
    [batch(4, ONE, count=2)], ["R rejected 5 4 1 1 3"],
)
on_panel(
    "step5_patch_count_too_low_5", "a declared patch count below the actual one gives 5", STEP % 5,
    [batch(4, TWO, count=1)], ["R rejected 5 4 1 1 3"],
)
on_panel(
    "step5_patch_count_0_for_a_patch_5", "a declared 0 does not make a batch with a patch a NoChange", STEP % 5,
    [batch(4, ONE, count=0), batch(4, ONE, count=0, references=0)], ["R rejected 5 4 1 1 3", "R rejected 5 4 1 1 3"],
)
on_panel(
    "step5_patch_count_1_for_none_5", "a declared 1 for the empty set gives 5", STEP % 5, [batch(4, [], count=1)],
    ["R rejected 5 4 1 1 3"],
)
on_panel(
    "step5_references_too_high_5", "a declared reference count above the actual one gives 5", STEP % 5,
    [batch(4, TWO, references=3)], ["R rejected 5 4 1 1 3"],
)
on_panel(
    "step5_references_too_low_5", "a declared reference count below the actual one gives 5", STEP % 5,
    [batch(4, TWO, references=1)], ["R rejected 5 4 1 1 3"],
)
on_panel(
    "step5_both_counts_differ_one_diagnostic", "both counts false are one rejection with one diagnostic", STEP % 5,
    [batch(4, TWO, count=1, references=1)], ["R rejected 5 4 1 1 3"],
)
on_panel(
    "step5_references_are_operations_of_all_patches", "references are counted over the operations of every patch",
    STEP % 5, [batch(4, TWO, references=2)], [APPLIED], panel=panel_with(2),
)

# ---- step 6

FOUR = patches_of([availability(5, 1), binding(5, 0, quad(1)), update(9, 1, unsigned(1))], [update(9, 2, unsigned(2))])
AFTER_FOUR = ["P 4", "B 5 0 Q 1", "A 5 1", "C 9 1 U 1", "C 9 2 U 2"]
FIVE = FOUR[:1] + [patch(2, [update(9, 2, unsigned(2)), update(9, 1, unsigned(3))])]
on_panel(
    "step6_references_equal_limit_pass", "target references equal to their limit pass", STEP % 6, [batch(4, FOUR)],
    [APPLIED], panel=AFTER_FOUR, references=4,
)
on_panel(
    "step6_references_one_over_4", "target references one over their limit give 4", STEP % 6, [batch(4, FIVE)],
    ["R rejected 4 4 1 1 3"], references=4,
)
on_panel(
    "step6_looks_at_actual_count", "a small declared count does not help: it differs from the actual one (5)", STEP % 6,
    [batch(4, FIVE, references=4)], ["R rejected 5 4 1 1 3"], references=4,
)
case(
    "step6_reference_limit_0", "a reference limit of 0 lets only batches without operations pass", STEP % 6,
    set_up(references=0) + [batch(4, ONE), batch(4, []), "show"],
    ["S 0", "R rejected 4 4 1 1 -", "R no-change 0 0 0 0 -", "P 0"],
)
