"""One batch, steps 7 to 9: targets, the cursor, applying; and the cap."""

from build import patch, patches_of, quad, read_notation, text, unsigned
from cases_batch import APPLIED, FOUND, LOOSE, ONE, panel_with
from kit import PANEL, PANEL_SET, batch, case, on_panel, rules_of, set_up
from patch import availability, binding, insert, move, remove, update
from sizes import LAST_U64

rules_of("One batch, from entry to leaf")

# ---- step 7

CATALOGUE = "spec_session Batch.inCatalogue and absentTargets, step 7"
on_panel(
    "step7_unknown_node_6", "an availability needs its node among the nodes", CATALOGUE,
    [batch(4, patches_of([availability(6, 1)]))], ["R rejected 6 5 1 1 3"],
)
on_panel(
    "step7_unknown_slot_6", "a binding needs its pair of node and slot", CATALOGUE,
    [batch(4, patches_of([binding(5, 2, quad(1))]))], ["R rejected 6 5 1 1 3"],
)
on_panel(
    "step7_unknown_binding_node_6", "a slot known at one node is not known at another", CATALOGUE,
    [batch(4, patches_of([binding(6, 0, quad(1))]))], ["R rejected 6 5 1 1 3"],
)
on_panel(
    "step7_unknown_collection_6", "each of the four collection operations needs its collection", CATALOGUE,
    [
        batch(4, patches_of([insert(8, 1, quad(1))])), batch(4, patches_of([update(8, 1, quad(1))])),
        batch(4, patches_of([remove(8, 1)])), batch(4, patches_of([move(8, 1)])),
    ],
    ["R rejected 6 5 1 1 3"] * 4,
)
on_panel(
    "step7_node_is_no_collection", "a node's anchor is none for a collection of that number, nor the other way round",
    CATALOGUE, [batch(4, patches_of([insert(5, 1, quad(1))])), batch(4, patches_of([availability(9, 1)]))],
    ["R rejected 6 5 1 1 3"] * 2,
)
on_panel(
    "step7_node_is_no_binding", "a node's anchor is none for its bindings", CATALOGUE,
    [batch(4, patches_of([binding(6, 0, quad(1))])), batch(4, patches_of([availability(6, 1)]))],
    ["R rejected 6 5 1 1 3", APPLIED], panel=["P 5", "B 5 0 Q 2", "A 5 3", "A 6 1", "C 9 1 T Ok", "C 9 2 S -4"],
    nodes=(5, 6),
)
REPEATS = patches_of(
    [availability(6, 1), availability(5, 1)], [availability(6, 1)], [availability(6, 1), binding(5, 9, quad(0))],
)
on_panel(
    "step7_repeats_count", "every operation with an absent target counts, also one that is repeated", CATALOGUE,
    [batch(4, REPEATS)], ["R rejected 6 5 4 4 3"],
)
rules_of("Diagnostics under the cap")
CAP = "spec_session Diagnostics.diagnosticsOf, step 7"
for cap, answer in [(0, "R rejected 0 0 4 0 3"), (1, "R rejected 6 5 4 1 3"), (3, "R rejected 6 5 4 3 3"),
    (4, "R rejected 6 5 4 4 3"), (5, "R rejected 6 5 4 4 3")]:
    on_panel(
        "cap_%d_of_4_absent_targets" % cap,
        "no more diagnostics are emitted than there are, nor than the cap lets through", CAP, [batch(4, REPEATS)],
        [answer], diagnostics=cap,
    )
rules_of("One batch, from entry to leaf")
on_panel(
    "step7_128_absent_targets", "as many diagnostics as operations", CATALOGUE,
    [batch(4, patches_of([availability(node, 1) for node in range(100, 228)]))], ["R rejected 6 5 128 10 3"],
    references=128,
)
on_panel(
    "step7_largest_slot", "slots go up to 2^32-1", CATALOGUE,
    [
        batch(4, patches_of([binding(5, 2**32 - 1, quad(3)), binding(5, 2**32 - 2, quad(3))])),
        batch(4, patches_of([binding(5, 2**32 - 1, quad(3))])), "value binding 5 4294967295",
    ],
    ["R rejected 6 5 1 1 3", APPLIED, "V Q 3"], panel=["P 5", "B 5 0 Q 2", "B 5 4294967295 Q 3"] + PANEL[2:],
    bindings=((5, 0), (5, 2**32 - 1)),
)
on_panel(
    "step7_needs_no_key", "step 7 looks at the collection alone; an absent key is met at step 9", CATALOGUE,
    [batch(4, patches_of([remove(9, 77)]))], ["R rejected 8 8 1 1 3"],
)

# ---- step 8

CURSOR = "spec_session Batch.takesNumber, step 8"


def first_number(name, number):
    case(
        name, "an Uninitialized cursor takes any number", CURSOR, set_up() + [batch(number, ONE), "show"],
        ["S 0", "R applied 0 0 0 0 %d" % number, "P 1", "A 5 1"],
    )


first_number("step8_uninitialized_takes_0", 0)
first_number("step8_uninitialized_takes_any", 123456789)
first_number("step8_uninitialized_takes_2_64_1", LAST_U64)
on_panel("step8_next_number_passes", "At(3) takes 4", CURSOR, [batch(4, ONE)], [APPLIED], panel=panel_with(1))
on_panel("step8_same_number_7", "At(3) refuses 3 with 7", CURSOR, [batch(3, ONE)], ["R rejected 7 6 1 1 3"])
on_panel("step8_skipped_number_7", "At(3) refuses 5 with 7", CURSOR, [batch(5, ONE)], ["R rejected 7 6 1 1 3"])
on_panel(
    "step8_earlier_number_7", "At(3) refuses 2 and 0 with 7", CURSOR, [batch(2, ONE), batch(0, ONE)],
    ["R rejected 7 6 1 1 3"] * 2,
)
on_panel(
    "step8_largest_number_7", "At(3) refuses 2^64-1 with 7", CURSOR, [batch(LAST_U64, ONE)], ["R rejected 7 6 1 1 3"],
)
case(
    "step8_last_but_one_takes_the_last", "At(2^64-2) takes 2^64-1, and then none", CURSOR,
    set_up()
    + [
        batch(LAST_U64 - 1, PANEL_SET), batch(LAST_U64, ONE), batch(0, ONE), batch(1, ONE), batch(LAST_U64, ONE),
        "show",
    ],
    ["S 0", "R applied 0 0 0 0 18446744073709551614", "R applied 0 0 0 0 18446744073709551615"]
    + ["R rejected 7 6 1 1 18446744073709551615"] * 3 + panel_with(1),
)
case(
    "step8_at_0_takes_1", "At(0) takes 1 and not 0", CURSOR,
    set_up() + [batch(0, PANEL_SET), batch(0, ONE), batch(1, ONE), "show"],
    ["S 0", "R applied 0 0 0 0 0", "R rejected 7 6 1 1 0", "R applied 0 0 0 0 1"] + panel_with(1),
)
on_panel(
    "step8_no_patches_no_cursor_check", "with patch count 0 no number is wrong", CURSOR,
    [batch(3, []), batch(99, []), batch(0, []), batch(LAST_U64, [])], ["R no-change 0 0 0 0 3"] * 4,
)
case(
    "step8_no_change_sets_no_cursor", "NoChange leaves an Uninitialized cursor", CURSOR,
    set_up() + [batch(50, []), batch(7, ONE), "show"],
    ["S 0", "R no-change 0 0 0 0 -", "R applied 0 0 0 0 7", "P 1", "A 5 1"],
)
case(
    "step8_no_patches_at_the_last_number", "At(2^64-1) still answers NoChange to a batch without patches", CURSOR,
    set_up() + [batch(LAST_U64, PANEL_SET), batch(0, []), "show"],
    ["S 0", "R applied 0 0 0 0 18446744073709551615", "R no-change 0 0 0 0 18446744073709551615"] + PANEL,
)
on_panel(
    "step8_envelope_number_has_no_tie_to_patches", "batches and the patches in them are numbered apart", CURSOR,
    [
        batch(4, [patch(1, [availability(5, 1)], sequence=900), patch(2, [availability(5, 2)], sequence=901)]),
        batch(5, [patch(1, [availability(5, 4)], sequence=0)]),
    ],
    [APPLIED, "R applied 0 0 0 0 5"], panel=panel_with(4),
)
on_panel(
    "step8_rejected_number_is_free_again", "a rejected batch leaves the cursor, so its number is still the next",
    CURSOR, [batch(4, patches_of([remove(9, 77)])), batch(4, ONE)], ["R rejected 8 8 1 1 3", APPLIED],
    panel=panel_with(1),
)

# ---- step 9

APPLY = "spec_session Batch.commit; spec_projection Apply.applySteps, step 9"
on_panel(
    "step9_failed_operation_8", "an operation against the key rule gives 8", APPLY,
    [batch(4, patches_of([insert(9, 1, quad(0))]))], ["R rejected 8 8 1 1 3"],
)
on_panel(
    "step9_copy_is_dropped", "operations before the failing one leave nothing behind", APPLY,
    [batch(4, patches_of([availability(5, 0), update(9, 1, unsigned(1)), binding(5, 1, quad(3)), remove(9, 3)]))],
    ["R rejected 8 8 1 1 3"],
)
on_panel("step9_break_at_the_fifth_operation",
    "a batch that fails at its fifth operation leaves nothing of the first four, nor of the sixth", APPLY,
         [batch(4, read_notation("""
patch
insert 9 3 T third
insert 9 4 T fourth
move 9 4 before 1
update 9 2 T second
move 9 5 before 3
availability 5 0
"""))], ["R rejected 8 8 1 1 3"])
on_panel(
    "step9_break_in_a_later_patch", "an operation of the last patch that fails takes the earlier patches' work with it",
    APPLY, [batch(4, patches_of([availability(5, 1)], [insert(9, 3, quad(0))], [update(9, 4, quad(0))]))],
    ["R rejected 8 8 1 1 3"],
)
on_panel(
    "step9_all_patches_apply", "every patch of a batch is applied, not the first alone", APPLY,
    [batch(4, patches_of([availability(5, 1)], [insert(9, 3, quad(0))], [move(9, 3, 1)], [remove(9, 2)]))], [APPLIED],
    panel=["P 4", "B 5 0 Q 2", "A 5 1", "C 9 3 Q 0", "C 9 1 T Ok"],
)
on_panel(
    "step9_sees_earlier_operations", "an operation sees what the earlier ones of the batch did", APPLY,
    [batch(
        4, patches_of([insert(9, 7, quad(0)), insert(9, 8, quad(1), before=7), update(9, 7, quad(2)), remove(9, 1)]),
    )],
    [APPLIED], panel=["P 5", "B 5 0 Q 2", "A 5 3", "C 9 2 S -4", "C 9 8 Q 1", "C 9 7 Q 2"],
)
FILL_126 = patches_of([insert(9, key, quad(0)) for key in range(3, 129)])
FULL_ROWS = ["P 130", "B 5 0 Q 2", "A 5 3", "C 9 1 T Ok", "C 9 2 S -4"] + ["C 9 %d Q 0" % key for key in range(3, 129)]
on_panel(
    "step9_first_failure_decides_8", "the first operation that fails decides: 8, though a later one would give 9",
    APPLY, [batch(4, FILL_126), batch(5, patches_of([remove(9, 500), insert(9, 129, quad(0))]))],
    [APPLIED, "R rejected 8 8 1 1 4"], panel=FULL_ROWS, references=128,
)
on_panel(
    "step9_first_failure_decides_9", "the first operation that fails decides: 9, though a later one would give 8",
    APPLY, [batch(4, FILL_126), batch(5, patches_of([insert(9, 129, quad(0)), remove(9, 500)]))],
    [APPLIED, "R rejected 9 8 1 1 4"], panel=FULL_ROWS, references=128,
)
on_panel(
    "step9_no_change_leaves_all", "a batch without patches leaves panel, cursor and lifecycle",
    "spec_session Batch.keepSession", [batch(4, []), "apply noop 0"],
    ["R no-change 0 0 0 0 3", "L no-change 0 0 0 0 created 3 0"],
)

# ---- the cap, for numbers other than 6

rules_of("Diagnostics under the cap")

for number, lines in {
    1: [batch(4, ONE, session=8)], 4: [batch(4, ONE, stimulus=101)], 5: [batch(4, ONE, references=9)], 7: [batch(9, ONE)],
    8: [batch(4, patches_of([remove(9, 77)]))], 10: [batch(4, ONE, data=LOOSE)], 11: [batch(4, FOUND)],
    12: [batch(4, patches_of([binding(5, 0, text("x" * 161))]))],
}.items():
    on_panel(
        "cap_0_hides_%d" % number,
        "under a cap of 0 the rejection shows in the disposition and the logical count alone",
        "spec_session Diagnostics.diagnosticsOf", lines, ["R rejected 0 0 1 0 3"], diagnostics=0,
    )
on_panel(
    "cap_0_hides_2", "under a cap of 0 a Closed session shows in the disposition and the logical count alone",
    "spec_session Diagnostics.diagnosticsOf", ["apply close 0", batch(4, ONE), "apply resume 0"],
    ["L applied 0 0 0 0 closed 3 0", "R rejected 0 0 1 0 3", "L rejected 0 0 1 0 closed 3 0"], diagnostics=0,
)
on_panel(
    "cap_0_hides_9", "under a cap of 0 a full panel shows in the disposition and the logical count alone",
    "spec_session Diagnostics.diagnosticsOf", [batch(4, FILL_126), batch(5, patches_of([insert(9, 129, quad(0))]))],
    [APPLIED, "R rejected 0 0 1 0 4"], panel=FULL_ROWS, references=128, diagnostics=0,
)
on_panel(
    "cap_1_shows_one", "a cap of 1 emits the one diagnostic", "spec_session Diagnostics.diagnosticsOf", [batch(9, ONE)],
    ["R rejected 7 6 1 1 3"], diagnostics=1,
)
on_panel(
    "cap_0_leaves_applied_batches", "the cap changes nothing of what is applied", "spec_session Batch.applyBatch",
    [batch(4, ONE), batch(9, [])], [APPLIED, "R no-change 0 0 0 0 4"], panel=panel_with(1), diagnostics=0,
)
