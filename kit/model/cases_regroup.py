"""Which order of work is free: pairs of scripts with the same operations in two orders, cut into patches that pass the checks."""

from build import patches_of, unsigned
from kit import batch, case, rules_of, set_up
from patch import availability, binding, insert, move, remove, update

rules_of("Job 9 in document 02")

CLAIM = "spec_operation_order FreeOrder.OrderIsFree; Examples"
APPLIED = "R applied 0 0 0 0 %d"
BEGIN = set_up(references=200, nodes=(5, 6), collections=(8, 9))


def order(name, rule, patches, panel, fill=(), filled=(), refused=None, definition=CLAIM):
    """The patches on an empty panel or after a first fill, and the panel that they leave; they apply if no refusal is given."""
    begin = [batch(1, patches_of(fill)), "show"] if fill else []
    begun = [APPLIED % 1] + list(filled) if fill else []
    number = 2 if fill else 1
    case(
        "regroup_" + name, rule, definition, BEGIN + begin + [batch(number, patches), "show"],
        ["S 0"] + begun + [refused or APPLIED % number] + list(panel),
    )


def entries(first, last):
    """Keys of collection 9, each with the value 0."""
    return ["C 9 %d U 0" % key for key in range(first, last + 1)]


# ---- the first example: both orders must run

REMOVE_FIRST = patches_of([remove(9, 1), insert(8, 1, unsigned(0))])
INSERT_FIRST = patches_of([insert(8, 1, unsigned(0)), remove(9, 1)])
FULL = [insert(9, key, unsigned(0)) for key in range(1, 129)]
order(
    "full_panel_remove_first", "on a full panel a removal in one collection makes the place for an insert in another",
    REMOVE_FIRST, ["P 128", "C 8 1 U 0"] + entries(2, 128), FULL, ["P 128"] + entries(1, 128),
)
order(
    "full_panel_insert_first_9", "the same two operations, the insert first: 9, and so nothing is promised of this order",
    INSERT_FIRST, ["P 128"] + entries(1, 128), FULL, ["P 128"] + entries(1, 128), "R rejected 9 8 1 1 1",
)
for name, patches in [("remove_first", REMOVE_FIRST), ("insert_first", INSERT_FIRST)]:
    order(
        "with_room_" + name, "with a place for every insert beside all that is stored, both orders run and end alike",
        patches, ["P 127", "C 8 1 U 0"] + entries(2, 127), FULL[:127], ["P 127"] + entries(1, 127),
        definition="spec_operation_order FreeOrder.RunsWithRoom",
    )

# ---- the second example: the order in one collection counts, and on one binding, and on one node

order(
    "one_collection_1_then_2", "inserts of two keys into one collection: the order of the inserts is the list's",
    patches_of([insert(9, 1, unsigned(0)), insert(9, 2, unsigned(0))]), ["P 2", "C 9 1 U 0", "C 9 2 U 0"],
)
order(
    "one_collection_2_then_1", "the same two inserts in the other order end differently, though their keys differ",
    patches_of([insert(9, 2, unsigned(0)), insert(9, 1, unsigned(0))]), ["P 2", "C 9 2 U 0", "C 9 1 U 0"],
)
order(
    "one_binding_1_then_2", "a binding that is set twice has the last value",
    patches_of([binding(5, 0, unsigned(1))], [binding(5, 0, unsigned(2))]), ["P 1", "B 5 0 U 2"],
)
order(
    "one_binding_2_then_1", "the two settings of a binding in the other order end differently",
    patches_of([binding(5, 0, unsigned(2))], [binding(5, 0, unsigned(1))]), ["P 1", "B 5 0 U 1"],
)
order(
    "one_node_3_then_4", "an availability that is set twice has the last value",
    patches_of([availability(5, 3)], [availability(5, 4)]), ["P 1", "A 5 4"],
)
order(
    "one_node_4_then_3", "the two settings of a node's availability in the other order end differently",
    patches_of([availability(5, 4)], [availability(5, 3)]), ["P 1", "A 5 3"],
)

# ---- the third example: operations of two collections, two bindings and two nodes, interleaved and grouped

ENDED = ["P 7", "B 5 0 U 2", "B 5 1 U 7", "A 5 4", "A 6 2", "C 8 1 U 10", "C 9 1 U 21", "C 9 2 U 22"]
order(
    "interleaved", "operations of two collections, two bindings and two nodes, one between the other",
    patches_of(
        [
            insert(8, 1, unsigned(10)), availability(5, 3), insert(9, 1, unsigned(20)),
            insert(8, 2, unsigned(11), before=1), binding(5, 0, unsigned(1)), update(9, 1, unsigned(21)),
            availability(6, 2), move(8, 1, before=2), binding(5, 1, unsigned(7)), insert(9, 2, unsigned(22)),
        ],
        [binding(5, 0, unsigned(2)), remove(8, 2), availability(5, 4)],
    ),
    ENDED,
)
COLLECTIONS = [
    insert(9, 1, unsigned(20)), update(9, 1, unsigned(21)), insert(9, 2, unsigned(22)), insert(8, 1, unsigned(10)),
    insert(8, 2, unsigned(11), before=1), move(8, 1, before=2), remove(8, 2),
]
order(
    "grouped", "the same operations grouped by collection, node and binding end alike; the patches end where a target would repeat",
    patches_of(
        COLLECTIONS + [availability(6, 2), availability(5, 3)],
        [availability(5, 4), binding(5, 1, unsigned(7)), binding(5, 0, unsigned(1))], [binding(5, 0, unsigned(2))],
    ),
    ENDED,
)
order(
    "grouped_in_one_patch_11",
    "a regrouped set must still pass the checks: one patch that sets a binding or an availability twice is 11",
    patches_of(
        COLLECTIONS
        + [
            availability(6, 2), availability(5, 3), availability(5, 4), binding(5, 1, unsigned(7)),
            binding(5, 0, unsigned(1)), binding(5, 0, unsigned(2)),
        ],
    ),
    ["P 1", "A 6 1"], [availability(6, 1)], ["P 1", "A 6 1"], "R rejected 11 4 1 1 1",
    definition="spec_checks Target.sameTarget; spec_session Batch.batchChecks, step 4",
)
