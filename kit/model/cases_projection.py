"""The projection: bindings and availabilities, values, ids, lookups."""

from build import patches_of, quad, read_notation, signed, text, unsigned
from kit import PANEL, STARTED, batch, case, on_panel, rules_of, set_up, started
from patch import availability, binding, insert, move, remove, update

rules_of("Projection")

APPLIED = "R applied 0 0 0 0 %d"
KEY_RULE = "R rejected 8 8 1 1 %s"
FULL = "R rejected 9 8 1 1 %s"
APPLY = "spec_projection Apply.%s"


def one(operation):
    return patches_of([operation])


# ---- bindings and availabilities

on_panel(
    "binding_adds", "a binding that is not there is added, in order of node and slot", APPLY % "applyBinding",
    [batch(4, one(binding(5, 1, unsigned(8))))], [APPLIED % 4], panel=["P 5", "B 5 0 Q 2", "B 5 1 U 8"] + PANEL[2:],
)
on_panel(
    "binding_replaces", "a binding that is there is replaced, also by another kind of value", APPLY % "applyBinding",
    [batch(4, one(binding(5, 0, text("new"))))], [APPLIED % 4], panel=["P 4", "B 5 0 T new"] + PANEL[2:],
)
on_panel(
    "availability_adds", "an availability that is not there is added, in order of nodes", APPLY % "applyAvailability",
    [batch(4, one(availability(4, 0)))], [APPLIED % 4],
    panel=["P 5", "B 5 0 Q 2", "A 4 0", "A 5 3", "C 9 1 T Ok", "C 9 2 S -4"], nodes=(5, 4),
)
on_panel(
    "availability_replaces", "an availability that is there is replaced", APPLY % "applyAvailability",
    [batch(4, one(availability(5, 4)))], [APPLIED % 4], panel=["P 4", "B 5 0 Q 2", "A 5 4", "C 9 1 T Ok", "C 9 2 S -4"],
)
case(
    "stored_order_of_bindings", "bindings stand by node, then slot, as numbers and not as texts",
    "spec_projection Projection.bindingKey",
    set_up(bindings=((10, 0), (9, 10), (9, 2), (2**64 - 1, 0), (1, 2**32 - 1)))
    + [
        batch(
            1,
            patches_of([
                binding(10, 0, quad(0)), binding(2**64 - 1, 0, quad(1)), binding(9, 10, quad(2)),
                binding(1, 2**32 - 1, quad(3)), binding(9, 2, quad(0)),
            ]),
        ),
        "show",
    ],
    [
        "S 0", APPLIED % 1, "P 5", "B 1 4294967295 Q 3", "B 9 2 Q 0", "B 9 10 Q 2", "B 10 0 Q 0",
        "B 18446744073709551615 0 Q 1",
    ],
)
case(
    "stored_order_of_availabilities", "availabilities stand by node, as numbers",
    "spec_projection Projection.availabilityKey",
    set_up(nodes=(10, 9, 2**64 - 1, 256, 1))
    + [
        batch(
            1,
            patches_of([
                availability(10, 0), availability(2**64 - 1, 1), availability(256, 2), availability(9, 3),
                availability(1, 4),
            ]),
        ),
        "show",
    ],
    ["S 0", APPLIED % 1, "P 5", "A 1 4", "A 9 3", "A 10 0", "A 256 2", "A 18446744073709551615 1"],
)
case("stored_order_of_collections", "collections stand by their ids, entries in list order whatever their keys",
    "spec_projection Entries.insertLast",
     set_up(collections=(10, 9, 256)) + [batch(1, read_notation("""
patch
insert 256 1 U 1
insert 10 30 U 2
insert 9 7 U 3
insert 10 20 U 4
insert 9 8 U 5
insert 10 25 before 20 U 6
""")), "show"],
     ["S 0", APPLIED % 1, "P 6", "C 9 7 U 3", "C 9 8 U 5", "C 10 30 U 2", "C 10 25 U 6", "C 10 20 U 4", "C 256 1 U 1"])

# ---- capacities of bindings and availabilities

BINDINGS = [(node, 0) for node in range(1, 66)]
FILL = patches_of([binding(node, 0, unsigned(node)) for node in range(1, 65)])
FILLED = ["P 64"] + ["B %d 0 U %d" % (node, node) for node in range(1, 65)]
case(
    "binding_64_fit", "64 bindings fit", APPLY % "applyBinding", set_up(bindings=BINDINGS) + [batch(1, FILL), "show"],
    ["S 0", APPLIED % 1] + FILLED,
)
case(
    "binding_65_gives_9", "the 65th binding gives 9", APPLY % "applyBinding",
    set_up(bindings=BINDINGS) + [batch(1, FILL), "show", batch(2, one(binding(65, 0, quad(0)))), "show"],
    ["S 0", APPLIED % 1] + FILLED + [FULL % 1] + FILLED,
)
case(
    "binding_replaced_among_64", "among 64 bindings one can be replaced", APPLY % "applyBinding",
    set_up(bindings=BINDINGS) + [batch(1, FILL), batch(2, one(binding(64, 0, quad(3)))), "show"],
    ["S 0", APPLIED % 1, APPLIED % 2] + FILLED[:-1] + ["B 64 0 Q 3"],
)
NODES = range(1, 66)
FILL_NODES = patches_of([availability(node, node % 5) for node in range(1, 65)])
FILLED_NODES = ["P 64"] + ["A %d %d" % (node, node % 5) for node in range(1, 65)]
case(
    "availability_64_fit", "64 availabilities fit", APPLY % "applyAvailability",
    set_up(nodes=NODES) + [batch(1, FILL_NODES), "show"], ["S 0", APPLIED % 1] + FILLED_NODES,
)
case(
    "availability_65_gives_9", "the 65th availability gives 9", APPLY % "applyAvailability",
    set_up(nodes=NODES) + [batch(1, FILL_NODES), "show", batch(2, one(availability(65, 0))), "show"],
    ["S 0", APPLIED % 1] + FILLED_NODES + [FULL % 1] + FILLED_NODES,
)
case(
    "availability_replaced_among_64", "among 64 availabilities one can be replaced", APPLY % "applyAvailability",
    set_up(nodes=NODES) + [batch(1, FILL_NODES), batch(2, one(availability(1, 4))), "show"],
    ["S 0", APPLIED % 1, APPLIED % 2] + ["P 64", "A 1 4"] + FILLED_NODES[2:],
)
case(
    "capacities_are_counted_apart", "64 bindings, 64 availabilities and 128 entries fit side by side",
    APPLY % "applyOperation",
    set_up(bindings=BINDINGS, nodes=NODES, references=256)
    + [
        batch(1, FILL + [patch._replace(id=2, previous=1, revision=2, sequence=2) for patch in FILL_NODES]),
        batch(2, patches_of([insert(9, key, quad(0)) for key in range(1, 129)])), "show",
    ],
    ["S 0", APPLIED % 1, APPLIED % 2, "P 256"] + FILLED[1:] + FILLED_NODES[1:]
    + ["C 9 %d Q 0" % key for key in range(1, 129)],
)

# ---- values and ids

VALUES = [
    quad(0), quad(1), quad(2), quad(3), signed(0), signed(-1), signed(2**63 - 1), signed(-(2**63)), unsigned(0),
    unsigned(2**64 - 1), text(""), text("x" * 160), text("Pumpe prüfen"),
]
SHOWN = [
    "Q 0", "Q 1", "Q 2", "Q 3", "S 0", "S -1", "S 9223372036854775807", "S -9223372036854775808", "U 0",
    "U 18446744073709551615",
]
ROWS = (
    [("%s" % shown).replace(" ", "\t").encode() for shown in SHOWN]
    + [b"T\t", b"T\t" + b"x" * 160, b"T\tPumpe pr\xc3\xbcfen"]
)
case(
    "values_of_all_kinds_in_entries",
    "every kind of value is stored in an entry as it came: quads, numbers at their ends, texts of 0 and 160 bytes",
    "spec_projection Projection.Entry; spec_listing Listing.valueFields",
    set_up() + [batch(1, patches_of([insert(9, key, value) for key, value in enumerate(VALUES, 1)])), "show"]
    + ["value entry 9 %d" % key for key in range(1, 14)],
    ["S 0", APPLIED % 1, "P 13"] + [b"C\t9\t%d\t%s" % (key, row) for key, row in enumerate(ROWS, 1)]
    + [b"V\t" + row for row in ROWS],
)
case(
    "values_of_all_kinds_in_bindings", "every kind of value is stored in a binding as it came",
    "spec_projection Projection.Binding; spec_listing Listing.valueFields",
    set_up(bindings=[(5, slot) for slot in range(13)])
    + [batch(1, patches_of([binding(5, slot, value) for slot, value in enumerate(VALUES)])), "show"]
    + ["value binding 5 %d" % slot for slot in range(13)],
    ["S 0", APPLIED % 1, "P 13"] + [b"B\t5\t%d\t%s" % (slot, row) for slot, row in enumerate(ROWS)]
    + [b"V\t" + row for row in ROWS],
)
case(
    "values_shorter_after_longer", "a short text in the place of a long one leaves nothing of it",
    APPLY % "applyUpdate",
    set_up()
    + [
        batch(1, one(insert(9, 1, text("y" * 160)))), batch(2, one(update(9, 1, text("z")))), "show",
        batch(3, one(update(9, 1, text("")))), "show",
    ],
    ["S 0", APPLIED % 1, APPLIED % 2, "P 1", "C 9 1 T z", APPLIED % 3, "P 1", b"C\t9\t1\tT\t"],
)
case(
    "availability_bytes", "each of the five availability bytes is kept as it came",
    "spec_patch Encode.availabilityByte",
    set_up(nodes=range(1, 6)) + [batch(1, patches_of([availability(node, node - 1) for node in range(1, 6)])), "show"]
    + ["value node %d" % node for node in range(1, 7)],
    [
        "S 0", APPLIED % 1, "P 5", "A 1 0", "A 2 1", "A 3 2", "A 4 3", "A 5 4", "V A 0", "V A 1", "V A 2", "V A 3",
        "V A 4", "V -",
    ],
)
ZEROS = read_notation("""
patch document=0 surface=0 epoch=0 sequence=0
availability 0 0
binding 0 0 U 0
insert 0 0 Q 0
insert 0 1 before 0 Q 1
""")
case(
    "id_0_is_ordinary",
    "ids of 0 are ordinary where no finding names them: session, document, surface, node, slot, collection, key and neighbour",
    APPLY % "applyOperation",
    [
        "session 0 100 10 8 64", "node 0", "binding 0 0", "collection 0", "create", "value entry 0 0", "value node 0",
        "value binding 0 0", batch(0, ZEROS, session=0,), "show", "value entry 0 0", "value node 0",
        "value binding 0 0", batch(1, patches_of([move(0, 0, 1), update(0, 0, quad(2))]), session=0), "show",
        batch(2, patches_of([remove(0, 0), insert(0, 2, quad(3), before=0)]), session=0), "show",
    ],
    [
        "S 0", "V -", "V -", "V -", APPLIED % 0, "P 4", "B 0 0 U 0", "A 0 0", "C 0 1 Q 1", "C 0 0 Q 0", "V Q 0",
        "V A 0", "V U 0", APPLIED % 1, "P 4", "B 0 0 U 0", "A 0 0", "C 0 0 Q 2", "C 0 1 Q 1", KEY_RULE % 1, "P 4",
        "B 0 0 U 0", "A 0 0", "C 0 0 Q 2", "C 0 1 Q 1",
    ],
)
LAST = 2**64 - 1
case(
    "id_of_2_64_1", "ids go up to 2^64-1", APPLY % "applyOperation",
    set_up(nodes=(LAST,), bindings=((LAST, 0),), collections=(LAST,))
    + [
        batch(
            1,
            patches_of([
                availability(LAST, 1), binding(LAST, 0, quad(1)), insert(LAST, LAST, quad(2)),
                insert(LAST, 1, quad(3), before=LAST),
            ]),
        ),
        "show",
    ],
    [
        "S 0", APPLIED % 1, "P 4", "B 18446744073709551615 0 Q 1", "A 18446744073709551615 1",
        "C 18446744073709551615 1 Q 3", "C 18446744073709551615 18446744073709551615 Q 2",
    ],
)

# ---- lookups

LOOKUP = "spec_projection Lookups.%s"
case(
    "lookup_binding", "a binding's value, or none for another node or slot", LOOKUP % "bindingOf",
    started() + ["value binding 5 0", "value binding 5 1", "value binding 6 0"], STARTED + ["V Q 2", "V -", "V -"],
)
case(
    "lookup_node", "a node's availability, or none", LOOKUP % "availabilityOf",
    started() + ["value node 5", "value node 9"], STARTED + ["V A 3", "V -"],
)
case(
    "lookup_entry", "an entry's value, or none for another collection or key", LOOKUP % "entryOf",
    started() + ["value entry 9 1", "value entry 9 2", "value entry 9 3", "value entry 5 1"],
    STARTED + ["V T Ok", "V S -4", "V -", "V -"],
)
case(
    "lookup_needs_no_anchor", "a lookup of what no anchor names answers none", LOOKUP % "entryOf",
    set_up()
    + [
        "value binding 77 77", "value node 77", "value entry 77 77", "value entry 0 0", "value node 0",
        "value binding 0 0",
    ],
    ["S 0"] + ["V -"] * 6,
)
case(
    "lookup_follows_changes", "lookups see what the last applied batch left, and nothing of a rejected one",
    LOOKUP % "entryOf",
    started()
    + [
        batch(4, patches_of([update(9, 1, quad(0)), remove(9, 2)])), "value entry 9 1", "value entry 9 2",
        batch(5, patches_of([update(9, 1, quad(1)), remove(9, 2)])), "value entry 9 1", "show",
    ],
    STARTED + [APPLIED % 4, "V Q 0", "V -", KEY_RULE % 4, "V Q 0", "P 3", "B 5 0 Q 2", "A 5 3", "C 9 1 Q 0"],
)
