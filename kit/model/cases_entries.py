"""The entries of collections: insert, update, remove, move, and 128 of them."""

from build import patches_of, quad, read_notation, signed, text, unsigned
from cases_projection import APPLIED, APPLY, FULL, KEY_RULE, one
from kit import PANEL, batch, case, on_panel, rules_of, set_up
from patch import availability, binding, insert, move, remove, update

rules_of("Projection")

# ---- insert

INSERT = APPLY % "applyInsert"
FIVE = patches_of([insert(9, key, unsigned(key)) for key in (1, 2, 3, 4, 5)])


def five(*keys):
    """Entries of collection 9, each with its key as value; key 6 is new and has the quad N."""
    return ["P %d" % len(keys)] + ["C 9 %d %s" % (key, "Q 0" if key == 6 else "U %d" % key) for key in keys]


def on_five(name, rule, definition, operation, answer, *keys):
    """One operation on the list 1, 2, 3, 4, 5; the cursor stands at 1 before it."""
    case(
        name, rule, definition, set_up() + [batch(1, FIVE), "show", batch(2, one(operation)), "show"],
        ["S 0", APPLIED % 1] + five(1, 2, 3, 4, 5) + [answer] + five(*keys),
    )


for at in range(1, 6):
    keys = list(range(1, at)) + [6] + list(range(at, 6))
    on_five(
        "insert_before_%d" % at, "an insert goes before its neighbour", INSERT, insert(9, 6, quad(0), before=at),
        APPLIED % 2, *keys,
    )
on_five(
    "insert_last", "an insert without neighbour goes last", INSERT, insert(9, 6, quad(0)), APPLIED % 2, 1, 2, 3, 4, 5,
    6,
)
on_five(
    "insert_present_key_8", "an insert of a key that is there gives 8", INSERT, insert(9, 3, quad(0)), KEY_RULE % 1, 1,
    2, 3, 4, 5,
)
on_five(
    "insert_absent_neighbour_8", "an insert before a key that is not there gives 8", INSERT,
    insert(9, 6, quad(0), before=7), KEY_RULE % 1, 1, 2, 3, 4, 5,
)
on_five(
    "insert_present_key_before_another_8", "a present key gives 8, with a good neighbour too", INSERT,
    insert(9, 3, quad(0), before=1), KEY_RULE % 1, 1, 2, 3, 4, 5,
)
case(
    "insert_first_before_absent_8",
    "in an empty collection there is no neighbour: 8, and nothing is left of the collection", INSERT,
    set_up()
    + [
        batch(1, one(availability(5, 2))), batch(2, one(insert(9, 1, quad(0), before=2))), "show",
        batch(2, one(insert(9, 1, quad(0)))), "show",
    ],
    ["S 0", APPLIED % 1, KEY_RULE % 1, "P 1", "A 5 2", APPLIED % 2, "P 2", "A 5 2", "C 9 1 Q 0"],
)
on_panel(
    "insert_key_of_another_collection", "a key in another collection is no obstacle", INSERT,
    [batch(4, one(insert(8, 1, quad(0))))], [APPLIED % 4],
    panel=["P 5", "B 5 0 Q 2", "A 5 3", "C 8 1 Q 0", "C 9 1 T Ok", "C 9 2 S -4"], collections=(8, 9),
)
on_panel(
    "insert_neighbour_of_another_collection_8", "a neighbour in another collection is none: 8", INSERT,
    [batch(4, one(insert(8, 3, quad(0), before=1)))], [KEY_RULE % 3], collections=(8, 9),
)

# ---- update, remove

on_five(
    "update_keeps_the_place", "an update leaves the entry where it is", APPLY % "applyUpdate",
    update(9, 3, unsigned(3)), APPLIED % 2, 1, 2, 3, 4, 5,
)
on_panel(
    "update_changes_kind", "an update may change the kind of the value", APPLY % "applyUpdate",
    [batch(4, one(update(9, 1, signed(-9))))], [APPLIED % 4], panel=PANEL[:3] + ["C 9 1 S -9", "C 9 2 S -4"],
)
on_five(
    "update_absent_key_8", "an update of a key that is not there gives 8", APPLY % "applyUpdate", update(9, 6, quad(0)),
    KEY_RULE % 1, 1, 2, 3, 4, 5,
)
on_panel(
    "update_key_of_another_collection_8", "a key in another collection does not do for an update",
    APPLY % "applyUpdate", [batch(4, one(update(8, 1, quad(0))))], [KEY_RULE % 3], collections=(8, 9),
)
on_five("remove_first", "the first entry removed", APPLY % "applyRemove", remove(9, 1), APPLIED % 2, 2, 3, 4, 5)
on_five(
    "remove_middle", "an entry between others removed", APPLY % "applyRemove", remove(9, 3), APPLIED % 2, 1, 2, 4, 5,
)
on_five("remove_last", "the last entry removed", APPLY % "applyRemove", remove(9, 5), APPLIED % 2, 1, 2, 3, 4)
on_five(
    "remove_absent_key_8", "a removal of a key that is not there gives 8", APPLY % "applyRemove", remove(9, 6),
    KEY_RULE % 1, 1, 2, 3, 4, 5,
)
on_panel(
    "remove_key_of_another_collection_8", "a key in another collection does not do for a removal",
    APPLY % "applyRemove", [batch(4, one(remove(8, 1)))], [KEY_RULE % 3], collections=(8, 9),
)
on_panel(
    "remove_all_stores_nothing", "an emptied collection stores nothing, and can be filled anew", APPLY % "applyRemove",
    [
        batch(4, patches_of([remove(9, 1), remove(9, 2)])), "show", batch(5, one(insert(9, 2, quad(1), before=1))),
        batch(5, one(insert(9, 2, quad(1)))),
    ],
    [APPLIED % 4, "P 2", "B 5 0 Q 2", "A 5 3", KEY_RULE % 4, APPLIED % 5],
    panel=["P 3", "B 5 0 Q 2", "A 5 3", "C 9 2 Q 1"],
)
on_panel(
    "remove_and_insert_again", "a removed key is free again; inserted anew it goes where the insert says",
    APPLY % "applyRemove", [batch(4, patches_of([remove(9, 1), insert(9, 1, quad(0))])), "value entry 9 1"],
    [APPLIED % 4, "V Q 0"], panel=PANEL[:3] + ["C 9 2 S -4", "C 9 1 Q 0"],
)

# ---- move

MOVE = APPLY % "applyMove"
on_five("move_to_first", "a move before the first entry", MOVE, move(9, 4, 1), APPLIED % 2, 4, 1, 2, 3, 5)
on_five("move_to_last", "a move without neighbour goes last", MOVE, move(9, 2), APPLIED % 2, 1, 3, 4, 5, 2)
on_five("move_last_to_last", "the last entry moved last stays", MOVE, move(9, 5), APPLIED % 2, 1, 2, 3, 4, 5)
on_five(
    "move_before_its_follower", "a move before the entry that follows changes nothing, and is applied", MOVE,
    move(9, 2, 3), APPLIED % 2, 1, 2, 3, 4, 5,
)
on_five(
    "move_forward", "a move towards the end: the key is out before the neighbour is found", MOVE, move(9, 1, 4),
    APPLIED % 2, 2, 3, 1, 4, 5,
)
on_five("move_backward", "a move towards the start", MOVE, move(9, 5, 2), APPLIED % 2, 1, 5, 2, 3, 4)
on_five("move_before_the_last", "a move before the last entry", MOVE, move(9, 1, 5), APPLIED % 2, 2, 3, 4, 1, 5)
on_five(
    "move_absent_key_8", "a move of a key that is not there gives 8", MOVE, move(9, 6, 1), KEY_RULE % 1, 1, 2, 3, 4, 5,
)
on_five(
    "move_absent_neighbour_8", "a move before a key that is not there gives 8, and the key stays", MOVE, move(9, 1, 6),
    KEY_RULE % 1, 1, 2, 3, 4, 5,
)
on_five(
    "move_before_itself_11", "a move before itself is a finding in a set, so the batch gives 11 and is not tried",
    "spec_checks PatchChecks.beforeSelf", move(9, 3, 3), "R rejected 11 4 1 1 1", 1, 2, 3, 4, 5,
)
case(
    "move_only_entry", "the only entry moved last stays", MOVE,
    set_up() + [batch(1, one(insert(9, 1, quad(3)))), batch(2, one(move(9, 1))), "show"],
    ["S 0", APPLIED % 1, APPLIED % 2, "P 1", "C 9 1 Q 3"],
)
case(
    "move_keeps_the_value", "a move takes the value along, a text with all its bytes", MOVE,
    set_up()
    + [
        batch(1, patches_of([insert(9, 1, text("first and long")), insert(9, 2, text("")), insert(9, 3, signed(-1))])),
        batch(2, one(move(9, 1, 3))), "show", "value entry 9 1",
    ],
    [
        "S 0", APPLIED % 1, APPLIED % 2, "P 3", b"C\t9\t2\tT\t", b"C\t9\t1\tT\tfirst and long", "C 9 3 S -1",
        b"V\tT\tfirst and long",
    ],
)
INTERLEAVED = read_notation("""
patch
insert 10 1 U 101
insert 8 1 U 81
insert 9 1 U 91
insert 10 2 U 102
insert 9 2 U 92
insert 8 2 U 82
insert 9 3 U 93
""")
case(
    "collections_interleaved", "operations on three collections in turn leave the others as they are",
    "spec_projection Apply.applyOperation",
    set_up(collections=(8, 9, 10))
    + [
        batch(1, INTERLEAVED), "show",
        batch(
            2,
            patches_of([
                move(9, 3, 1), remove(8, 1), update(10, 1, quad(0)), move(8, 2), insert(9, 4, quad(1), before=2),
            ]),
        ),
        "show",
    ],
    [
        "S 0", APPLIED % 1, "P 7", "C 8 1 U 81", "C 8 2 U 82", "C 9 1 U 91", "C 9 2 U 92", "C 9 3 U 93", "C 10 1 U 101",
        "C 10 2 U 102", APPLIED % 2, "P 7", "C 8 2 U 82", "C 9 3 U 93", "C 9 1 U 91", "C 9 4 Q 1", "C 9 2 U 92",
        "C 10 1 Q 0", "C 10 2 U 102",
    ],
)
case(
    "move_across_other_collections_8", "a neighbour in another collection is none for a move: 8", MOVE,
    set_up(collections=(8, 9, 10))
    + [batch(1, INTERLEAVED), batch(2, one(move(8, 1, 3))), batch(2, one(move(10, 1, 3))), "show"],
    [
        "S 0", APPLIED % 1, KEY_RULE % 1, KEY_RULE % 1, "P 7", "C 8 1 U 81", "C 8 2 U 82", "C 9 1 U 91", "C 9 2 U 92",
        "C 9 3 U 93", "C 10 1 U 101", "C 10 2 U 102",
    ],
)

# ---- 128 entries

HALF = patches_of([insert(8, key, unsigned(key)) for key in range(1, 65)])
OTHER = patches_of([insert(9, key, unsigned(key)) for key in range(1, 65)])
BOTH = (
    ["P 128"] + ["C 8 %d U %d" % (key, key) for key in range(1, 65)]
    + ["C 9 %d U %d" % (key, key) for key in range(1, 65)]
)


def on_full(name, rule, definition, operations, answer, rows=BOTH):
    """A call on a panel with 128 entries in two collections; the cursor stands at 2 before it."""
    case(
        name, rule, definition,
        set_up(collections=(8, 9, 10))
        + [batch(1, HALF), batch(2, OTHER), "show", batch(3, patches_of(operations)), "show"],
        ["S 0", APPLIED % 1, APPLIED % 2] + BOTH + [answer] + rows,
    )


on_full("entry_129_gives_9", "the 129th entry gives 9", INSERT, [insert(9, 65, quad(0))], FULL % 2)
on_full(
    "entries_count_over_all_collections", "entries count over all collections: the first of a third one gives 9",
    INSERT, [insert(10, 1, quad(0))], FULL % 2,
)
on_full(
    "full_present_key_is_8", "on a full panel a present key is 8 and not 9", INSERT, [insert(9, 64, quad(0))],
    KEY_RULE % 2,
)
on_full(
    "full_absent_neighbour_is_8", "on a full panel an absent neighbour is 8 and not 9", INSERT,
    [insert(9, 65, quad(0), before=66)], KEY_RULE % 2,
)
on_full(
    "full_insert_before_neighbour_9", "on a full panel a good neighbour does not help: 9", INSERT,
    [insert(9, 65, quad(0), before=1)], FULL % 2,
)
on_full(
    "full_move_passes", "on a full panel a move passes", MOVE, [move(8, 1)], APPLIED % 3,
    ["P 128"] + BOTH[2:65] + ["C 8 1 U 1"] + BOTH[65:],
)
on_full(
    "full_update_passes", "on a full panel an update passes", APPLY % "applyUpdate", [update(9, 64, quad(0))],
    APPLIED % 3, BOTH[:-1] + ["C 9 64 Q 0"],
)
on_full(
    "full_removal_frees_a_place", "a removal frees its place for any collection", APPLY % "applyRemove",
    [remove(8, 1), insert(10, 1, quad(0))], APPLIED % 3, ["P 128"] + BOTH[2:] + ["C 10 1 Q 0"],
)
on_full(
    "full_removal_frees_one_place",
    "a removal frees one place and no more: the second insert gives 9, and all is as before", APPLY % "applyRemove",
    [remove(8, 1), insert(10, 1, quad(0)), insert(10, 2, quad(0))], FULL % 2,
)
on_full(
    "full_binding_passes", "a panel full of entries takes bindings and availabilities", APPLY % "applyBinding",
    [binding(5, 0, quad(0)), availability(5, 1)], APPLIED % 3, ["P 130", "B 5 0 Q 0", "A 5 1"] + BOTH[1:],
)
