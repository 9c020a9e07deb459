"""Who wrote a row: the id of the patch that last gave it its value."""

from build import hex_of, patch, quad, read_notation, signed, text
from cases_script import bad
from chance import Chance
from kit import PANEL, STARTED, batch, case, listed, random_case, rules_of, set_up, started
from patch import availability, binding, insert, move, remove, update
from projection import Projection, Stopped, apply_patches
from random_sets import COLLECTIONS, NODES, SLOTS, cut, patch_list

rules_of("Job 11 in document 02", answers="02")

SET = "spec_projection Apply.applyOperation"
ASKED = "spec_projection Lookups.bindingMark, availabilityMark, entryMark"
CLAIM = "spec_splitting Splitting; session_splitting Claim"
ROWS = ["binding 5 0", "binding 5 1", "node 5", "entry 9 1", "entry 9 2", "entry 9 3"]
# of the panel to start from, which patch 1 wrote in a batch with the number 3
BEFORE = ["1", "-", "1", "1", "1", "-"]


def asked(rows=None):
    return ["mark " + row for row in rows or ROWS]


def told(marks):
    return ["X " + mark for mark in marks]


def one(number, *operations):
    """A patch of this id; the batch that it comes in has another number."""
    return [patch(1, operations, id=number)]


def marked(name, rule, sent, marks, definition=SET):
    """Batches on the panel, from the number 4 on, and then the marks of all rows."""
    case(
        "mark_" + name, rule, definition,
        started() + [batch(number, patches) for number, patches in enumerate(sent, 4)] + asked(),
        STARTED + ["R applied 0 0 0 0 %d" % number for number in range(4, 4 + len(sent))] + told(marks),
    )


# ---- each operation

marked(
    "of_each_row", "bindings, availabilities and entries carry the id of the patch that gave them their value", [], BEFORE,
    ASKED,
)
marked(
    "of_a_binding", "a binding that is set or replaced is marked", [one(77, binding(5, 0, quad(0)), binding(5, 1, quad(1)))],
    ["77", "77", "1", "1", "1", "-"],
)
marked(
    "of_an_availability", "an availability that is set is marked", [one(77, availability(5, 0))],
    ["1", "-", "77", "1", "1", "-"],
)
marked(
    "of_an_insert", "an insert marks its own entry and no other", [one(77, insert(9, 3, quad(0)))],
    ["1", "-", "1", "1", "1", "77"],
)
marked(
    "of_an_insert_before", "the neighbour of an insert keeps its mark", [one(77, insert(9, 3, quad(0), before=1))],
    ["1", "-", "1", "1", "1", "77"],
)
marked(
    "of_an_update", "an update marks its entry and no other", [one(77, update(9, 1, text("neu")))],
    ["1", "-", "1", "77", "1", "-"],
)
marked("of_a_remove", "a removed entry has no mark", [one(77, remove(9, 1))], ["1", "-", "1", "-", "1", "-"])
marked(
    "of_a_move", "a move does not count: the entry, its neighbour and the others keep their marks",
    [one(77, move(9, 1)), one(78, move(9, 1, 2))], BEFORE,
)
marked(
    "of_the_same_value", "a row that is given the value it has is marked anew",
    [one(77, binding(5, 0, quad(2)), availability(5, 3), update(9, 1, text("Ok")), update(9, 2, signed(-4)))],
    ["77", "-", "77", "77", "77", "-"],
)

# ---- one operation after the other

marked(
    "of_the_last_update", "the patch that last gave the value counts",
    [one(77, update(9, 1, quad(0))), one(78, update(9, 1, quad(1))), one(70, update(9, 1, quad(2)))],
    ["1", "-", "1", "70", "1", "-"],
)
marked(
    "of_later_patches_of_one_set", "each patch of a set marks with its own id",
    [[patch(1, [update(9, 1, quad(0)), binding(5, 0, quad(0))], id=91),
    patch(2, [update(9, 1, quad(1)), insert(9, 3, quad(0))], id=92),
        patch(3, [update(9, 2, quad(1)), binding(5, 1, quad(0))], id=90)]],
    ["91", "90", "1", "92", "90", "92"],
)
marked(
    "of_an_insert_and_a_move", "an entry that is inserted and then moved has the insert's patch",
    [[patch(1, [insert(9, 3, quad(0))], id=91), patch(2, [move(9, 3, 1)], id=92)]], ["1", "-", "1", "1", "1", "91"],
)
marked(
    "of_an_insert_an_update_and_a_move", "an insert, an update and a move: the update's patch",
    [[patch(1, [insert(9, 3, quad(0))], id=91), patch(2, [update(9, 3, quad(1))], id=92), patch(3, [move(9, 3, 1)], id=93)]],
    ["1", "-", "1", "1", "1", "92"],
)
marked(
    "of_a_move_and_an_update", "a move and then an update: the update's patch",
    [one(77, move(9, 1), update(9, 1, quad(0))), one(78, move(9, 1, 2))], ["1", "-", "1", "77", "1", "-"],
)
marked("of_a_new_insert", "removed and inserted again, in one patch, in two and in two batches: the insert's patch", [
    one(77, remove(9, 1), insert(9, 1, text("Ok"))),
    [patch(1, [remove(9, 2)], id=91), patch(2, [insert(9, 2, signed(-4))], id=92)],
], ["1", "-", "1", "77", "92", "-"])
marked(
    "of_a_new_insert_later", "removed by one batch and inserted again by a later one",
    [one(77, remove(9, 1)), one(78, remove(9, 2)), one(79, insert(9, 1, text("Ok")))], ["1", "-", "1", "79", "-", "-"],
)
marked("of_an_emptied_collection", "a collection that was emptied and filled again has the marks of its new entries", [
    one(77, remove(9, 1), remove(9, 2)), one(78, insert(9, 2, quad(0))), one(76, insert(9, 3, quad(0), before=2)),
], ["1", "-", "1", "-", "78", "76"])
marked(
    "of_an_id_used_twice", "an id may come again in a later batch",
    [one(1, insert(9, 3, quad(0))), one(77, update(9, 2, quad(0))), one(77, update(9, 1, quad(0)))],
    ["1", "-", "1", "77", "77", "1"],
)
marked(
    "of_the_largest_id", "an id may be as large as 2^64-1", [one(2**64 - 1, update(9, 1, quad(0)), availability(5, 1))],
    ["1", "-", "18446744073709551615", "18446744073709551615", "1", "-"],
)
marked("of_other_numbers_of_a_patch", "no other number of the patch is the mark", [
    [patch(1, [update(9, 1, quad(0))], id=77, stream=2, document=3, surface=4, previous=5, revision=6, epoch=8, sequence=9)],
], ["1", "-", "1", "77", "1", "-"])

# ---- which row

case(
    "mark_of_rows_alike",
    "a binding and an availability of one node, slots of one node, and one key in two collections are rows of their own",
    ASKED,
    set_up(nodes=(5, 9), bindings=((5, 0), (5, 1), (9, 1)), collections=(5, 9))
    + [batch(n, one(n * 11, made)) for n, made in enumerate([
        binding(5, 0, quad(0)), binding(5, 1, quad(0)), binding(9, 1, quad(0)), availability(5, 0), availability(9, 0),
        insert(5, 1, quad(0)),
        insert(9, 1, quad(0)), insert(9, 5, quad(0)),
    ], 1)]
    + asked(
        ["binding 5 0", "binding 5 1", "binding 9 1", "node 5", "node 9", "entry 5 1", "entry 9 1", "entry 9 5", "entry 5 5",
        "entry 1 9"],
    ),
    ["S 0"] + ["R applied 0 0 0 0 %d" % n for n in range(1, 9)] + told("11 22 33 44 55 66 77 88 - -".split()),
)
case(
    "mark_of_rows_that_are_not_there", "a row that is not stored has no mark, whatever its numbers", ASKED,
    started() + asked(["binding 5 1", "binding 5 4294967295", "binding 0 0", "node 0", "node 6", "node 18446744073709551615",
    "entry 9 3", "entry 8 1", "entry 0 0"]),
    STARTED + told("-" * 9),
)
FULL = [
    patch(n, [insert(9, 2 * n - 1, quad(0)), insert(9, 2 * n, quad(0)), binding(5, n - 1, quad(0)), availability(n, 0)],
    id=1000 - n) for n in range(1, 65)
]
case(
    "mark_of_a_full_panel", "64 bindings, 64 availabilities and 128 entries have a mark each", ASKED,
    set_up(patches=64, references=256, nodes=range(1, 65), bindings=[(5, slot) for slot in range(64)]) + [batch(1, FULL)]
    + ["mark binding 5 %d" % slot for slot in range(64)] + ["mark node %d" % node for node in range(1, 65)]
    + ["mark entry 9 %d" % key for key in range(1, 129)],
    ["S 0", "R applied 0 0 0 0 1"] + ["X %d" % (999 - slot) for slot in range(64)]
    + ["X %d" % (1000 - node) for node in range(1, 65)]
    + ["X %d" % (1000 - (key + 1) // 2) for key in range(1, 129)],
)

# ---- batches that change nothing

ALL = [binding(5, 0, quad(0)), availability(5, 0), update(9, 1, quad(0)), insert(9, 3, quad(0))]
case(
    "mark_after_rejected_batches", "a rejected batch leaves every mark, at whichever step it is refused", SET,
    started(references=64) + [
        batch(4, one(77, *ALL), session=8), batch(4, one(77, *ALL), stimulus=101), batch(4, one(77, *ALL), count=2),
        batch(4, one(77, *ALL, remove(8, 1))),
        batch(5, one(77, *ALL)), batch(4, one(77, *ALL, remove(9, 7))), batch(4, one(77, *ALL, *ALL)),
        batch(4, one(77, *ALL, update(9, 2, text(b"\xff")))),
        batch(4, [patch(1, ALL, id=77), patch(2, [remove(9, 2), move(9, 4)], id=78)]),
        batch(
            4, [patch(1, ALL, id=77), patch(2, [insert(9, key, quad(0)) for key in range(4, 130)], id=78)], references=130,
        ),
    ] + asked(),
    STARTED + ["R rejected %s 1 1 3" % refusal for refusal in ("1 1", "4 4", "5 4", "6 5", "7 6", "8 8", "11 4", "10 4",
    "8 8", "4 4")] + told(BEFORE),
)
case(
    "mark_after_a_full_panel", "a batch that stops with 9 leaves every mark", SET,
    started(references=200)
    + [batch(4, [patch(1, ALL, id=77), patch(2, [insert(9, key, quad(0)) for key in range(4, 130)], id=78)])] + asked(),
    STARTED + ["R rejected 9 8 1 1 3"] + told(BEFORE),
)
case(
    "mark_after_other_calls", "empty batches, lifecycle steps, checks, listings and look-ups leave every mark", SET,
    started() + [batch(900, []), "apply activate 0", "check " + hex_of(one(77, *ALL)), listed(one(77, availability(5, 0))),
    "value entry 9 1", "mark entry 9 1"]
    + asked() + ["apply close 0"] + asked() + ["show"],
    STARTED + ["R no-change 0 0 0 0 3", "L applied 0 0 0 0 active 3 0", "K 0 set 0", "P 1", "A 5 0", "V T Ok", "X 1"]
    + told(BEFORE)
    + ["L applied 0 0 0 0 closed 3 0"] + told(BEFORE) + PANEL,
)
case(
    "mark_without_a_session", "without a session there are no marks: N; a new session has none yet",
    "spec_replay Replay.asked",
    set_up()[:-1] + asked() + ["create"] + asked() + [batch(1, one(77, *ALL[:2]))] + asked() + ["create"] + asked(),
    ["N"] * 6 + ["S 0"] + told("-" * 6) + ["R applied 0 0 0 0 1"] + told(["77", "-", "77", "-", "-", "-"]) + ["S 0"]
    + told("-" * 6),
)
case(
    "mark_is_not_listed", "the listing stays without the marks", "spec_listing Listing.projectionLines",
    started() + ["show", batch(4, one(77, update(9, 1, text("Ok")))), "show", "mark entry 9 1", "value entry 9 1"],
    STARTED + PANEL + ["R applied 0 0 0 0 4"] + PANEL + ["X 77", "V T Ok"],
)

# ---- whole and pieces

WHOLE = read_notation("""
patch id=21
insert 9 3 T third
availability 5 0
patch id=22
insert 9 4 before 3 T fourth
move 9 1
update 9 3 Q 0
patch id=23
remove 9 2
binding 5 1 U 1
patch id=24
insert 9 2 Q 1
move 9 4
""")
ENDED = ["1", "23", "21", "1", "24", "22"]


def pieces(cuts):
    ends = list(cuts) + [len(WHOLE)]
    return [WHOLE[start:end] for start, end in zip([0] + list(cuts), ends)]


for name, cuts in [("two", [2]), ("three", [1, 3]), ("four", [1, 2, 3])]:
    sent = pieces(cuts)
    case(
        "mark_whole_and_%s_pieces" % name, "cutting a list into batches leaves the marks alike", CLAIM,
        ["# the whole"] + started() + [batch(4, WHOLE)] + asked() + ["mark entry 9 4", "# the pieces"] + started()
        + [batch(4 + at, piece) for at, piece in enumerate(sent)] + asked() + ["mark entry 9 4"],
        STARTED + ["R applied 0 0 0 0 4"] + told(ENDED + ["22"]) + STARTED
        + ["R applied 0 0 0 0 %d" % (4 + at) for at in range(len(sent))]
        + told(ENDED + ["22"]),
    )
for number in (4, 77, 2**64 - 1):
    case(
        "mark_is_not_the_number_%d" % number, "the batch's number is not the mark", SET,
        set_up() + [batch(number, one(60, *ALL[:2], insert(9, 1, quad(0))))] + asked(),
        ["S 0", "R applied 0 0 0 0 %d" % number] + told(["60", "-", "60", "60", "-", "-"]),
    )

# ---- a random run; who set a row's value last is found in the operations that were applied

BEGIN = set_up(patches=16, references=600, nodes=NODES, bindings=SLOTS, collections=COLLECTIONS)
EVERY = ["binding %d %d" % pair for pair in SLOTS] + ["node %d" % node for node in NODES]
EVERY += ["entry %d %d" % (collection, key) for collection in COLLECTIONS for key in range(1, 10)]


def words(operation):
    """The row as a line names it."""
    if operation.number == 1:
        return "binding %d %d" % (operation.node, operation.slot)
    return "node %d" % operation.node if operation.number == 2 else "entry %d %d" % (operation.collection, operation.key)


def last_marks(applied):
    """The marks after these patches: for each row its last operation but moves, which may have removed it."""
    marks = {
        words(operation): b"-" if operation.number == 5 else b"%d" % sent.id for sent in applied
        for operation in sent.operations if operation.number != 6
    }
    return [marks.get(row, b"-") for row in EVERY]


def run_of_marks(seed, batches):
    chance, projection, number, applied = Chance(seed), Projection(), 1, []
    lines, marks = list(BEGIN), []
    for at in range(1, batches + 1):
        sent = [
            made._replace(id=chance.between(1, 10**6) * 64 + place) for place,
            made in enumerate(patch_list(chance, projection, 4, 6, 9, 25))
        ]
        lines.append(batch(number, sent))
        try:
            projection = apply_patches(projection, sent)
            number, applied = number + 1, applied + sent
        except Stopped:
            pass
        if at % 10 == 0:
            lines += asked(EVERY)
            marks += last_marks(applied)
    return lines, marks


LINES, MARKS = run_of_marks(11, 80)
ANSWERED = random_case(
    "mark_random_run", "80 random batches, some of them rejected; every tenth is followed by the marks of all rows", SET,
    LINES,
)
assert [line[2:] for line in ANSWERED.splitlines()
if line.startswith(b"X")] == MARKS and b"rejected" in ANSWERED and MARKS.count(b"-") < len(MARKS) // 2


def run_of_pieces(seed, runs):
    """Patch lists that apply, whole and in pieces, each followed by the marks of all rows."""
    chance, lines = Chance(seed), BEGIN[:-1]
    for _ in range(runs):
        sent = [made._replace(id=made.id + 500) for made in patch_list(chance, Projection(), 6, 5, 6, 10**9)]
        lines = lines + ["create", batch(50, sent)] + asked(EVERY)
        lines += ["create"] + [batch(50 + at, piece) for at, piece in enumerate(cut(chance, sent))] + asked(EVERY)
    return lines


ANSWERED = random_case(
    "mark_random_pieces", "30 random patch lists, whole and in pieces: the marks of all rows are alike", CLAIM,
    run_of_pieces(12, 30),
)
MARKS = [line for line in ANSWERED.splitlines() if line.startswith(b"X")]
RUNS = [MARKS[at : at + len(EVERY)] for at in range(0, len(MARKS), len(EVERY))]
assert RUNS[0::2] == RUNS[1::2] and len(RUNS) == 60 and b"rejected" not in ANSWERED

# ---- the script

for name, line in [
    ("alone", "mark"), ("missing_slot", "mark binding 5"), ("missing_node", "mark node"), ("missing_key", "mark entry 9"),
    ("extra_binding", "mark binding 5 0 0"),
    ("extra_node", "mark node 5 0"), ("extra_entry", "mark entry 9 1 1"), ("unknown", "mark collection 9"),
    ("slot_2_32", "mark binding 5 4294967296"),
    ("leading_zero", "mark node 05"), ("number_2_64", "mark entry 9 18446744073709551616"), ("upper_case", "Mark node 5"),
    ("two_spaces", "mark  node 5"),
]:
    bad("mark_" + name, "marks are asked for by binding, node or entry, as values are", "spec_replay Script.values", line)
