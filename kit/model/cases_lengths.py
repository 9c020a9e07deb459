"""The length of each collection, after each operation and each refusal."""

from build import patches_of, quad, text
from cases_script import bad
from chance import Chance
from kit import PANEL, STARTED, batch, case, check, listed, random_case, rules_of, set_up, started
from patch import availability, binding, insert, move, remove, update
from projection import Projection, Stopped, apply_patches
from random_sets import COLLECTIONS, NODES, SLOTS, cut, patch_list

rules_of("Job 3 in document 02", answers="02")

LENGTH = "spec_lengths Lengths.lengthOf"
CLAIM = "spec_splitting Splitting; session_splitting Claim"
ASKED = "spec_replay Replay.asked"


def lengths(*collections):
    return ["length %d" % collection for collection in collections]


def told(*numbers):
    return ["Z %d" % number for number in numbers]


def on_lists(name, rule, steps):
    """The panel, whose collection 9 has two entries; batches, and after each the lengths of 8, 9 and 10."""
    lines, answers = started(collections=(8, 9, 10)) + lengths(8, 9, 10), STARTED + told(0, 2, 0)
    for number, (operations, after) in enumerate(steps, 4):
        lines += [batch(number, patches_of(operations))] + lengths(8, 9, 10)
        answers += ["R applied 0 0 0 0 %d" % number] + told(*after)
    case("length_" + name, rule, LENGTH, lines, answers)


# ---- each operation

on_lists("after_an_insert", "an insert makes its own collection longer by one, wherever it is placed", [
    ([insert(9, 3, quad(0))], (0, 3, 0)), ([insert(9, 4, quad(0), before=1)], (0, 4, 0)),
    ([insert(8, 1, quad(0))], (1, 4, 0)),
    ([insert(10, 1, quad(0)), insert(8, 2, quad(0), before=1), insert(10, 2, quad(0))], (2, 4, 2)),
])
on_lists("after_a_removal", "a removal makes its own collection shorter by one", [
    ([insert(8, 1, quad(0)), insert(8, 2, quad(0)), insert(10, 1, quad(0))], (2, 2, 1)), ([remove(9, 1)], (2, 1, 1)),
    ([remove(8, 1)], (1, 1, 1)),
    ([remove(10, 1)], (1, 1, 0)), ([remove(8, 2), remove(9, 2)], (0, 0, 0)),
])
on_lists(
    "after_an_update", "an update leaves the length",
    [([update(9, 1, quad(0))], (0, 2, 0)), ([update(9, 1, text("")), update(9, 2, quad(0))], (0, 2, 0))],
)
on_lists(
    "after_a_move", "a move leaves the length", [([move(9, 1)], (0, 2, 0)), ([move(9, 1, 2), move(9, 2, 1)], (0, 2, 0))],
)
on_lists(
    "after_bindings_and_availabilities", "bindings and availabilities are in no collection",
    [([binding(5, 1, quad(0)), availability(5, 0)], (0, 2, 0))],
)
on_lists("after_all_operations_in_one_set", "what counts is what the set leaves", [
    (
        [insert(9, 3, quad(0)), remove(9, 1), update(9, 3, quad(1)), move(9, 3, 2), remove(9, 3), insert(9, 1, quad(0)),
        insert(8, 1, quad(0)), remove(8, 1)], (0, 2, 0)
    ),
])

# ---- emptied, never seen

on_lists("of_an_emptied_collection", "a collection that was emptied reads 0, and counts from 0 when it is filled again", [
    ([remove(9, 1), remove(9, 2)], (0, 0, 0)), ([insert(9, 1, quad(0))], (0, 1, 0)), ([remove(9, 1)], (0, 0, 0)),
    ([insert(9, 7, quad(0)), insert(9, 8, quad(0))], (0, 2, 0)),
])
on_lists(
    "emptied_and_filled_in_one_set", "emptied and filled again in one patch",
    [([remove(9, 1), remove(9, 2), insert(9, 1, quad(0))], (0, 1, 0)), ([remove(9, 1), insert(9, 1, quad(0))], (0, 1, 0))],
)
case(
    "length_of_collections_never_seen", "a collection never seen reads 0, in the catalogue or not", LENGTH,
    started() + lengths(0, 1, 5, 8, 10, 2**32, 2**64 - 1, 9), STARTED + told(0, 0, 0, 0, 0, 0, 0, 2),
)
case(
    "length_needs_no_anchor", "a collection that only the catalogue has reads 0", LENGTH,
    set_up(collections=(1, 2, 2**64 - 1)) + lengths(1, 2, 2**64 - 1),
    ["S 0"] + told(0, 0, 0),
)

# ---- refusals and other calls

GROWING = [insert(9, 3, quad(0)), insert(8, 1, quad(0)), remove(9, 1)]
case(
    "length_after_a_batch_that_breaks_off", "a batch that breaks off after inserts and removals leaves every length", LENGTH,
    started(collections=(8, 9)) + [
        batch(4, patches_of(GROWING + [remove(9, 1)])),
        batch(4, patches_of(GROWING, [remove(8, 1), remove(9, 2), remove(9, 3)], [update(9, 3, quad(0))])),
        batch(4, patches_of([remove(9, 1), remove(9, 2)], [move(9, 2)])),
        batch(4, patches_of(GROWING, [insert(8, 2, quad(0), before=7)])),
    ] + lengths(8, 9) + ["show", batch(4, patches_of(GROWING))] + lengths(8, 9),
    STARTED + ["R rejected 11 4 1 1 3"] + ["R rejected 8 8 1 1 3"] * 3 + told(0, 2) + PANEL + ["R applied 0 0 0 0 4"]
    + told(1, 2),
)
case(
    "length_after_a_full_panel", "a batch that stops with 9 leaves every length", LENGTH,
    started(collections=(8, 9), references=200)
    + [batch(4, patches_of([insert(8, key, quad(0)) for key in range(1, 127)],
    [remove(9, 1), insert(9, 1, quad(0)), insert(9, 3, quad(0))]))] + lengths(8, 9)
    + [batch(4, patches_of([insert(8, key, quad(0)) for key in range(1, 127)]))] + lengths(8, 9),
    STARTED + ["R rejected 9 8 1 1 3"] + told(0, 2) + ["R applied 0 0 0 0 4"] + told(126, 2),
)
case(
    "length_after_rejected_batches", "a batch that is refused before its operations leaves every length", LENGTH,
    started(collections=(8, 9)) + [
        batch(4, patches_of(GROWING), session=8), batch(4, patches_of(GROWING), stimulus=101),
        batch(4, patches_of(GROWING), references=2),
        batch(4, patches_of(GROWING + [remove(7, 1)])), batch(5, patches_of(GROWING)),
        batch(4, patches_of(GROWING + GROWING)),
    ] + lengths(8, 9),
    STARTED + ["R rejected %s 1 1 3" % refusal for refusal in ("1 1", "4 4", "5 4", "6 5", "7 6", "11 4")] + told(0, 2),
)
case(
    "length_after_other_calls",
    "empty batches, lifecycle steps, checks and listings leave every length; a closed session tells it", LENGTH,
    started() + [batch(900, []), check(patches_of([insert(9, 3, quad(0))])), listed(patches_of([insert(9, 3, quad(0))])),
    "apply activate 0"] + lengths(9)
    + ["apply close 0"] + lengths(9, 8) + [batch(4, patches_of([insert(9, 3, quad(0))]))] + lengths(9),
    STARTED + [
        "R no-change 0 0 0 0 3", "K 0 set 0", "P 1", "C 9 3 Q 0", "L applied 0 0 0 0 active 3 0", "Z 2",
        "L applied 0 0 0 0 closed 3 0", "Z 2", "Z 0",
    ]
    + ["R rejected 2 2 1 1 3", "Z 2"],
)
case(
    "length_without_a_session", "without a session there are no lengths: N; a new session has none yet", ASKED,
    set_up()[:-1] + ["length 9", "create", "length 9", batch(1, patches_of([insert(9, 3, quad(0))])), "length 9", "create",
    "length 9"],
    ["N", "S 0", "Z 0", "R applied 0 0 0 0 1", "Z 1", "S 0", "Z 0"],
)

# ---- many collections, many entries

MANY = range(1000, 1128)
case(
    "length_of_128_collections",
    "128 collections of one entry each have a length of 1 each; one is emptied, and another filled in its place", LENGTH,
    set_up(references=300, collections=MANY) + [batch(1, patches_of([insert(number, 1, quad(0)) for number in MANY]))]
    + lengths(*MANY)
    + [batch(2, patches_of([remove(1064, 1)], [insert(1127, 2, quad(0))]))] + lengths(1063, 1064, 1065, 1127)
    + lengths(999, 1128),
    ["S 0", "R applied 0 0 0 0 1"] + told(*[1] * 128) + ["R applied 0 0 0 0 2"] + told(1, 0, 1, 2, 0, 0),
)
case(
    "length_rows_are_free_again", "128 collections are emptied and 128 others filled: an emptied collection takes no place",
    LENGTH,
    [listed(patches_of(
        [insert(number, 1, quad(0)) for number in range(1, 129)], [remove(number, 1) for number in range(1, 129)],
        [insert(number, 1, quad(1)) for number in range(129, 257)],
    ))],
    ["P 128"] + ["C %d 1 Q 1" % number for number in range(129, 257)],
)
case(
    "length_of_128_entries", "a collection of 128 entries has a length of 128, and the 129th leaves it", LENGTH,
    set_up(references=200, collections=(8, 9))
    + [batch(1, patches_of([insert(9, key, quad(0)) for key in range(1, 129)])), "length 9"]
    + [
        batch(2, patches_of([insert(9, 129, quad(0))])), "length 9", batch(2, patches_of([insert(8, 1, quad(0))])),
        "length 8",
    ]
    + [batch(2, patches_of([remove(9, 5)], [insert(8, 1, quad(0))]))] + lengths(9, 8)
    + [batch(3, patches_of([remove(9, key) for key in range(6, 129)])), "length 9"],
    [
        "S 0", "R applied 0 0 0 0 1", "Z 128", "R rejected 9 8 1 1 1", "Z 128", "R rejected 9 8 1 1 1", "Z 0",
        "R applied 0 0 0 0 2", "Z 127", "Z 1", "R applied 0 0 0 0 3", "Z 4",
    ],
)
case(
    "length_of_collections_out_of_order", "collections come in any order, and numbers up to 2^64-1", LENGTH,
    set_up(collections=(2**64 - 1, 1, 2**32, 0)) + [
        batch(
            1, patches_of([insert(2**64 - 1, 1, quad(0)), insert(1, 1, quad(0)), insert(2**32, 1, quad(0)),
            insert(0, 1, quad(0)), insert(1, 2, quad(0))]),
        ),
        batch(2, patches_of([remove(2**32, 1), insert(2**64 - 1, 0, quad(0))])),
    ] + lengths(0, 1, 2, 2**32, 2**64 - 1),
    ["S 0", "R applied 0 0 0 0 1", "R applied 0 0 0 0 2"] + told(1, 2, 0, 0, 2),
)

# ---- whole and pieces, and a random run

WHOLE = patches_of(
    [insert(9, 3, quad(0)), insert(8, 1, quad(0))], [remove(9, 1), remove(9, 2)], [insert(8, 2, quad(0)), remove(9, 3)],
    [insert(9, 9, quad(0)), move(8, 1)],
)
case(
    "length_whole_and_pieces", "cutting a list into batches leaves the lengths alike", CLAIM,
    started(collections=(8, 9)) + [batch(4, WHOLE)] + lengths(8, 9) + started(collections=(8, 9))
    + [line for at, piece in enumerate(WHOLE) for line in [batch(4 + at, [piece])] + lengths(8, 9)],
    STARTED + ["R applied 0 0 0 0 4"] + told(2, 1) + STARTED
    + [
        line for at, after in enumerate([(1, 3), (1, 1), (2, 0), (2, 1)]) for line in ["R applied 0 0 0 0 %d" % (4 + at)]
        + told(*after)
    ],
)
BEGIN = set_up(patches=16, references=600, nodes=NODES, bindings=SLOTS, collections=COLLECTIONS)


def run_of_lengths(seed, batches):
    """Batch after batch, each followed by all lengths and the panel."""
    chance, projection, number, lines = Chance(seed), Projection(), 1, list(BEGIN)
    for _ in range(batches):
        sent = patch_list(chance, projection, 3, 6, 5, 12)
        for piece in cut(chance, sent):
            lines += [batch(number, piece)] + lengths(7, *COLLECTIONS) + ["show"]
            try:
                projection = apply_patches(projection, piece)
                number += 1
            except Stopped:
                break
    return lines


def check_lengths(answers):
    """The lengths are those of the panel that is shown behind them."""
    asked, shown = [], []
    for line in answers.splitlines() + [b"R"]:
        fields = line.split(b"\t")
        if fields[0] == b"R":
            assert asked == [b"%d" % shown.count(b"%d" % collection) for collection in (7,) + COLLECTIONS][: len(asked)]
            asked, shown = [], []
        elif fields[0] == b"Z":
            asked.append(fields[1])
        elif fields[0] == b"C":
            shown.append(fields[1])


ANSWERED = random_case(
    "length_random_run", "60 random lists in pieces, some of them rejected: the lengths are those of the panel shown",
    LENGTH, run_of_lengths(3, 60),
)
check_lengths(ANSWERED)
assert ANSWERED.count(b"R\trejected") > 5 and ANSWERED.count(b"R\tapplied") > 60

# ---- the script

for name, line in [
    ("missing", "length"), ("empty", "length "), ("extra", "length 9 9"), ("leading_zero", "length 09"),
    ("dash", "length -"), ("2_64", "length 18446744073709551616"),
    ("upper_case", "Length 9"), ("word", "length collection 9"),
]:
    bad("length_" + name, "length has one field, a collection's number", "spec_replay Script.command", line)
