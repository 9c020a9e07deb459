"""Several batches, or none: groups of up to eight, their lengths, and which batch is refused."""

from build import patches_of, quad, score, text
from canonical import encode_set
from cases_script import bad
from chance import Chance
from kit import PANEL, STARTED, batch, case, on_panel, random_case, rules_of, set_up, started
from landed import LANDED
from patch import availability, binding, insert, move, operations_of, remove, update
from projection import Projection
from random_sets import COLLECTIONS, NODES, SLOTS, cut, patch_list

rules_of("Job 12 in document 02", answers="02")

GROUP = "spec_group Group.group"
ADDED = "spec_group Group.isGroup"
CLAIM = "spec_group Singly.GroupAsWhole"
LAST = 2**64 - 1
Q = quad(0)


def member(sequence, patches, session=7, count=None, stimulus=10, references=None, edition=1, data=None, length=None):
    """A batch of a group, and its bytes; what is left out is true."""
    data = encode_set(patches, edition) if data is None else data
    count = len(patches) if count is None else count
    references = len(operations_of(patches)) if references is None else references
    length = len(data) if length is None else length
    return "%d,%d,%d,%d,%d,%d,%d" % (session, sequence, count, stimulus, references, edition, length), data


def group(*members, behind=b""):
    data = b"".join(data for _, data in members) + behind
    return " ".join(["group"] + [words for words, _ in members] + [data.hex() or "-"])


def one(*operations):
    return patches_of(operations)


GOOD = [
    member(4, one(availability(5, 0))), member(5, one(insert(9, 3, Q))),
    member(6, one(update(9, 3, quad(1)), move(9, 3, 1))),
]
AFTER = ["P 5", "B 5 0 Q 2", "A 5 0", "C 9 3 Q 1", "C 9 1 T Ok", "C 9 2 S -4"]

# ---- groups that are taken

on_panel(
    "group_of_one", "a group of one batch is that batch", GROUP, [group(GOOD[0])], ["U 0 1 4"],
    panel=["P 4", "B 5 0 Q 2", "A 5 0", "C 9 1 T Ok", "C 9 2 S -4"],
)
on_panel(
    "group_of_three", "all are taken in order, each on what the ones before it left", GROUP, [group(*GOOD), "apply noop 0"],
    ["U 0 3 6", "L no-change 0 0 0 0 created 6 0"], panel=AFTER,
)
EIGHT = [member(4 + at, one(insert(9, 10 + at, quad(at % 4)))) for at in range(9)]
on_panel(
    "group_of_eight", "eight batches are a group", GROUP, [group(*EIGHT[:8])], ["U 0 8 11"], panel=["P 12"] + PANEL[1:]
    + ["C 9 %d Q %d" % (10 + at, at % 4) for at in range(8)],
)
on_panel(
    "group_after_group", "a group is followed by batches and groups as single batches are", GROUP,
    [group(*GOOD[:1]), batch(5, one(insert(9, 3, Q))), group(GOOD[2]), group(member(6, one(remove(9, 3)))),
    group(member(7, one(binding(5, 1, Q))))],
    ["U 0 1 4", "R applied 0 0 0 0 5", "U 0 1 6", "U 0 0 0", "R rejected 7 6 1 1 6", "U 0 1 7"],
    panel=["P 6", "B 5 0 Q 2", "B 5 1 Q 0"] + AFTER[2:],
)
case(
    "group_as_if_sent_singly", "the group ends as the same batches sent one by one", GROUP,
    started() + [group(*GOOD), "show", "apply noop 0"] + started()
    + ["batch " + words.rsplit(",", 2)[0].replace(",", " ") + " " + data.hex() for words, data in GOOD]
    + ["show", "apply noop 0"],
    STARTED + ["U 0 3 6"] + AFTER + ["L no-change 0 0 0 0 created 6 0"] + STARTED
    + ["R applied 0 0 0 0 %d" % n for n in (4, 5, 6)] + AFTER + ["L no-change 0 0 0 0 created 6 0"],
)
case(
    "group_from_uninitialized",
    "the first batch of a group may have any number where a single one may; the last may be 2^64-1", GROUP,
    set_up() + [group(member(900, one(availability(5, 0))), member(901, one(availability(5, 1)))), "create",
    group(member(LAST - 1, one(availability(5, 0))), member(LAST, one(availability(5, 1)))), "show"]
    + [
        group(member(0, one(availability(5, 2)))), "create",
        group(member(LAST, one(availability(5, 0))), member(0, one(availability(5, 1)))), "show",
    ],
    [
        "S 0", "U 0 2 901", "S 0", "U 0 2 18446744073709551615", "P 1", "A 5 1", "U 0 0 0",
        "R rejected 7 6 1 1 18446744073709551615", "S 0", "U 0 0 1", "R rejected 7 6 1 1 -", "P 0",
    ],
)
for lifecycle, steps in [("active", ["activate"]), ("suspended", ["activate", "suspend"])]:
    on_panel(
        "group_on_an_%s_session" % lifecycle if lifecycle == "active" else "group_on_a_suspended_session",
        "any session that takes batches takes groups", GROUP,
        ["apply %s 0" % step for step in steps] + [group(*GOOD)],
        ["L applied 0 0 0 0 %s 3 0" % state for state in ("active", "suspended")[: len(steps)]] + ["U 0 3 6"], panel=AFTER,
    )

# ---- batches without patches

EMPTY = member(777, [])
on_panel(
    "group_with_empty_batches", "a batch without patches counts as taken and breaks nothing, wherever it stands", GROUP,
    [group(EMPTY, GOOD[0], EMPTY, EMPTY, GOOD[1], GOOD[2], EMPTY)], ["U 0 7 6"], panel=AFTER,
)
on_panel(
    "group_of_empty_batches", "a group of batches without patches leaves session and cursor", GROUP,
    [group(EMPTY), group(*[EMPTY] * 8), batch(4, [])], ["U 0 1 3", "U 0 8 3", "R no-change 0 0 0 0 3"],
)
case(
    "group_of_empty_batches_on_a_new_session", "a new session stays Uninitialized", GROUP, set_up()
    + [group(EMPTY, EMPTY), "show", "apply noop 0"], ["S 0", "U 0 2 -", "P 0", "L no-change 0 0 0 0 created - 0"],
)
on_panel(
    "group_with_a_refused_empty_batch", "a batch without patches that fails a check is refused as any other", GROUP,
    [group(GOOD[0], member(5, [], session=8)), group(GOOD[0], member(5, [], count=1)),
    group(member(5, [], stimulus=101), GOOD[0])],
    ["U 0 0 1", "R rejected 1 1 1 1 3", "U 0 0 1", "R rejected 5 4 1 1 3", "U 0 0 0", "R rejected 4 4 1 1 3"],
)

# ---- 17

on_panel(
    "group_of_none_17", "no batches are 17, with bytes or without", ADDED,
    ["group -", "group 00", "group " + GOOD[0][1].hex()], ["U 17"] * 3,
)
on_panel(
    "group_of_nine_17", "more than eight are 17, whatever they are", ADDED,
    [group(*EIGHT), group(*[EMPTY] * 9), group(*[EMPTY] * 16), group(*[member(5, [], session=8)] * 9),
    group(*[member(4, [], data=b"")] * 9)], ["U 17"] * 5,
)
ONE_SHORT, ONE_OVER = [
    (words.rsplit(",", 1)[0] + ",%d" % (len(data) + by), data) for words, data in GOOD[:1] for by in (-1, 1)
]
on_panel(
    "group_lengths_17", "lengths that do not add up to the lent bytes are 17: one short, one over, none at all", ADDED,
    [
        group(ONE_SHORT), group(ONE_OVER), group(GOOD[0], ONE_SHORT), group(ONE_OVER, GOOD[0]), group(*GOOD, behind=b"\0"),
        group(*GOOD)[:-2], group(member(4, [], length=0)), group(member(4, [], data=b""), behind=b"\0"),
        group(member(4, [], data=b"", length=1)),
    ],
    ["U 17"] * 9,
)
WRAPPED = [
    (words.rsplit(",", 1)[0] + "," + length, data) for (words, data),
    length in zip(GOOD[:2], ("18446744073709551615", "%d" % (len(GOOD[0][1]) + len(GOOD[1][1]) + 1)))
]
on_panel(
    "group_lengths_that_wrap_17", "lengths are added as whole numbers: a sum past 2^64 is none that wraps", ADDED,
    [
        group(*WRAPPED), group(member(4, [], data=b"", length=2**63), member(4, [], data=b"", length=2**63)),
        group(member(4, [], data=b"", length=LAST), member(4, [], length=36)),
    ],
    ["U 17"] * 3,
)
on_panel(
    "group_lengths_parted_otherwise", "lengths that add up but part the sets elsewhere are each batch's own fault", ADDED,
    [
        group((GOOD[0][0].rsplit(",", 1)[0] + ",%d" % (len(GOOD[0][1]) + 1), GOOD[0][1]),
        (GOOD[1][0].rsplit(",", 1)[0] + ",%d" % (len(GOOD[1][1]) - 1), GOOD[1][1])),
    ]
    + [
        group((GOOD[0][0].rsplit(",", 1)[0] + ",%d" % (len(GOOD[0][1]) - 1), GOOD[0][1]),
        (GOOD[1][0].rsplit(",", 1)[0] + ",%d" % (len(GOOD[1][1]) + 1), GOOD[1][1])),
    ],
    ["U 0 0 0", "R rejected 10 4 1 1 3"] * 2,
)
on_panel(
    "group_17_before_any_batch",
    "17 comes before any batch is looked at: another session, a closed one, bytes that do not read", ADDED,
    [
        group(member(4, one(availability(5, 0)), session=8), behind=b"\0"), group(member(4, [], data=b"\xff"), behind=b"\0"),
        "apply close 0", group(*GOOD, behind=b"\0"), group(*[EMPTY] * 9), "group -",
    ],
    ["U 17", "U 17", "L applied 0 0 0 0 closed 3 0", "U 17", "U 17", "U 17"],
)
on_panel(
    "group_17_has_no_cap", "17 is given as it is, also under a cap of 0", ADDED, ["group -", group(*GOOD, behind=b"\0")],
    ["U 17", "U 17"], diagnostics=0,
)

# ---- a refused batch, first, in the middle and last, for each number

REFUSED = {
    1: ("another session's id", dict(session=8), [update(9, 1, Q)]),
    4: ("a limit that is passed", dict(stimulus=101), [update(9, 1, Q)]),
    5: ("a declared count that is not the actual one", dict(references=2), [update(9, 1, Q)]),
    6: ("an unknown target", {}, [update(8, 1, Q)]),
    7: ("a number that does not follow", dict(sequence=9), [update(9, 1, Q)]),
    8: ("a key that is not there", {}, [update(9, 1, Q), remove(9, 77)]),
    9: ("a full panel", {}, [insert(9, key, Q) for key in range(100, 227)]),
    10: ("bytes that do not read", dict(data=encode_set([]) + b"\0"), []),
    11: ("findings", {}, [update(9, 1, Q), update(9, 1, Q)]),
    12: ("a text over its capacity", {}, [update(9, 1, text("x" * 161))]),
}
STAGES = {1: 1, 4: 4, 5: 4, 6: 5, 7: 6, 8: 8, 9: 8, 10: 4, 11: 4, 12: 4}


def place_of(number, place):
    """A group of three whose batch at this place is refused with the number."""
    _, parts, operations = REFUSED[number]
    parts = {"sequence": 4 + place, **parts}
    wrong = member(parts.pop("sequence"), one(*operations), **parts)
    right = [
        member(4 + at, one(availability(5, at), binding(5, 1, quad(at)), *([insert(9, 5 + at, Q)] if at < 2 else [])))
        for at in range(3)
    ]
    return group(*right[:place], wrong, *right[place + 1 :])


for number, (words, _, _) in REFUSED.items():
    on_panel(
        "group_refused_%d" % number,
        "%s (%d) in the first, the second and the last batch: none is taken, and the cursor stays" % (words, number), GROUP,
        [place_of(number, place) for place in range(3)] + [batch(4, [])],
        [line for place in range(3) for line in ("U 0 0 %d" % place, "R rejected %d %d 1 1 3" % (number, STAGES[number]))]
        + ["R no-change 0 0 0 0 3"], references=200,
    )
on_panel(
    "group_on_a_closed_session_2", "a closed session refuses the first batch with 2", GROUP,
    ["apply close 0", group(*GOOD), group(EMPTY), group(*[EMPTY] * 8)], ["L applied 0 0 0 0 closed 3 0"]
    + ["U 0 0 0", "R rejected 2 2 1 1 3"] * 3,
)
on_panel(
    "group_refusal_under_a_cap", "the refused batch's answer has its own logical and emitted counts", GROUP,
    [
        group(GOOD[0], member(5, one(update(8, 1, Q), update(8, 2, Q), update(9, 1, Q), update(7, 1, Q)))),
        group(GOOD[0], member(7, one(update(9, 1, Q)))),
    ],
    ["U 0 0 1", "R rejected 6 5 3 2 3", "U 0 0 1", "R rejected 7 6 1 1 3"], diagnostics=2,
)
on_panel(
    "group_refusal_under_a_cap_of_0", "under a cap of 0 the place still tells the refused batch", GROUP,
    [group(GOOD[0], member(5, one(remove(9, 77))), GOOD[2]), group(member(4, one(update(8, 1, Q), update(8, 2, Q))), *GOOD)],
    ["U 0 0 1", "R rejected 0 0 1 0 3", "U 0 0 0", "R rejected 0 0 2 0 3"], diagnostics=0,
)
case(
    "group_refused_on_a_new_session", "a new session stays Uninitialized after a refused group", GROUP,
    set_up() + [group(member(50, one(availability(5, 0))), member(51, one(remove(9, 1)))), "show", "apply noop 0",
    group(member(9, one(availability(5, 0))))],
    ["S 0", "U 0 0 1", "R rejected 8 8 1 1 -", "P 0", "L no-change 0 0 0 0 created - 0", "U 0 1 9"],
)
on_panel(
    "group_first_refused_batch", "the first refused batch is told, and the later ones are not looked at", GROUP,
    [
        group(GOOD[0], member(5, one(remove(9, 77))), member(6, [], data=b"\xff"), member(6, [], session=8)),
        group(GOOD[0], member(9, one(update(9, 1, Q))), member(5, one(remove(9, 77)))),
    ],
    ["U 0 0 1", "R rejected 8 8 1 1 3", "U 0 0 1", "R rejected 7 6 1 1 3"],
)
on_panel(
    "group_judged_after_the_ones_before",
    "a batch is judged on what the ones before it left: a key inserted before, a key removed before, the cursor", GROUP,
    [
        group(member(4, one(insert(9, 3, Q))), member(5, one(insert(9, 3, Q)))),
        group(member(4, one(remove(9, 1))), member(5, one(update(9, 1, Q)))),
        group(member(4, one(remove(9, 1))), member(4, one(update(9, 2, Q)))),
    ]
    + [
        group(member(4, one(remove(9, 1), remove(9, 2))), member(5, one(insert(9, 1, text("neu")))),
        member(6, one(insert(9, 2, Q, before=1)))),
    ],
    ["U 0 0 1", "R rejected 8 8 1 1 3"] * 2 + ["U 0 0 1", "R rejected 7 6 1 1 3", "U 0 3 6"],
    panel=["P 4", "B 5 0 Q 2", "A 5 3", "C 9 2 Q 0", "C 9 1 T neu"],
)
on_panel(
    "group_after_a_refused_group", "after a refused group the next one has the same numbers", GROUP,
    [group(*GOOD[:2], member(6, one(remove(9, 77)))), group(*GOOD)], ["U 0 0 2", "R rejected 8 8 1 1 3", "U 0 3 6"],
    panel=AFTER,
)

# ---- lengths of a batch, and limits

on_panel(
    "group_batch_of_no_bytes_10", "a batch of length 0 has that batch's own 10", GROUP,
    [group(member(4, [], data=b"")), group(GOOD[0], member(5, [], data=b""), GOOD[2]),
    group(member(4, [], data=b"", session=8))],
    ["U 0 0 0", "R rejected 10 4 1 1 3", "U 0 0 1", "R rejected 10 4 1 1 3", "U 0 0 0", "R rejected 1 1 1 1 3"],
)
on_panel(
    "group_batch_of_32769_bytes_12", "a batch longer than 32,768 bytes has its own 12, at its step 4", GROUP,
    [
        group(member(4, [], data=bytes(32769))), group(GOOD[0], member(5, [], data=bytes(32769)), GOOD[2]),
        group(member(4, [], data=bytes(32769), session=8)), group(member(4, [], data=bytes(32768))),
    ],
    [
        "U 0 0 0", "R rejected 12 4 1 1 3", "U 0 0 1", "R rejected 12 4 1 1 3", "U 0 0 0", "R rejected 1 1 1 1 3", "U 0 0 0",
        "R rejected 10 4 1 1 3",
    ],
)
on_panel(
    "group_limits_are_each_batch_s", "limits are for each batch: eight at the limits pass together", GROUP,
    [group(*(
        member(4 + at, one(update(9, 1, quad(at % 4)), update(9, 2, Q), binding(5, 0, Q), availability(5, 3)), stimulus=100)
        for at in range(8)
    ))],
    ["U 0 8 11"], panel=["P 4", "B 5 0 Q 0", "A 5 3", "C 9 1 Q 3", "C 9 2 Q 0"], patches=1, references=4,
)
ENTRIES = [insert(9, key, Q) for key in range(10, 136)]
on_panel(
    "group_fills_the_panel", "128 entries fit over the batches of a group; the 129th refuses them all", GROUP,
    [
        group(*(member(4 + at, one(*ENTRIES[at * 18 : at * 18 + 18])) for at in range(7)),
        member(11, one(insert(9, 200, Q)))),
        group(*(member(4 + at, one(*ENTRIES[at * 18 : at * 18 + 18])) for at in range(7))),
    ],
    ["U 0 0 7", "R rejected 9 8 1 1 3", "U 0 7 10"], panel=["P 130"] + PANEL[1:]
    + ["C 9 %d Q 0" % key for key in range(10, 136)],
)

# ---- editions

on_panel(
    "group_with_editions", "each batch is told its own edition, whatever edition is in force", GROUP,
    [
        group(member(4, one(update(9, 1, score(5))), edition=2), member(5, one(availability(5, 0))),
        member(6, one(update(9, 2, score(100))), edition=2)),
    ]
    + [group(member(7, one(availability(5, 1))), member(8, one(update(9, 2, score(100))), edition=1))]
    + ["edition 2", group(member(7, one(availability(5, 1))), member(8, one(binding(5, 1, score(0))), edition=2))]
    + [
        group(member(9, one(availability(5, 2)), edition=2),
        (member(10, one(availability(5, 3)))[0].replace(",1,106", ",2,106"), encode_set(one(availability(5, 3))))),
    ],
    ["U 0 3 6", "U 0 0 1", "R rejected 10 4 1 1 6", "U 0 2 8", "U 0 0 1", "R rejected 10 4 1 1 8"],
    panel=["P 5", "B 5 0 Q 2", "B 5 1 M 0", "A 5 1", "C 9 1 M 5", "C 9 2 M 100"],
)

# ---- what a refused group leaves

if "marks" in LANDED:
    on_panel(
        "group_and_marks", "a group marks as its patches do, and a refused one leaves every mark", GROUP,
        [
            group(member(4, [made._replace(id=71) for made in one(update(9, 1, Q))]),
            member(5, [made._replace(id=72) for made in one(availability(5, 0))])), "mark entry 9 1", "mark node 5",
        ]
        + [
            group(member(6, [made._replace(id=73) for made in one(update(9, 1, Q))]), member(7, one(remove(9, 77)))),
            "mark entry 9 1", "mark entry 9 2",
        ],
        ["U 0 2 5", "X 71", "X 72", "U 0 0 1", "R rejected 8 8 1 1 5", "X 71", "X 1"],
        panel=["P 4", "B 5 0 Q 2", "A 5 0", "C 9 1 Q 0", "C 9 2 S -4"],
    )
if "lengths" in LANDED:
    on_panel(
        "group_and_lengths", "a refused group leaves every length", GROUP,
        [
            group(member(4, one(insert(9, 3, Q))), member(5, one(remove(9, 77)))), "length 9",
            group(member(4, one(insert(9, 3, Q))), member(5, one(remove(9, 1), remove(9, 2)))), "length 9",
        ],
        ["U 0 0 1", "R rejected 8 8 1 1 3", "Z 2", "U 0 2 5", "Z 1"], panel=["P 3", "B 5 0 Q 2", "A 5 3", "C 9 3 Q 0"],
    )
on_panel(
    "group_and_turns", "a refused group leaves the number for the next sender's batch", GROUP,
    ["senders 1", "wait 0", group(GOOD[0], member(5, one(remove(9, 77)))), "turn", "wait 0", group(*GOOD), "turn"],
    ["J 0", "J 0", "U 0 0 1", "R rejected 8 8 1 1 3", "J 0 4", "J 0", "U 0 3 6", "J 0 7"], panel=AFTER,
)
case(
    "group_without_a_session", "without a session a group answers N", "spec_replay Replay.asked", set_up()[:-1]
    + [group(*GOOD), "group -", group(*[EMPTY] * 9), "create", group(EMPTY)], ["N", "N", "N", "S 0", "U 0 1 -"],
)

# ---- whole and group

WHOLE = patches_of(
    [insert(9, 3, text("third")), availability(5, 0)], [insert(9, 4, text("fourth"), before=3), move(9, 1)],
    [remove(9, 2), binding(5, 1, Q)], [update(9, 3, quad(1)), move(9, 4)],
)
WHOLE_AFTER = ["P 6", "B 5 0 Q 2", "B 5 1 Q 0", "A 5 0", "C 9 3 Q 1", "C 9 1 T Ok", "C 9 4 T fourth"]


def in_pieces(patches, cuts):
    ends = list(cuts) + [len(patches)]
    return [member(4 + at, patches[start:end]) for at, (start, end) in enumerate(zip([0] + list(cuts), ends))]


for name, cuts in [("one_piece", []), ("two_pieces", [1]), ("four_pieces", [1, 2, 3])]:
    case(
        "group_whole_and_%s" % name, "where the whole applies, its pieces as a group are taken and end alike", CLAIM,
        started() + [batch(4, WHOLE), "show"] + started() + [group(*in_pieces(WHOLE, cuts)), "show"],
        STARTED + ["R applied 0 0 0 0 4"] + WHOLE_AFTER + STARTED + ["U 0 %d %d" % (len(cuts) + 1, 4 + len(cuts))]
        + WHOLE_AFTER,
    )
BROKEN = WHOLE[:2] + [WHOLE[2]._replace(operations=[remove(9, 2), remove(9, 77)])] + WHOLE[3:]
for name, cuts, place in [("first", [3], 0), ("second", [2], 1), ("third", [1, 2, 3], 2)]:
    case(
        "group_whole_fails_in_the_%s_piece" % name,
        "where the whole fails at an operation, the group is refused, and both leave the panel", CLAIM,
        started() + [batch(4, BROKEN), "show"] + started() + [group(*in_pieces(BROKEN, cuts)), "show"],
        STARTED + ["R rejected 8 8 1 1 3"] + PANEL + STARTED + ["U 0 0 %d" % place, "R rejected 8 8 1 1 3"] + PANEL,
    )
MANY = patches_of(*([insert(9, 10 + at, quad(at % 4))] for at in range(16)))
case(
    "group_whole_and_eight_pieces", "sixteen patches in eight pieces of two", CLAIM,
    started(patches=16) + [batch(4, MANY), "show"] + started(patches=16)
    + [group(*in_pieces(MANY, range(2, 16, 2))), "show"],
    STARTED + ["R applied 0 0 0 0 4"] + ["P 20"] + PANEL[1:] + ["C 9 %d Q %d" % (10 + at, at % 4) for at in range(16)]
    + STARTED + ["U 0 8 11"] + ["P 20"] + PANEL[1:]
    + ["C 9 %d Q %d" % (10 + at, at % 4) for at in range(16)],
)
case(
    "group_whole_without_numbers_for_pieces",
    "a new session takes a whole with the number 2^64-1, but not its two pieces, whose second number does not exist", CLAIM,
    set_up() + [batch(LAST, WHOLE[:1] + [WHOLE[1]._replace(operations=[move(9, 3)])]), "create",
    group(member(LAST, WHOLE[:1]), member(0, one(move(9, 3)))), "show"],
    ["S 0", "R applied 0 0 0 0 18446744073709551615", "S 0", "U 0 0 1", "R rejected 7 6 1 1 -", "P 0"],
)

# ---- random lists, whole and as a group

BEGIN = set_up(patches=16, references=600, nodes=NODES, bindings=SLOTS, collections=COLLECTIONS)


def random_groups(seed, runs):
    """Patch lists of up to eight patches, whole on one session and as a group on another; some fail at an operation."""
    chance, lines = Chance(seed), BEGIN[:-1]
    for _ in range(runs):
        sent = patch_list(chance, Projection(), 8, 4, 6, 12)
        lines = lines + ["create", batch(50, sent), "show"]
        lines += ["create", group(*(member(50 + at, piece) for at, piece in enumerate(cut(chance, sent)))), "show"]
    return lines


ANSWERED = random_case(
    "group_random_pieces",
    "100 random patch lists, whole and as a group: both apply, or both are refused with one number, and end alike", CLAIM,
    random_groups(12, 100),
)
RUNS = [run.rstrip(b"\n") for run in (b"\n" + ANSWERED).split(b"\nS\t0\n")[1:]]
TAKEN = 0
for of_whole, of_group in zip(RUNS[0::2], RUNS[1::2]):
    first, panel = of_whole.split(b"\n", 1)
    if first.startswith(b"R\tapplied"):
        TAKEN += 1
        assert of_group.split(b"\n", 1)[1] == panel and of_group.startswith(b"U\t0\t")
    else:
        head, refusal, left = of_group.split(b"\n", 2)
        assert head.startswith(b"U\t0\t0\t") and refusal == first and left == panel == b"P\t0"
assert len(RUNS) == 200 and 25 < TAKEN < 90, TAKEN

# ---- the script

case(
    "group_of_16_is_a_line", "a line has up to 16 batches", "spec_replay Script.groupArguments", started()
    + [group(*[EMPTY] * 16), group(*[EMPTY] * 8)], STARTED + ["U 17", "U 0 8 3"],
)
FIELDS = GOOD[0][0].split(",")
for name, words in [
    ("alone", "group"), ("missing_hex", "group " + GOOD[0][0]), ("17_batches", group(*[EMPTY] * 17)),
    ("hex_first", "group - " + GOOD[0][0]), ("six_numbers", "group %s -" % ",".join(FIELDS[:6])),
    ("eight_numbers", "group %s,1 -" % GOOD[0][0]), ("edition_0", "group %s -" % ",".join(FIELDS[:5] + ["0", "106"])),
    ("edition_3", "group %s -" % ",".join(FIELDS[:5] + ["3", "106"])),
    ("edition_01", "group %s -" % ",".join(FIELDS[:5] + ["01", "106"])),
    ("length_2_64", "group %s -" % ",".join(FIELDS[:6] + ["18446744073709551616"])),
    ("length_leading_zero", "group %s -" % ",".join(FIELDS[:6] + ["0106"])),
    ("number_empty", "group %s -" % ",".join([""] + FIELDS[1:])), ("trailing_comma", "group %s, -" % GOOD[0][0]),
    ("blank_behind_a_comma", "group %s -" % GOOD[0][0].replace(",", ", ", 1)),
    ("semicolons", "group %s -" % GOOD[0][0].replace(",", ";")),
    ("hex_odd", "group %s 1b0" % GOOD[0][0]), ("hex_upper_case", "group %s 1B" % GOOD[0][0]),
    ("hex_empty", "group %s " % GOOD[0][0]), ("two_spaces", "group  -"), ("upper_case", "Group -"),
    ("second_batch_wrong", "group %s 7,4 -" % GOOD[0][0]),
]:
    bad(
        "group_" + name, "a group has up to 16 batches of seven numbers each, parted by commas, and hex",
        "spec_replay Script.groupArguments", words,
    )
