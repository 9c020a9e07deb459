"""Whole and pieces: a patch list sent as one batch, and the same list in pieces to a second session alike."""

from build import patch, patches_of, quad, read_notation
from kit import PANEL, STARTED, batch, case, rules_of, set_up, started
from patch import availability, insert, move, remove, update
from sizes import LAST_U64

rules_of("Whole and pieces")

CLAIM = "spec_splitting Splitting; session_splitting Claim"


def pieces(patches, cuts):
    """The list, cut before these positions."""
    ends = list(cuts) + [len(patches)]
    return [patches[start:end] for start, end in zip([0] + list(cuts), ends)]


def split(name, rule, begin, begun, number, patches, cuts, whole, parts, panel, panel_of_pieces=None, after=(),
    after_answers=()):
    """The whole on one session, shown; then the pieces on a second one made in the same way, shown."""
    sent = [batch(number + at, piece) for at, piece in enumerate(pieces(patches, cuts))][: len(parts)]
    end_of_pieces = panel if panel_of_pieces is None else panel_of_pieces
    case(
        "split_" + name, rule, CLAIM,
        ["# the whole"] + begin + [batch(number, patches), "show", "apply noop 0", "# the pieces"] + begin + sent
        + ["show", "apply noop 0"] + list(after),
        begun + whole + panel + ["L no-change 0 0 0 0 %s 0" % state(begun, whole)] + begun + parts + end_of_pieces
        + ["L no-change 0 0 0 0 %s 0" % state(begun, parts)] + list(after_answers),
    )


def state(begun, answers):
    """Lifecycle and cursor, read off the answers."""
    lifecycle = [answer.split()[6] for answer in begun if answer.startswith("L ")] or ["created"]
    cursor = [answer.split()[6] for answer in begun + answers if answer.startswith("R ")]
    return "%s %s" % (lifecycle[-1], cursor[-1])


def applied(*numbers):
    return ["R applied 0 0 0 0 %d" % number for number in numbers]


GOOD = read_notation("""
patch
insert 9 3 T third
availability 5 0
patch
insert 9 4 before 3 T fourth
move 9 1
patch
remove 9 2
binding 5 1 U 1
patch
update 9 3 Q 1
move 9 4
""")
AFTER = ["P 6", "B 5 0 Q 2", "B 5 1 U 1", "A 5 0", "C 9 3 Q 1", "C 9 1 T Ok", "C 9 4 T fourth"]

split(
    "in_two", "where the whole applies, both pieces do, and both sessions end alike but for the cursor's number",
    started(), STARTED, 4, GOOD, [2], applied(4), applied(4, 5), AFTER,
)
split(
    "in_four", "one piece for each patch: the pieces carry the numbers from the whole's on", started(), STARTED, 4,
    GOOD, [1, 2, 3], applied(4), applied(4, 5, 6, 7), AFTER,
)
split("one_and_three", "uneven pieces", started(), STARTED, 4, GOOD, [1], applied(4), applied(4, 5), AFTER)
split("three_and_one", "uneven pieces", started(), STARTED, 4, GOOD, [3], applied(4), applied(4, 5), AFTER)
split("in_one", "a single piece is the whole", started(), STARTED, 4, GOOD, [], applied(4), applied(4), AFTER)
split(
    "from_uninitialized", "the first piece may have any number where the whole may", set_up(), ["S 0"], 900,
    [GOOD[0], patch(2, [move(9, 3), update(9, 3, quad(0))])], [1], applied(900), applied(900, 901),
    ["P 2", "A 5 0", "C 9 3 Q 0"],
)
split(
    "up_to_the_last_number", "the last piece may have the number 2^64-1", set_up(), ["S 0"], LAST_U64 - 1,
    [GOOD[0], patch(2, [update(9, 3, quad(0))])], [1], applied(LAST_U64 - 1), applied(LAST_U64 - 1, LAST_U64),
    ["P 2", "A 5 0", "C 9 3 Q 0"],
)
split(
    "on_a_suspended_session", "any state that takes batches will do",
    started() + ["apply activate 0", "apply suspend 0"],
    STARTED + ["L applied 0 0 0 0 active 3 0", "L applied 0 0 0 0 suspended 3 0"], 4, GOOD, [1, 3], applied(4),
    applied(4, 5, 6), AFTER,
)

# ---- the whole fails at an operation

BROKEN = "R rejected 8 8 1 1 %d"
BAD = patch(3, [availability(5, 1), remove(9, 77)])
FAILING = GOOD[:2] + [BAD] + GOOD[3:]
BEFORE = ["P 6", "B 5 0 Q 2", "A 5 0", "C 9 2 S -4", "C 9 4 T fourth", "C 9 3 T third", "C 9 1 T Ok"]
FIRST = ["P 5", "B 5 0 Q 2", "A 5 0", "C 9 1 T Ok", "C 9 2 S -4", "C 9 3 T third"]
split(
    "fails_in_the_second_piece",
    "the pieces before the failing operation's piece apply; that piece is refused as the whole is, and no more is sent",
    started(), STARTED, 4, FAILING, [2], [BROKEN % 3], applied(4) + [BROKEN % 4], PANEL, BEFORE,
)
split(
    "fails_in_the_third_piece", "the failing operation in a later piece", started(), STARTED, 4, FAILING, [1, 2, 3],
    [BROKEN % 3], applied(4, 5) + [BROKEN % 5], PANEL, BEFORE,
)
split(
    "fails_in_the_first_piece", "where the first piece is refused, the second session stays as it started", started(),
    STARTED, 4, FAILING, [3], [BROKEN % 3], [BROKEN % 3], PANEL,
)
split(
    "fails_inside_a_piece_of_two", "a refused piece leaves nothing of its earlier patch either", started(), STARTED, 4,
    FAILING, [1, 3], [BROKEN % 3], applied(4) + [BROKEN % 4], PANEL, FIRST,
)
split(
    "piece_after_a_refused_one", "a piece sent after the refused one is met by the cursor: 7", started(), STARTED, 4,
    FAILING, [2, 3], [BROKEN % 3], applied(4) + [BROKEN % 4], PANEL, BEFORE, [batch(6, FAILING[3:]), "show"],
    ["R rejected 7 6 1 1 4"] + BEFORE,
)
FILLING = patches_of(
    [insert(9, key, quad(0)) for key in range(3, 103)], [insert(9, key, quad(0)) for key in range(103, 131)],
    [availability(5, 4)],
)
ROWS = ["P 104", "B 5 0 Q 2", "A 5 3", "C 9 1 T Ok", "C 9 2 S -4"] + ["C 9 %d Q 0" % key for key in range(3, 103)]
split(
    "full_in_the_second_piece", "a panel that fills up in the second piece: 9 for the whole and for that piece",
    started(references=200), STARTED, 4, FILLING, [1, 2], ["R rejected 9 8 1 1 3"],
    applied(4) + ["R rejected 9 8 1 1 4"], PANEL, ROWS,
)
split(
    "cap_0", "under a cap of 0 whole and piece hide the same number", started(diagnostics=0), STARTED, 4, FAILING, [2],
    ["R rejected 0 0 1 0 3"], applied(4) + ["R rejected 0 0 1 0 4"], PANEL, BEFORE,
)

# ---- where the claim promises nothing: the whole is refused before step 9

split(
    "whole_over_the_patch_limit", "a whole over the patch limit is refused (4), while its pieces pass",
    started(patches=2), STARTED, 4, GOOD, [2], ["R rejected 4 4 1 1 3"], applied(4, 5), PANEL, AFTER,
)
split(
    "whole_over_the_reference_limit", "a whole over the reference limit is refused (4), while its pieces pass",
    started(references=4), STARTED, 4, GOOD, [2], ["R rejected 4 4 1 1 3"], applied(4, 5), PANEL, AFTER,
)
split(
    "whole_with_findings", "a finding between two patches (11) is not seen where they come in two pieces", started(),
    STARTED, 4, [GOOD[0], GOOD[1]._replace(id=1)], [1], ["R rejected 11 4 1 1 3"], applied(4, 5), PANEL,
    ["P 6", "B 5 0 Q 2", "A 5 0", "C 9 2 S -4", "C 9 4 T fourth", "C 9 3 T third", "C 9 1 T Ok"],
)
split(
    "whole_with_absent_target", "an absent target in the second patch refuses the whole (6) and the second piece",
    started(), STARTED, 4, [GOOD[0], patch(2, [availability(6, 1)])], [1], ["R rejected 6 5 1 1 3"],
    applied(4) + ["R rejected 6 5 1 1 4"], PANEL, FIRST,
)
