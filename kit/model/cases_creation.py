"""Creation: anchors, 13, and what a new session is."""

from build import patches_of
from kit import PANEL, STARTED, batch, case, rules_of, set_up, started
from patch import availability

rules_of("Lifecycle")

ANCHORS_128 = range(1, 129)
CREATE = "spec_session Session.create and anchorsFit"

case(
    "create_new_session", "what a new session begins with: Created, no number yet, an empty panel",
    "spec_session Session.newSession", set_up() + ["apply noop 0", "show"],
    ["S 0", "L no-change 0 0 0 0 created - 0", "P 0"],
)

rules_of("Rejections born of the input")
KINDS = {
    "nodes": (dict(nodes=ANCHORS_128), "node 129"),
    "bindings": (dict(bindings=[(node, 0) for node in ANCHORS_128]), "binding 129 0"),
    "collections": (dict(collections=ANCHORS_128), "collection 129"),
}
for kind, (anchors, one_more) in KINDS.items():
    case(
        "create_128_%s_pass" % kind, "128 anchors of a kind pass", CREATE, set_up(**anchors) + ["show"], ["S 0", "P 0"],
    )
    case(
        "create_129_%s_give_13" % kind,
        "an anchor list over 128 gives 13, and there is no session, not even the earlier one", CREATE,
        started() + ["show"] + set_up(**anchors)[:-1] + [one_more, "create", "show", "apply noop 0"],
        STARTED + PANEL + ["S 13", "N", "N"],
    )

case(
    "create_128_of_each_kind_pass", "each kind of anchor has its own 128 places", CREATE,
    set_up(nodes=ANCHORS_128, bindings=[(node, 1) for node in ANCHORS_128], collections=ANCHORS_128) + ["show"],
    ["S 0", "P 0"],
)
case(
    "create_repeated_anchors_count", "repeated anchors count: the list's length is what is bounded", CREATE,
    started() + set_up(nodes=[5] * 128)[:-1] + ["create", "show", "node 5", "create", "show"],
    STARTED + ["S 0", "P 0", "S 13", "N"],
)
case(
    "create_13_whatever_the_cap", "13 has no stage and does not come under the cap", CREATE,
    started(diagnostics=0) + ["show"] + set_up(diagnostics=0, nodes=range(1, 130)) + ["show"],
    STARTED + PANEL + ["S 13", "N"],
)
rules_of("the script's format in kit/README.md")
case(
    "create_anchors_past_129_are_ignored",
    "a script keeps 129 anchors of a kind, so that 13 can be shown; a new set-up has none",
    "spec_replay Replay.keep; spec_session Session.create",
    started() + set_up(nodes=range(1, 136)) + ["show", "session 7 100 10 8 64", "node 5", "create", "show"],
    STARTED + ["S 13", "N", "S 0", "P 0"],
)
case(
    "create_again_makes_the_same_session_anew", "a second create takes the same set-up again",
    "spec_replay Replay.created; spec_session Session.create",
    started() + ["apply close 0", "create", "apply noop 0", "show", batch(9, patches_of([availability(5, 1)])), "show"],
    STARTED
    + [
        "L applied 0 0 0 0 closed 3 0", "S 0", "L no-change 0 0 0 0 created - 0", "P 0", "R applied 0 0 0 0 9", "P 1",
        "A 5 1",
    ],
)
case(
    "create_session_line_keeps_the_session",
    "a session line makes a new set-up and leaves the current session as it is", "spec_replay Replay.withSetup",
    started() + ["session 8 0 0 0 0", "show", batch(4, patches_of([availability(5, 1)])), "show"],
    STARTED + PANEL + ["R applied 0 0 0 0 4", "P 4", "B 5 0 Q 2", "A 5 1", "C 9 1 T Ok", "C 9 2 S -4"],
)
case(
    "create_session_line_clears_the_anchors", "a session line clears the anchors: the next session knows no target",
    "spec_replay Replay.withSetup",
    started() + ["session 7 100 10 8 64", "create", batch(1, patches_of([availability(5, 1)])), "show"],
    STARTED + ["S 0", "R rejected 6 5 1 1 -", "P 0"],
)
case(
    "create_without_a_session_line", "before the first session line the set-up is id 0, limits 0 and no anchors",
    "spec_replay Replay.start",
    [
        "create", "apply noop 0", "apply noop 1", batch(5, [], session=0, stimulus=0),
        batch(5, [], session=1, stimulus=0), "show",
    ],
    [
        "S 0", "L no-change 0 0 0 0 created - 0", "L rejected 0 0 1 0 created - 1", "R no-change 0 0 0 0 -",
        "R rejected 0 0 1 0 -", "P 0",
    ],
)
