"""Lifecycle: every pair of state and command, the order of refusals, the byte figure, the cap."""

from kit import on_panel, rules_of

rules_of("Lifecycle")

TRANSITION = "spec_session Lifecycle.transition and lifecycleStep"

# how a session that starts Created comes to each state, with the answers
WAYS = {
    "created": [],
    "active": ["activate"],
    "suspended": ["activate", "suspend"],
    "closed": ["close"],
}
AFTER = {"activate": "active", "suspend": "suspended", "resume": "active", "close": "closed"}
# 01's list, by hand: the answer to each command in each state
PAIRS = {
    ("created", "activate"): "L applied 0 0 0 0 active 3 1",
    ("created", "suspend"): "L rejected 3 2 1 1 created 3 1",
    ("created", "resume"): "L rejected 3 2 1 1 created 3 1",
    ("created", "close"): "L applied 0 0 0 0 closed 3 1",
    ("created", "noop"): "L no-change 0 0 0 0 created 3 1",
    ("active", "activate"): "L rejected 3 2 1 1 active 3 1",
    ("active", "suspend"): "L applied 0 0 0 0 suspended 3 1",
    ("active", "resume"): "L rejected 3 2 1 1 active 3 1",
    ("active", "close"): "L applied 0 0 0 0 closed 3 1",
    ("active", "noop"): "L no-change 0 0 0 0 active 3 1",
    ("suspended", "activate"): "L rejected 3 2 1 1 suspended 3 1",
    ("suspended", "suspend"): "L rejected 3 2 1 1 suspended 3 1",
    ("suspended", "resume"): "L applied 0 0 0 0 active 3 1",
    ("suspended", "close"): "L applied 0 0 0 0 closed 3 1",
    ("suspended", "noop"): "L no-change 0 0 0 0 suspended 3 1",
    ("closed", "activate"): "L rejected 2 2 1 1 closed 3 1",
    ("closed", "suspend"): "L rejected 2 2 1 1 closed 3 1",
    ("closed", "resume"): "L rejected 2 2 1 1 closed 3 1",
    ("closed", "close"): "L rejected 2 2 1 1 closed 3 1",
    ("closed", "noop"): "L rejected 2 2 1 1 closed 3 1",
}


def way(state):
    """The commands that lead to the state, and their answers."""
    lines = ["apply %s 0" % command for command in WAYS[state]]
    return lines, ["L applied 0 0 0 0 %s 3 0" % AFTER[command] for command in WAYS[state]]


for (state, command), answer in PAIRS.items():
    outcome = answer.split()[1].replace("-", "_")
    rejected = "_%s" % answer.split()[2] if outcome == "rejected" else ""
    lines, answers = way(state)
    on_panel(
        "lifecycle_%s_%s_%s%s" % (state, command, outcome, rejected),
        "the command %s in the state %s" % (command, state), TRANSITION, lines + ["apply %s 1" % command],
        answers + [answer],
    )

STEP = "spec_session Lifecycle.lifecycleStep"
on_panel(
    "lifecycle_bytes_equal_limit_pass", "stimulus bytes equal to the limit pass", STEP, ["apply activate 100"],
    ["L applied 0 0 0 0 active 3 100"],
)
on_panel(
    "lifecycle_bytes_one_over_4", "stimulus bytes one over the limit give 4", STEP, ["apply activate 101"],
    ["L rejected 4 4 1 1 created 3 101"],
)
on_panel(
    "lifecycle_closed_before_pair_and_bytes", "Closed (2) comes before the pair (3) and the byte limit (4)", STEP,
    ["apply close 0", "apply resume 101"], ["L applied 0 0 0 0 closed 3 0", "L rejected 2 2 1 1 closed 3 101"],
)
on_panel(
    "lifecycle_noop_over_limit_4", "a no-op passes the pair check and is still held to the byte limit", STEP,
    ["apply noop 101"], ["L rejected 4 4 1 1 created 3 101"],
)
on_panel(
    "lifecycle_cursor_never_moves", "no lifecycle step moves the cursor or touches the panel",
    "spec_session Lifecycle.withLifecycle",
    ["apply activate 0", "apply suspend 0", "apply resume 0", "apply noop 0", "apply close 0"],
    [
        "L applied 0 0 0 0 active 3 0", "L applied 0 0 0 0 suspended 3 0", "L applied 0 0 0 0 active 3 0",
        "L no-change 0 0 0 0 active 3 0", "L applied 0 0 0 0 closed 3 0",
    ],
)
on_panel(
    "lifecycle_rejection_keeps_the_state", "a rejected step leaves the state: the next one answers from it",
    "spec_session Lifecycle.rejectLifecycle",
    ["apply activate 0", "apply resume 0", "apply suspend 101", "apply suspend 100"],
    [
        "L applied 0 0 0 0 active 3 0", "L rejected 3 2 1 1 active 3 0", "L rejected 4 4 1 1 active 3 101",
        "L applied 0 0 0 0 suspended 3 100",
    ],
)
on_panel(
    "lifecycle_figure_as_given", "the answer holds the byte figure as it was given, also a rejected one",
    "spec_session Lifecycle.rejectLifecycle", ["apply activate 18446744073709551615"],
    ["L rejected 4 4 1 1 created 3 18446744073709551615"],
)
on_panel(
    "lifecycle_limit_of_2_64_1_refuses_nothing", "a byte limit of 2^64-1 refuses nothing", STEP,
    ["apply activate 18446744073709551615"], ["L applied 0 0 0 0 active 3 18446744073709551615"], stimulus=2**64 - 1,
)
rules_of("Diagnostics under the cap")
CAP = "spec_session Diagnostics.diagnosticsOf"
on_panel(
    "lifecycle_cap_0_hides_the_code", "a cap of 0 shows neither number nor stage; the disposition still tells", CAP,
    ["apply resume 0"], ["L rejected 0 0 1 0 created 3 0"], diagnostics=0,
)
on_panel(
    "lifecycle_cap_1", "a cap equal to the logical count emits all of it", CAP, ["apply resume 0"],
    ["L rejected 3 2 1 1 created 3 0"], diagnostics=1,
)
on_panel(
    "lifecycle_cap_above", "a cap above the logical count emits the logical count", CAP, ["apply resume 0"],
    ["L rejected 3 2 1 1 created 3 0"], diagnostics=2**64 - 1,
)
