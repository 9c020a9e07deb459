"""Turns among senders: set-up, registering, whose turn it is, and the number for its batch."""

from build import patches_of
from kit import PANEL, PANEL_SET, STARTED, batch, case, on_panel, rules_of, set_up, started
from patch import availability

rules_of("Job 14 in document 02", answers="02")

SET_UP = "spec_turns Turns.setUp; spec_replay Replay.settled"
REGISTER = "spec_turns Turns.register; spec_replay Replay.registered"
TURN = "spec_turns Turns.nextSender; spec_replay Replay.turned"
NUMBER = "spec_turns Turns.numberAfter"
NOWHERE = "spec_replay Replay.askedTurns"
LAST = 2**64 - 1
ONE = patches_of([availability(5, 1)])


def turns(name, rule, definition, calls):
    """Calls on a new session, each with its answer beside it."""
    lines, answers = zip(*calls)
    case("turns_" + name, rule, definition, set_up() + list(lines), ["S 0"] + list(answers))


def waiting(*senders):
    """Each of them registers."""
    return [("wait %d" % sender, "J 0") for sender in senders]


def named(*senders):
    """Turn calls that name these; the session is new, so the number is 1."""
    return [("turn", "J %d 1" % sender) for sender in senders]


SENDERS = {count: ("senders %d" % count, "J 0") for count in range(1, 9)}
NOBODY = ("turn", "J none")

# ---- set-up

for count, name in [(0, "no_senders"), (9, "nine_senders")]:
    turns(name + "_21", "one to eight senders can be set up", SET_UP, [("senders %d" % count, "J 21"), ("wait 0", "N"), ("turn", "N")])
turns(
    "counts_far_over_eight_21", "every number of senders over eight is 21, however large", SET_UP,
    [("senders %d" % count, "J 21") for count in (10, 255, 256, 257, 65537, 2**32, 2**32 + 1, LAST)] + [("wait 0", "N")],
)
turns(
    "senders_are_numbered_from_0", "n senders are numbered 0 to n - 1, for every n from 1 to 8", SET_UP,
    [
        call
        for count in range(1, 9)
        for call in [SENDERS[count]] + waiting(count - 1, *([0] if count > 1 else [])) + [("wait %d" % count, "J 19")]
    ],
)
turns(
    "new_set_up_is_a_new_circle", "a new set-up is a new circle: nobody waits, and it is asked from sender 0 on", SET_UP,
    [SENDERS[3]] + waiting(1, 2) + named(1) + [SENDERS[3], NOBODY] + waiting(2, 0) + named(0, 2),
)
turns(
    "new_set_up_of_fewer", "after a new set-up its own numbers count", SET_UP,
    [SENDERS[8]] + waiting(7) + [SENDERS[2], NOBODY, ("wait 7", "J 19"), ("wait 2", "J 19")] + waiting(1) + named(1),
)
turns(
    "refused_set_up_leaves_all", "a set-up with 21 leaves the senders, who waits and who was named last", SET_UP,
    [SENDERS[3]] + waiting(0, 2) + named(0)
    + [("senders 0", "J 21"), ("senders 9", "J 21"), ("wait 2", "J 20"), ("wait 3", "J 19")] + waiting(0) + named(2, 0) + [NOBODY],
)

# ---- registering

turns(
    "unknown_sender_19", "a number out of the range is 19, however large, and registers nobody", REGISTER,
    [SENDERS[3]] + [("wait %d" % sender, "J 19") for sender in (3, 4, 8, 256, 2**32, 2**32 + 1, LAST)] + [NOBODY],
)
turns(
    "registered_twice_20", "a sender that waits already is 20, and waits as before", REGISTER,
    [SENDERS[2]] + waiting(1) + [("wait 1", "J 20"), ("wait 1", "J 20")] + waiting(0) + [("wait 0", "J 20")] + named(0, 1) + [NOBODY],
)
turns(
    "19_comes_before_20", "the range is looked at first: a number out of it is 19 however often it registers", REGISTER,
    [SENDERS[1]] + waiting(0) + [("wait 1", "J 19"), ("wait 1", "J 19"), ("wait 0", "J 20"), ("wait 1", "J 19")] + named(0)
    + [("wait 1", "J 19")],
)
turns(
    "named_sender_may_register_again", "a sender that was named waits no more, and may register again", REGISTER,
    [SENDERS[2]] + waiting(1) + named(1) + [NOBODY] + waiting(1) + [("wait 1", "J 20")] + named(1) + waiting(1),
)

# ---- whose turn it is

turns("one_sender", "a circle of one sender: it is named whenever it waits", TURN,
    [SENDERS[1], NOBODY] + waiting(0) + named(0) + [NOBODY] + waiting(0) + named(0))
turns("eight_senders", "from sender 0 on in a circle, in whatever order they registered", TURN,
    [SENDERS[8]] + waiting(7, 6, 5, 4, 3, 2, 1, 0) + named(0, 1, 2, 3, 4, 5, 6, 7) + [NOBODY])
turns("nobody_waits", "with nobody waiting the answer is none", TURN, [SENDERS[3], NOBODY, NOBODY])
turns("circle_wraps", "after the last sender comes sender 0", TURN,
    [SENDERS[3]] + waiting(0, 1, 2) + named(0, 1) + waiting(0) + named(2, 0) + waiting(2, 1) + named(1, 2) + waiting(1) + named(1))
turns("circle_of_eight_wraps", "after sender 7 comes sender 0", TURN, [SENDERS[8]] + waiting(7) + named(7) + waiting(7, 0) + named(0, 7))
turns("registered_between_turns", "who registers between two turns is asked at its place in the circle", TURN,
    [SENDERS[4]] + waiting(3, 1) + named(1) + waiting(2, 0) + named(2, 3, 0) + [NOBODY])
turns("last_named_comes_last", "of those who wait the one last named comes last", TURN,
    [SENDERS[3]] + waiting(1) + named(1) + waiting(1, 0) + named(0, 1))
turns("named_twice_in_a_row", "where nobody else waits the one last named is named again", TURN,
    [SENDERS[3]] + waiting(1) + named(1) + waiting(1) + named(1) + waiting(1) + named(1))
turns("none_moves_nothing", "where the answer is none the one last named stays", TURN,
    [SENDERS[3]] + waiting(0) + named(0) + [NOBODY, NOBODY] + waiting(0, 1) + named(1, 0))
turns(
    "chatty_sender", "a sender that registers before every turn call holds nobody off: of three each is named within three turns",
    "spec_turns Fairness.named-in-one-circle",
    [SENDERS[3]] + waiting(0, 1, 2) + named(0) + waiting(0) + named(1) + [("wait 0", "J 20")] + named(2) + [("wait 0", "J 20")] + named(0)
    + waiting(0) + named(0),
)
turns(
    "chatty_sender_before_the_others", "the sender last named is chatty, and the two others wait behind it in the circle",
    "spec_turns Fairness.named-in-one-circle",
    [SENDERS[3]] + waiting(2) + named(2) + waiting(2, 0, 1) + named(0) + [("wait 2", "J 20")] + named(1) + [("wait 2", "J 20")] + named(2),
)
turns(
    "named_in_each_circle", "three senders that register again after each of their turns are named twice each in six turns",
    "spec_turns Fairness.named-in-each-circle",
    [SENDERS[3]] + waiting(0, 1, 2) + [call for sender in (0, 1, 2, 0, 1, 2) for call in named(sender) + waiting(sender)],
)

# ---- the number

turns("number_1_while_uninitialized", "while the cursor is Uninitialized the number is 1, and a batch takes it", NUMBER,
    [SENDERS[1]] + waiting(0) + named(0) + [(batch(1, ONE), "R applied 0 0 0 0 1")] + waiting(0) + [("turn", "J 0 2")])
on_panel("turns_number_after_the_cursor", "the number is the one after the cursor at that call", NUMBER,
    ["senders 2", "wait 0", "wait 1", "turn", batch(4, ONE), "turn", batch(5, ONE)],
    ["J 0", "J 0", "J 0", "J 0 4", "R applied 0 0 0 0 4", "J 1 5", "R applied 0 0 0 0 5"],
    panel=["P 4", "B 5 0 Q 2", "A 5 1", "C 9 1 T Ok", "C 9 2 S -4"])
on_panel("turns_number_is_not_reserved", "two turns without a batch between them give one number twice", NUMBER,
    ["senders 2", "wait 0", "wait 1", "turn", "turn", batch(4, [])],
    ["J 0", "J 0", "J 0", "J 0 4", "J 1 4", "R no-change 0 0 0 0 3"])
for number, after, name in [(LAST - 1, LAST, "last_but_one"), (LAST, LAST, "last")]:
    case(
        "turns_number_at_the_%s" % name,
        "at 2^64-2 the number is 2^64-1, which a batch takes" if number < LAST
        else "at 2^64-1 it is that number again: 7 for a batch with patches, and one without passes",
        NUMBER + "; NumberLaws",
        set_up() + [batch(number, ONE), "senders 2", "wait 1", "turn", batch(after, ONE), batch(after, []), "turn", "wait 0", "turn"],
        ["S 0", "R applied 0 0 0 0 %d" % number, "J 0", "J 0", "J 1 %d" % after]
        + (["R applied 0 0 0 0 %d" % LAST] if number < LAST else ["R rejected 7 6 1 1 %d" % LAST])
        + ["R no-change 0 0 0 0 %d" % LAST, "J none", "J 0", "J 0 %d" % LAST],
    )
on_panel("turns_spent_by_a_refused_batch", "a turn is spent also where the batch is refused", TURN,
    ["senders 2", "wait 0", "wait 1", "turn", batch(9, ONE), "wait 0", "turn", "turn", "turn"],
    ["J 0", "J 0", "J 0", "J 0 4", "R rejected 7 6 1 1 3", "J 0", "J 1 4", "J 0 4", "J none"])
on_panel("turns_leave_the_session", "no call of the turns changes the session: the batch with the given number applies", TURN,
    ["senders 9", "senders 2", "wait 2", "wait 1", "wait 1", "turn", "turn", "show", batch(4, [])],
    ["J 21", "J 0", "J 19", "J 0", "J 20", "J 1 4", "J none"] + PANEL + ["R no-change 0 0 0 0 3"])

# ---- the session and the senders

on_panel("turns_closed_session_gives_numbers", "a closed session gives numbers as ever; the batch is then refused with 2", NUMBER,
    ["senders 2", "apply close 0", "wait 1", "turn", batch(4, ONE), "turn"],
    ["J 0", "L applied 0 0 0 0 closed 3 0", "J 0", "J 1 4", "R rejected 2 2 1 1 3", "J none"])
on_panel("turns_without_senders_n", "wait and turn without senders print N", NOWHERE, ["wait 0", "turn", "wait 18446744073709551615"], ["N"] * 3)
case("turns_without_a_session_n", "wait needs no session; turn without one prints N and moves nothing",
    "spec_replay Replay.asked and askedTurns",
    ["wait 0", "turn", "senders 3", "wait 1", "wait 2", "wait 1", "turn", "turn"] + set_up() + ["turn", "turn", "turn"],
    ["N", "N", "J 0", "J 0", "J 0", "J 20", "N", "N", "S 0", "J 1 1", "J 2 1", "J none"])
case("turns_stay_through_creations", "a new set-up of the session and its creation leave the senders, and so does 13",
    "spec_replay Replay.withSetup and created",
    started() + ["senders 3", "wait 1", "wait 0", "turn"] + ["session 8 0 0 0 0"] + ["node %d" % node for node in range(1, 130)]
    + ["create", "turn", "wait 2"] + set_up() + ["wait 1", "turn", "wait 0", "turn", "turn", batch(1, PANEL_SET), "wait 1", "turn"],
    STARTED + ["J 0", "J 0", "J 0", "J 0 4", "S 13", "N", "J 0", "S 0", "J 20", "J 1 1", "J 0", "J 2 1", "J 0 1", "R applied 0 0 0 0 1", "J 0", "J 1 2"])
