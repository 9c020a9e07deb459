"""What a set depends on: the keys that must be there, those that must be absent, and sets that contradict themselves."""

from itertools import product

from build import hex_of, patch, patches_of, quad, text
from canonical import HEADINGS, encode_set, u32
from cases_script import bad
from chance import Chance
from checks import findings, mutation_target
from kit import STARTED, answered, batch, case, on_panel, random_case, rules_of, set_up, started
from landed import LANDED
from patch import availability, binding, insert, move, operations_of, remove, update
from projection import Projection, Stopped, apply_patches

rules_of("Job 8 in document 02", answers="02")

EXPECTED = "spec_dependencies Expectations.expectations"
WALK = "spec_dependencies Dependencies.dependencies"
ANSWER = "spec_dependencies Answer.dependenciesOf"
CLAIM = "spec_dependencies Claim.Meets"
LAST = 2**64 - 1


def line(patches, room=16384):
    return "depends %d %s" % (room, hex_of(patches))


def needs(there=(), absent=()):
    """The answer: first the pairs that must be there, then those that must be absent."""
    return ["D 0 needs %d %d" % (len(there), len(absent))] + ["Q %d %d" % pair for pair in list(there) + list(absent)]


def never(place, operation):
    return ["D 0 never %d %d" % (place, operation)]


def told(name, rule, definition, *sets):
    """Sets and their answers; no session takes part."""
    case(
        "depends_" + name, rule, definition, [line(patches) for patches, _ in sets],
        [answer for _, answers in sets for answer in answers],
    )


def one(*operations):
    return patches_of(operations)


# ---- each operation alone

Q = quad(0)
told("insert", "an insert expects its key to be absent", EXPECTED, (one(insert(9, 1, Q)), needs(absent=[(9, 1)])))
told(
    "insert_before", "a named neighbour has to be there", EXPECTED,
    (one(insert(9, 1, Q, before=2)), needs([(9, 2)], [(9, 1)])), (one(insert(9, 2, Q, before=1)), needs([(9, 1)], [(9, 2)])),
)
told("update", "an update expects its key", EXPECTED, (one(update(9, 1, Q)), needs([(9, 1)])))
told("remove", "a removal expects its key", EXPECTED, (one(remove(9, 1)), needs([(9, 1)])))
told("move", "a move expects its key", EXPECTED, (one(move(9, 1)), needs([(9, 1)])))
told(
    "move_before", "a move expects its key and a named neighbour", EXPECTED, (one(move(9, 1, 2)), needs([(9, 1), (9, 2)])),
    (one(move(9, 2, 1)), needs([(9, 1), (9, 2)])),
)
told(
    "bindings_and_availabilities", "bindings and availabilities expect nothing", EXPECTED, (one(binding(9, 1, Q)), needs()),
    (one(availability(9, 1)), needs()),
    (patches_of([binding(9, 1, Q), availability(9, 1)], [binding(9, 1, text("x")), availability(9, 2)]), needs()),
)
told("empty_set", "the empty set depends on nothing", WALK, ([], needs()))

# ---- two operations on one key: what the pair expects, or that it contradicts itself

MAKE = {
    "insert": lambda key: insert(9, key, Q), "update": lambda key: update(9, key, Q), "remove": lambda key: remove(9, key),
    "move": lambda key: move(9, key),
}
THERE, ABSENT = needs([(9, 1)]), needs(absent=[(9, 1)])
PAIRS = {
    ("insert", "insert"): None, ("insert", "update"): ABSENT, ("insert", "remove"): ABSENT, ("insert", "move"): ABSENT,
    ("update", "insert"): None, ("update", "update"): THERE, ("update", "remove"): THERE, ("update", "move"): THERE,
    ("remove", "insert"): THERE, ("remove", "update"): None, ("remove", "remove"): None, ("remove", "move"): None,
    ("move", "insert"): None, ("move", "update"): THERE, ("move", "remove"): THERE, ("move", "move"): THERE,
}
assert set(PAIRS) == set(product(MAKE, MAKE))
for (first, second), answer in PAIRS.items():
    made = [MAKE[first](1), MAKE[second](1)]
    told(
        "%s_then_%s" % (first, second),
        "%s and then %s one key: in one patch, in two, and with other operations between" % (first, second), WALK,
        (one(*made), ["D 11"] if first == second else answer or never(0, 1)),
        (patches_of(made[:1], made[1:]), answer or never(1, 0)),
        (
            patches_of([made[0], binding(5, 0, Q)], [availability(5, 0)], [binding(5, 1, Q), made[1], availability(5, 1)]),
            answer or never(2, 1)
        ),
    )
told(
    "three_operations_on_one_key", "what an earlier operation inserts or removes is judged by the last of them", WALK,
    (one(remove(9, 1), insert(9, 1, Q), update(9, 1, Q)), THERE),
    (one(insert(9, 1, Q), remove(9, 1), update(9, 1, Q)), never(0, 2)),
    (patches_of([insert(9, 1, Q), remove(9, 1)], [insert(9, 1, Q), update(9, 1, Q)]), ABSENT),
    (patches_of([remove(9, 1), insert(9, 1, Q)], [remove(9, 1)], [insert(9, 1, Q), move(9, 1)]), THERE),
    (patches_of([remove(9, 1), insert(9, 1, Q)], [insert(9, 1, Q)]), never(1, 0)),
)

# ---- where it contradicts itself

GOOD = [update(9, key, Q) for key in range(11, 17)]
told(
    "contradiction_at_each_place", "the patch and the operation in it, both from 0, of the first operation that contradicts",
    WALK,
    (one(remove(9, 1), update(9, 1, Q), *GOOD), never(0, 1)),
    (one(remove(9, 1), *GOOD[:3], update(9, 1, Q), *GOOD[3:]), never(0, 4)),
    (one(remove(9, 1), *GOOD, update(9, 1, Q)), never(0, 7)),
    (patches_of([remove(9, 1), *GOOD], [update(9, 1, Q)]), never(1, 0)),
    (patches_of([remove(9, 1)], GOOD, GOOD, [update(9, 1, Q), *GOOD]), never(3, 0)),
    (patches_of(GOOD, GOOD, [remove(9, 1), *GOOD, update(9, 1, Q)]), never(2, 7)),
)
told(
    "first_contradiction", "of several contradicting operations the first is named", WALK,
    (patches_of([remove(9, 1), remove(9, 2)], [*GOOD, update(9, 2, Q), update(9, 1, Q)], [insert(9, 11, Q)]), never(1, 6)),
    (patches_of([update(9, 1, Q)], [insert(9, 1, Q), remove(9, 1)], [update(9, 1, Q)]), never(1, 0)),
)
FULL = [update(9, key, Q) for key in range(2, 129)]
told(
    "contradiction_at_the_last_place", "the last operation of the last patch of a large set", WALK,
    (patches_of([remove(9, 1), *FULL], [*FULL, move(9, 1)]), never(1, 127)),
    (
        [patch(1, [remove(9, 1)])] + [patch(n, [availability(5, n % 5)]) for n in range(2, 64)]
        + [patch(64, [update(9, 1, Q)])], never(63, 0)
    ),
)

# ---- neighbours

told(
    "neighbour_inserted_before", "a neighbour that the set inserted before is there", WALK,
    (one(insert(9, 2, Q), insert(9, 1, Q, before=2)), needs(absent=[(9, 1), (9, 2)])),
    (patches_of([insert(9, 2, Q)], [move(9, 1, 2)]), needs([(9, 1)], [(9, 2)])),
)
told(
    "neighbour_removed_before",
    "a neighbour that the set removed before is not there, and the operation that names it contradicts", WALK,
    (one(remove(9, 2), insert(9, 1, Q, before=2)), never(0, 1)),
    (patches_of([remove(9, 2)], [update(9, 3, Q), move(9, 1, 2)]), never(1, 1)),
)
told(
    "neighbour_moved_or_updated_before", "a neighbour that was moved or updated is there", WALK,
    (one(move(9, 2), insert(9, 1, Q, before=2)), needs([(9, 2)], [(9, 1)])),
    (one(update(9, 2, Q), move(9, 1, 2)), needs([(9, 1), (9, 2)])),
    (one(move(9, 2, 1), move(9, 1, 2)), needs([(9, 1), (9, 2)])),
)
told(
    "neighbour_is_known_from_then_on", "a key that was named as a neighbour is known to be there", WALK,
    (one(move(9, 3, 1), insert(9, 1, Q)), never(0, 1)), (one(insert(9, 3, Q, before=1), insert(9, 1, Q)), never(0, 1)),
    (one(insert(9, 3, Q, before=1), remove(9, 1)), needs([(9, 1)], [(9, 3)])),
    (patches_of([insert(9, 3, Q, before=1)], [remove(9, 1)], [insert(9, 1, Q)]), needs([(9, 1)], [(9, 3)])),
    (one(insert(9, 3, Q, before=1), update(9, 1, Q), insert(9, 4, Q, before=1)), needs([(9, 1)], [(9, 3), (9, 4)])),
)
told(
    "key_and_neighbour",
    "an operation whose key or whose neighbour contradicts is named; a key that must be absent is no neighbour later", WALK,
    (one(update(9, 1, Q), insert(9, 1, Q, before=2)), never(0, 1)),
    (one(remove(9, 1), remove(9, 2), move(9, 1, 2)), never(0, 2)),
    (patches_of([insert(9, 1, Q), remove(9, 1)], [insert(9, 2, Q, before=1)]), never(1, 0)),
    (
        patches_of([insert(9, 1, Q)], [insert(9, 2, Q, before=1)], [insert(9, 3, Q, before=2)]),
        needs(absent=[(9, 1), (9, 2), (9, 3)])
    ),
)

# ---- collections, order, repeats

told(
    "two_collections", "the same key in two collections is two pairs", WALK,
    (one(insert(8, 1, Q), update(9, 1, Q)), needs([(9, 1)], [(8, 1)])),
    (one(remove(8, 1), update(9, 1, Q)), needs([(8, 1), (9, 1)])),
    (one(insert(8, 1, Q, before=2), insert(9, 2, Q, before=1)), needs([(8, 2), (9, 1)], [(8, 1), (9, 2)])),
    (one(remove(8, 1), update(9, 1, Q), update(8, 1, Q)), never(0, 2)),
)
told(
    "order", "each list ascends, by collection and then by key, however large the numbers", WALK,
    (
        one(
            update(10, 1, Q), update(9, 2, Q), update(9, 10, Q), update(LAST, 0, Q), update(0, LAST, Q), update(9, 2**32, Q),
            update(2**32, 3, Q), update(9, 0, Q),
        ),
        needs([(0, LAST), (9, 0), (9, 2), (9, 10), (9, 2**32), (10, 1), (2**32, 3), (LAST, 0)]),
    ),
    (
        one(
            insert(10, 1, Q), insert(9, 2, Q), insert(9, 10, Q, before=3), insert(LAST, 0, Q), insert(0, LAST, Q),
            insert(9, 2**32, Q), insert(10, 0, Q, before=7),
        ),
        needs([(9, 3), (10, 7)], [(0, LAST), (9, 2), (9, 10), (9, 2**32), (10, 0), (10, 1), (LAST, 0)]),
    ),
    (
        one(insert(9, 256, Q), insert(9, 255, Q), insert(9, 65536, Q), insert(256, 1, Q), insert(255, 1, Q)),
        needs(absent=[(9, 255), (9, 256), (9, 65536), (255, 1), (256, 1)])
    ),
)
told(
    "each_pair_once", "a pair that is looked for again and again is reported once", WALK,
    (
        patches_of(*([update(9, 1, Q), move(9, 1), insert(9, 10 + n, Q, before=1)] for n in range(5))),
        needs([(9, 1)], [(9, 10 + n) for n in range(5)])
    ),
    (patches_of(*[[insert(9, 1, Q), update(9, 1, Q), move(9, 1), remove(9, 1)]] * 4), needs(absent=[(9, 1)])),
)
told(
    "never_is_about_keys_alone", "whether the panel has room is not asked: 129 inserts are reported with their needs", WALK,
    (
        patches_of([insert(9, key, Q) for key in range(1, 129)], [insert(9, 129, Q)]),
        needs(absent=[(9, key) for key in range(1, 130)])
    ),
)

# ---- the room

TWO = one(insert(9, 1, Q, before=2))
case(
    "depends_room", "a record takes two places: just enough will do, one short is 14", ANSWER,
    [line(TWO, room) for room in (4, 5, 3, 2, 1, 0)] + [line(one(update(9, 1, Q)), room) for room in (2, 3, 1, 0)]
    + [line(one(insert(9, 1, Q)), room) for room in (2, 1)],
    needs([(9, 2)], [(9, 1)]) * 2 + ["D 14"] * 4 + THERE * 2 + ["D 14"] * 2 + ABSENT + ["D 14"],
)
case(
    "depends_without_room", "never applicable, and no needs, are answers without room", ANSWER,
    [
        line(one(remove(9, 1), update(9, 1, Q)), 0), line([], 0), line(one(binding(5, 0, Q)), 0),
        line(one(remove(9, 1), update(9, 2, Q)), 0),
    ],
    never(0, 1) + needs() * 2 + ["D 14"],
)
MOVES = [move(9, 2 * n, 2 * n + 1) for n in range(1235)]
MOST = patches_of(*(MOVES[at : at + 128] for at in range(0, 1235, 128)))
assert len(MOST) == 10 and 32768 - 26 < len(encode_set(MOST)) <= 32768 and not findings(MOST)[1]
case(
    "depends_on_2470_keys", "a set of nearly 32,768 bytes, each of whose operations names two keys", ANSWER,
    [line(MOST, 4940), line(MOST, 4939), line(MOST)], needs([(9, key) for key in range(2470)]) + ["D 14"]
    + needs([(9, key) for key in range(2470)]),
)
DOWN = patches_of(*([insert(8 - n % 3, 2000 - n, Q) for n in range(at, min(at + 128, 1500))] for at in range(0, 1500, 128)))
case(
    "depends_on_1500_absent_keys", "1,500 keys that come in descending order and in three collections", ANSWER,
    [line(DOWN, 3000), line(DOWN, 2999)], needs(absent=sorted((8 - n % 3, 2000 - n) for n in range(1500))) + ["D 14"],
)

# ---- refusals

BAD = encode_set(one(remove(9, 1), update(9, 1, Q)))
LONG = encode_set(one(remove(9, 1), update(9, 1, text("x" * 161))))


def refused(name, rule, number, *lines):
    on_panel("depends_" + name, rule, ANSWER, lines, ["D %d" % number] * len(lines))


refused(
    "refuses_10", "bytes that do not read are 10, whatever they would depend on", 10, "depends 16384 -", "depends 16384 00",
    "depends 16384 " + BAD[:-1].hex(), "depends 16384 " + (BAD + b"\0").hex(), "depends 0 " + (BAD[:-1] + b"\4").hex(),
)
refused(
    "refuses_12", "what is over a capacity is 12", 12, "depends 16384 " + LONG.hex(), "depends 0 " + LONG.hex(),
    "depends 16384 " + (u32(27) + HEADINGS[1] + u32(65)).hex(), "depends 16384 " + "00" * 32769,
)
refused(
    "refuses_11", "findings are 11, before a contradiction and before 14", 11, line([patch(1, [])]),
    line(one(update(9, 1, Q), update(9, 1, Q)), 0),
    line([patch(1, [remove(9, 1), update(9, 1, Q)], previous=4, revision=4)]), line([patch(1, [update(9, 1, Q)], id=0)], 0),
    line(one(insert(9, 1, Q, before=1))),
    line([patch(1, [update(9, 1, Q)]), patch(1, [remove(9, 1)])]),
)
case(
    "depends_needs_no_session", "no session is asked, nor its catalogue, limits, cursor or lifecycle", ANSWER,
    [line(TWO), *set_up(patches=0, references=0, collections=())] + [line(TWO)] + ["apply close 0", line(TWO), "show"],
    needs([(9, 2)], [(9, 1)]) + ["S 0"] + needs([(9, 2)], [(9, 1)]) + ["L applied 0 0 0 0 closed - 0"]
    + needs([(9, 2)], [(9, 1)]) + ["P 0"],
)
on_panel(
    "depends_leaves_the_session", "the answer is the set's own, whatever the session holds, and the session stays", ANSWER,
    [line(one(update(9, 1, Q), insert(9, 3, Q))), line(one(insert(9, 1, Q))), line(one(remove(9, 1), update(9, 1, Q)))],
    needs([(9, 1)], [(9, 3)]) + ABSENT + never(0, 1),
)
if "edition" in LANDED:
    SCORED = one(insert(9, 1, (5, 100), before=2), binding(5, 0, (5, 0)))
    case(
        "depends_in_both_editions", "the set is read in the edition in force", ANSWER,
        [
            line(TWO), "depends 16384 " + hex_of(SCORED, 2), "depends 16384 " + hex_of(SCORED), "edition 2", line(TWO),
            "depends 16384 " + hex_of(SCORED, 2),
        ],
        needs([(9, 2)], [(9, 1)]) + ["D 10"] * 3 + needs([(9, 2)], [(9, 1)]),
    )

# ---- a set applies exactly where its needs are met

CHANGES = one(insert(9, 3, Q, before=1), remove(9, 2), update(9, 3, quad(1)))
case(
    "depends_and_applying", "a set applies where the panel holds the first keys and none of the second, and nowhere else",
    CLAIM,
    started() + [line(CHANGES), batch(4, CHANGES), "show", "# 3 is there now, and 2 is not", batch(5, CHANGES),
    batch(5, one(remove(9, 3))), batch(6, CHANGES)]
    + [batch(6, one(insert(9, 2, Q))), batch(7, CHANGES), "show"],
    STARTED + needs([(9, 1), (9, 2)], [(9, 3)])
    + ["R applied 0 0 0 0 4", "P 4", "B 5 0 Q 2", "A 5 3", "C 9 3 Q 1", "C 9 1 T Ok"]
    + [
        "R rejected 8 8 1 1 4", "R applied 0 0 0 0 5", "R rejected 8 8 1 1 5", "R applied 0 0 0 0 6", "R applied 0 0 0 0 7",
        "P 4", "B 5 0 Q 2", "A 5 3", "C 9 3 Q 1", "C 9 1 T Ok",
    ],
)
NEVER = patches_of([insert(9, 1, Q)], [update(9, 2, Q), insert(9, 1, Q)])
case(
    "depends_never_and_applying", "a set that is never applicable applies to no panel", CLAIM,
    started() + [line(NEVER), batch(4, NEVER), batch(4, one(remove(9, 1))), batch(5, NEVER), batch(5, one(remove(9, 2))),
    batch(6, NEVER), "show"],
    STARTED + never(1, 1)
    + ["R rejected 8 8 1 1 3", "R applied 0 0 0 0 4", "R rejected 8 8 1 1 4", "R applied 0 0 0 0 5", "R rejected 8 8 1 1 5",
    "P 2", "B 5 0 Q 2", "A 5 3"],
)


def random_operation(chance):
    collection, key, kind = chance.between(8, 9), chance.between(1, 5), chance.below(9)
    before = None if chance.once_in(2) else chance.between(1, 5)
    before = None if before == key else before
    if kind < 3:
        return insert(collection, key, quad(chance.below(4)), before)
    return [update(collection, key, Q), update(collection, key, quad(1)), remove(collection, key), remove(collection, key),
    move(collection, key, before), binding(5, 0, Q)][kind - 3]


def random_set(chance):
    """One to three patches of up to four operations, without findings."""
    lists = []
    for _ in range(chance.between(1, 3)):
        made = {}
        for _ in range(chance.between(1, 4)):
            operation = random_operation(chance)
            made.setdefault(mutation_target(operation), operation)
        lists.append(list(made.values()))
    return patches_of(*lists)


def applies(held, patches):
    """Whether the set applies to a panel that holds these pairs."""
    fill = patches_of([insert(collection, key, Q) for collection, key in held]) if held else []
    try:
        apply_patches(apply_patches(Projection(), fill), patches)
    except Stopped as stopped:
        assert stopped.number == 8
        return False
    return True


def hold_to_claim(chance, patches, answer):
    """The claim on one set: panels that meet the needs take it, and those that miss one of them do not."""
    fields = [field.split(b"\t") for field in answer]
    every = [(collection, key) for collection in (8, 9) for key in range(1, 6)]
    if fields[0][2] == b"never":
        assert not any(applies([pair for pair in every if chance.once_in(2)], patches) for _ in range(40))
        index, place = int(fields[0][3]), int(fields[0][4])
        cut = patches[index]._replace(operations=patches[index].operations[:place])
        shorter = patches[:index] + ([cut] if place else [])
        there, absent = needs_of(shorter)
        assert applies(there, shorter) and not set(there) & set(absent)
        return 0
    pairs = [(int(field[1]), int(field[2])) for field in fields[1:]]
    there, absent = pairs[: int(fields[0][3])], pairs[int(fields[0][3]) :]
    others = [pair for pair in every if pair not in pairs]
    assert there == sorted(set(there)) and absent == sorted(set(absent)) and not set(there) & set(absent)
    for _ in range(6):
        held = there + [pair for pair in others if chance.once_in(2)]
        assert applies(held, patches)
        assert not any(applies([pair for pair in held if pair != missing], patches) for missing in there)
        assert not any(applies(held + [extra], patches) for extra in absent)
    return 1


def needs_of(patches):
    """What the model tells of a set that does not contradict itself."""
    answer = answered((line(patches) + "\n").encode()).splitlines()
    pairs = [tuple(map(int, field.split(b"\t")[1:])) for field in answer[1:]]
    count = int(answer[0].split(b"\t")[3])
    return pairs[:count], pairs[count:]


CHANCE = Chance(8)
SETS = [random_set(CHANCE) for _ in range(300)]
ANSWERED = random_case(
    "depends_random_sets",
    "300 random sets on ten keys; each was tried on panels that meet its needs and on panels that miss one", CLAIM,
    [line(patches) for patches in SETS],
)
PARTS = [part.splitlines() for part in (b"\n" + ANSWERED).split(b"\nD\t0\t")[1:]]
GOOD_SETS = sum(hold_to_claim(CHANCE, patches, [b"D\t0\t" + part[0]] + part[1:]) for patches, part in zip(SETS, PARTS))
assert len(PARTS) == 300 and 100 < GOOD_SETS < 280 and all(operations_of(patches) for patches in SETS), GOOD_SETS

# ---- the script

for name, words in [
    ("alone", "depends"), ("missing_hex", "depends 16"), ("missing_room", "depends " + hex_of([])),
    ("extra_field", "depends 16 - -"), ("room_16385", "depends 16385 -"),
    ("room_leading_zero", "depends 016 -"), ("room_dash", "depends - -"), ("room_2_64", "depends 18446744073709551616 -"),
    ("hex_odd", "depends 16 1b0"),
    ("hex_upper_case", "depends 16 1B00"), ("hex_empty", "depends 16 "), ("upper_case", "Depends 16 -"),
]:
    bad(
        "depends_" + name, "depends has a room of at most 16,384 places, and hex", "spec_replay Script.dependsArguments",
        words,
    )
