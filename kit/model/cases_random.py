"""Seeded random runs: whole and pieces alike, long runs on one session, and turns among senders."""

from chance import Chance
from checks import findings, mutation_target
from kit import answered, batch, random_case, rules_of, set_up
from patch import insert
from build import patches_of, quad
from projection import Projection, Stopped, apply_patches
from random_sets import COLLECTIONS, NODES, SLOTS, cut, patch_list

rules_of("Whole and pieces")

BEGIN = set_up(patches=16, references=600, nodes=NODES, bindings=SLOTS, collections=COLLECTIONS)
CLAIM = "spec_splitting Splitting; session_splitting Claim"


def answers_to(lines):
    return answered("".join(text + "\n" for text in lines).encode()).splitlines()


def split_run(chance, fill, number, faults, keys):
    """A patch list sent whole and in pieces on two sessions that start alike. Pieces end with the first that is refused."""
    start = Projection()
    begin = ["create"]
    for at, filling in enumerate(fill):
        begin.append(batch(number - len(fill) + at, filling))
        start = apply_patches(start, filling)
    patches = patch_list(chance, start, 6, 5, keys, faults)
    assert not findings(patches)[1]
    whole = begin + [batch(number, patches), "show"]
    pieces = [batch(number + at, piece) for at, piece in enumerate(cut(chance, patches))]
    sent = []
    for piece in pieces:
        sent.append(piece)
        if b"rejected" in answers_to(BEGIN + begin + sent)[-1]:
            break
    return whole, begin + sent + ["show"], len(sent) == len(pieces), len(begin)


def check_claim(whole, pieces, all_sent, begun):
    """What the claim says of the answers to one run."""
    of_whole, of_pieces = answers_to(BEGIN[:-1] + whole), answers_to(BEGIN[:-1] + pieces)
    result, last = of_whole[begun].split(b"\t"), of_pieces[len(pieces) - 2].split(b"\t")
    earlier = [line.split(b"\t")[1] for line in of_pieces[begun : len(pieces) - 2]]
    assert all(disposition == b"applied" for disposition in earlier)
    if result[1] == b"applied":
        assert all_sent and last[1] == b"applied" and of_whole[begun + 1 :] == of_pieces[len(pieces) - 1 :]
        return True
    assert result[1] == b"rejected" and result[2] in (b"8", b"9") and last[1:6] == result[1:6]
    return False


def split_script(seed, runs, fill_of, faults, keys):
    chance = Chance(seed)
    lines, good = BEGIN[:-1], 0
    for run in range(runs):
        number = chance.one_of((50, 2**32, 2**64 - 8))
        whole, pieces, all_sent, begun = split_run(chance, fill_of(chance), number, faults, keys)
        good += check_claim(whole, pieces, all_sent, begun)
        lines = lines + ["# run %d, whole" % (run + 1)] + whole + ["# run %d, pieces" % (run + 1)] + pieces
    assert runs // 4 < good < runs - runs // 4, good
    return lines


def some_entries(chance):
    """No first fill, or one of a few entries."""
    if chance.once_in(2):
        return []
    return [patches_of([insert(9, key, quad(key % 4)) for key in range(1, chance.between(2, 5))])]


def nearly_full(chance):
    """127 or 128 entries."""
    return [
        patches_of([insert(10, key, quad(0)) for key in range(100, 100 + chance.between(121, 122))]),
        patches_of([insert(9, key, quad(1)) for key in range(1, 7)]),
    ]


random_case(
    "random_whole_and_pieces",
    "300 random patch lists, each sent whole and in random pieces to two sessions that start alike; many break off",
    CLAIM, split_script(20261115, 300, some_entries, 10, 6),
)
random_case(
    "random_whole_and_pieces_nearly_full", "20 such lists on panels with few places left, so that 9 occurs as well",
    CLAIM, split_script(7, 20, nearly_full, 9, 9),
)


def long_run(seed, batches, keys, faults):
    """Batch after batch on one session, which is shown after every twentieth."""
    chance, projection, number = Chance(seed), Projection(), 0
    lines = list(BEGIN)
    for at in range(1, batches + 1):
        patches = patch_list(chance, projection, 3, 6, keys, faults)
        lines.append(batch(number, patches))
        try:
            projection = apply_patches(projection, patches)
            number += 1
        except Stopped:
            pass
        if at % 20 == 0:
            lines.append("show")
    return lines


# ---- the same operations in another order


def place(operation):
    """What the order is kept on: a binding, a node's availability, a collection as a whole."""
    if operation.number == 1:
        return (1, operation.node, operation.slot)
    return (2, operation.node) if operation.number == 2 else (3, operation.collection)


def rearranged(chance, made):
    """The operations in another order, in which those on one place follow each other as they did."""
    left = list(made)
    order = []
    while left:
        chosen = place(chance.one_of(left))
        order.append(next(operation for operation in left if place(operation) == chosen))
        left.remove(order[-1])
    return order


def cut_to_patches(made):
    """A new patch wherever a target would repeat."""
    lists, seen = [[]], set()
    for operation in made:
        if mutation_target(operation) in seen:
            lists.append([])
            seen = set()
        lists[-1].append(operation)
        seen.add(mutation_target(operation))
    return patches_of(*lists)


def regroup_script(seed, runs, fill_of, keys):
    """A patch list that applies, and its operations rearranged, on two sessions that start alike; how many broke off with 9."""
    chance = Chance(seed)
    lines, full = BEGIN[:-1], 0
    for run in range(runs):
        fill = fill_of(chance)
        begin = ["create"] + [batch(at, filling) for at, filling in enumerate(fill, 1)]
        filled = apply_patches(Projection(), [patch for filling in fill for patch in filling])
        patches = patch_list(chance, filled, 5, 5, keys, 10**9)
        other = cut_to_patches(rearranged(chance, [operation for patch in patches for operation in patch.operations]))
        assert not findings(patches)[1] and not findings(other)[1]
        orders = [begin + [batch(len(begin), sent), "show"] for sent in (patches, other)]
        one, two = (answers_to(BEGIN[:-1] + order)[len(begin) :] for order in orders)
        assert one[0].startswith(b"R\tapplied") and (one == two or two[0].startswith(b"R\trejected\t9\t"))
        full += one != two
        lines = lines + ["# run %d" % (run + 1)] + orders[0] + ["# run %d, rearranged" % (run + 1)] + orders[1]
    return lines, full


rules_of("Job 9 in document 02")
REGROUPED, BROKEN_OFF = regroup_script(9, 100, some_entries, 6)
assert BROKEN_OFF == 0
random_case(
    "random_regrouped",
    "100 random patch lists, each sent as it is and with its operations in another order that keeps the order on every "
    "binding, node and collection: both end alike", "spec_operation_order FreeOrder.RunsWithRoom", REGROUPED,
)
REGROUPED, BROKEN_OFF = regroup_script(10, 20, nearly_full, 9)
assert 0 < BROKEN_OFF < 20, BROKEN_OFF
random_case(
    "random_regrouped_nearly_full",
    "20 such lists on panels with few places left: the other order ends alike or breaks off with 9, never with 8",
    "spec_operation_order FreeOrder.AlikeOrFull", REGROUPED,
)

rules_of("One batch, from entry to leaf")
random_case(
    "random_long_run", "300 random batches on one session; a rejected one leaves its number to the next",
    "spec_session Batch.batch", long_run(1, 300, 12, 40),
)

# ---- turns among senders

rules_of("Job 14 in document 02", answers="02")


def turn_run(chance, senders, calls):
    """A new circle, and random calls: somebody registers, a number out of the range now and then, or there is a turn call."""
    lines = ["senders %d" % senders]
    for _ in range(calls):
        lines.append("turn" if chance.once_in(3) else "wait %d" % chance.below(senders + chance.below(2)))
    return lines


def check_turns(lines, answers):
    """Whoever waits is named within as many turn calls as there are senders; 19 and 20 tell the range and who waits."""
    for line, answer in zip(lines, answers):
        word, _, number = line.partition(" ")
        if word == "senders":
            senders, since = int(number), {}
            assert answer == b"J\t0"
        elif word == "wait":
            told = 19 if int(number) >= senders else 20 if int(number) in since else 0
            assert answer == b"J\t%d" % told
            if told == 0:
                since[int(number)] = 0
        else:
            since = {sender: turns + 1 for sender, turns in since.items()}
            named = answer.split(b"\t")[1:]
            assert (named == [b"none"]) == (not since)
            if since:
                assert since.pop(int(named[0])) <= senders and named[1] == b"1"
                assert all(turns < senders for turns in since.values())


CHANCE = Chance(14)
CALLS = [line for count in (3, 8, 1, 5, 2, 8, 4, 7, 6) for line in turn_run(CHANCE, count, 120)]
ANSWERED = random_case(
    "random_turns", "nine circles of one to eight senders with 120 random calls each: whoever waits is named within one circle",
    "spec_turns Fairness.named-in-one-circle", ["session 7 0 0 0 0", "create"] + CALLS,
)
check_turns(CALLS, ANSWERED.splitlines()[1:])
