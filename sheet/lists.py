"""Two panels compared, as listings print them: what was added, moved, changed and removed."""

from collections import namedtuple

# mark: one of the words below, or two of them; old: the value or the place of before
Shown = namedtuple("Shown", "key value marks old")

ADDED, MOVED, CHANGED, REMOVED = "added", "moved", "changed", "removed"
SIGNS = {ADDED: "+", MOVED: "↕", CHANGED: "~", REMOVED: "−"}
# the same marks where another panel's list is held against ours
AGAINST_OURS = {ADDED: "only here", MOVED: "other place", CHANGED: "other value", REMOVED: "missing here"}
OWN_WORDS = {mark: mark for mark in SIGNS}


def record(line):
    """The row that a line is of, and its value as printed; fields that another panel left out are empty."""
    fields = line.split("\t")
    size = 2 if fields[0] == "A" else 3
    fields += [""] * (size - len(fields))
    return tuple(fields[:size]), " ".join(fields[size:])


def compare(before, after, movers=()):
    """The records of both panels with their marks. Movers are the keys that operations moved: they are told as moved first."""
    old, new = dict(map(record, before)), dict(map(record, after))
    moved = moved_keys([record(line)[0] for line in before], [record(line)[0] for line in after], set(movers))
    left = [_shown(key, value, new, moved, REMOVED) for key, value in map(record, before)]
    right = [_shown(key, value, old, moved, ADDED) for key, value in map(record, after)]
    return left, right


def _shown(key, value, other, moved, alone):
    if key not in other:
        return Shown(key, value, (alone,), None)
    marks = ((MOVED,) if key in moved else ()) + ((CHANGED,) if other[key] != value else ())
    return Shown(key, value, marks, other[key] if CHANGED in marks else None)


def moved_keys(before, after, movers):
    """Entries that stand in another order: all but the heaviest run of those that kept theirs."""
    common = set(before) & set(after)
    moved = set()
    for owner in {key[:2] for key in common if key[0] == "C"}:
        first = [key for key in before if key in common and key[:2] == owner]
        place = {key: at for at, key in enumerate(first)}
        second = [key for key in after if key in common and key[:2] == owner]
        moved |= set(second) - _kept(second, place, movers)
    return moved


def _kept(keys, place, movers):
    """The heaviest of the keys whose places ascend; one that no operation moved weighs most."""
    best = []
    for at, key in enumerate(keys):
        weight = 1 if key in movers else len(keys) + 1
        before = [best[other] for other in range(at) if place[keys[other]] < place[key]]
        heaviest = max(before, key=_weight, default=(0, ()))
        best.append((heaviest[0] + weight, heaviest[1] + (key,)))
    return set(max(best, key=_weight, default=(0, ()))[1])


def _weight(run):
    return run[0]


def against(ours, theirs):
    """Another panel's records with marks, what ours has and it lacks at the end."""
    left, right = compare(ours or [], theirs or [])
    return right + [entry for entry in left if REMOVED in entry.marks]
