"""Random patch lists without findings, most of whose operations succeed on a given projection."""

from build import patch, quad, signed, text, unsigned
from checks import mutation_target
from patch import availability, binding, insert, move, remove, update
from projection import Stopped, apply_patches

NODES = (5, 6, 2**64 - 1)
SLOTS = ((5, 0), (5, 1), (6, 0), (6, 2**32 - 1))
COLLECTIONS = (8, 9, 10)
TEXTS = ("", "Ok", "Pumpe prüfen", "Ventil schließen", "水", "x" * 160)


def value(chance):
    kind = chance.below(4)
    if kind == 0:
        return quad(chance.below(4))
    if kind == 1:
        return signed(chance.one_of((0, -1, 2**63 - 1, -(2**63), chance.below(1000))))
    if kind == 2:
        return text(chance.one_of(TEXTS))
    return unsigned(chance.one_of((0, 2**64 - 1, chance.below(1000))))


def operation(chance, keys):
    """Any operation; keys from 1 up to the given number."""
    collection, key = chance.one_of(COLLECTIONS), chance.between(1, keys)
    before = None if chance.once_in(3) else chance.between(1, keys)
    if before == key:
        before = None
    kind = chance.below(9)
    if kind == 0:
        return binding(*chance.one_of(SLOTS), value(chance))
    if kind == 1:
        return availability(chance.one_of(NODES), chance.below(5))
    if kind < 5:
        return insert(collection, key, value(chance), before)
    if kind == 5:
        return update(collection, key, value(chance))
    if kind == 6:
        return remove(collection, key)
    return move(collection, key, before)


def passes(projection, made):
    """The projection after the operation, or None where it fails."""
    try:
        return apply_patches(projection, [patch(1, [made])])
    except Stopped:
        return None


def operations(chance, projection, count, keys, faults):
    """Operations on different targets; one in so many may fail. Also the projection, as far as they succeed."""
    made, targets = [], set()
    for _ in range(count):
        careless = chance.once_in(faults)
        for _ in range(20):
            candidate = operation(chance, keys)
            after = passes(projection, candidate)
            if mutation_target(candidate) not in targets and (after is not None or careless):
                made.append(candidate)
                targets.add(mutation_target(candidate))
                projection = after or projection
                break
    return made or [availability(5, chance.below(5))], projection


def patch_list(chance, projection, most_patches, most_operations, keys, faults):
    """Patches that follow each other, from any number on."""
    first = chance.one_of((1, 7, 1000))
    patches = []
    for position in range(chance.between(1, most_patches)):
        made, projection = operations(chance, projection, chance.between(1, most_operations), keys, faults)
        surface = chance.between(1, 3) if chance.once_in(4) else None
        patches.append(patch(first + position, made, surface=surface, stream=3, document=2, epoch=4))
    return patches


def cut(chance, patches):
    """The list in pieces, none of them empty."""
    pieces, piece = [], []
    for patch in patches:
        if piece and chance.once_in(2):
            pieces.append(piece)
            piece = []
        piece.append(patch)
    return pieces + [piece]
