"""01, 'Patch checks': kinds 1 to 14, each finding as (kind, domain, secondary)."""

from sizes import LAST_U64


def mutation_target(operation):
    """What an operation changes: the kind of operation, and the ids that tell it apart."""
    if operation.number == 1:
        return (1, operation.node, operation.slot)
    if operation.number == 2:
        return (2, operation.node)
    return (operation.number, operation.collection, operation.key)


def check_findings(patch):
    """Kinds 2, 3, 6, 10, 13 and 14 of one patch."""
    found = set()
    if not patch.operations:
        found.add((6, patch.id, 0))
    if patch.revision <= patch.previous:
        found.add((10, patch.id, 0))
    if patch.id == 0:
        found.add((13, patch.id, 0))
    if patch.stream == 0:
        found.add((14, patch.id, 0))
    seen = set()
    for index, operation in enumerate(patch.operations):
        if operation.number in (3, 6) and operation.before == operation.key:
            found.add((2, patch.id, index))
        target = mutation_target(operation)
        if target in seen:
            found.add((3, patch.id, index))
        seen.add(target)
    return sorted(found)


def _pair_findings(before, patch):
    """Kinds 1, 5, 7, 8, 9, 11 and 12: a patch against the one just before it."""
    if patch.document != before.document:
        yield (7, patch.id, before.id)
    if patch.epoch != before.epoch:
        yield (8, patch.id, before.id)
    if patch.stream != before.stream:
        yield (9, patch.id, before.id)
    if before.sequence == LAST_U64:
        yield (12, before.id, before.sequence)
    elif patch.sequence == before.sequence:
        yield (5, patch.id, patch.sequence)
    elif patch.sequence != before.sequence + 1:
        yield (11, patch.id, patch.sequence)
    elif patch.previous != before.revision:
        yield (1, patch.id, before.id)


def set_findings(patches):
    found = set()
    ids = set()
    for index, patch in enumerate(patches):
        if patch.id in ids:
            found.add((4, patch.id, patch.sequence))
        ids.add(patch.id)
        if index > 0:
            found.update(_pair_findings(patches[index - 1], patch))
    return sorted(found)


def findings(patches):
    """The place (a patch's index, or 'set') and the sorted findings there."""
    for index, patch in enumerate(patches):
        found = check_findings(patch)
        if found:
            return index, found
    return "set", set_findings(patches)
