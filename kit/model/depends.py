"""02, Job 8: what a set depends on, told from the set alone."""

from canonical import Fault, read_set
from checks import findings


class Never(Exception):
    """The set contradicts itself, first at this operation of this patch."""

    def __init__(self, patch, operation):
        super().__init__(patch, operation)
        self.place = patch, operation


def expectations(operation):
    """The pairs of collection and key that an operation looks for, each with whether it has to be there."""
    if operation.number in (1, 2):
        return []
    expected = [(operation.key, operation.number != 3)]
    if getattr(operation, "before", None) is not None:
        expected.append((operation.before, True))
    return [((operation.collection, key), there) for key, there in expected]


def at_the_start(patches):
    """Each pair that the set looks for before it knows of it, with whether it has to be there; or Never."""
    start, now = [], {}
    for index, patch in enumerate(patches):
        for place, operation in enumerate(patch.operations):
            for pair, there in expectations(operation):
                if pair not in now:
                    start.append((pair, there))
                    now[pair] = there
                elif now[pair] != there:
                    raise Never(index, place)
            if operation.number in (3, 5):
                now[operation.collection, operation.key] = operation.number == 3
    return start


def depends(data, edition, room):
    """(number, None) of a refusal, or (0, the pairs that must be there and those that must not), each ascending; or Never."""
    try:
        patches = read_set(data, edition)
    except Fault as fault:
        return fault.number, None
    if findings(patches)[1]:
        return 11, None
    start = at_the_start(patches)
    if 2 * len(start) > room:
        return 14, None
    return 0, [sorted(pair for pair, there in start if there == wanted) for wanted in (True, False)]
