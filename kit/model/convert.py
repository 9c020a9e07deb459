"""02, Job 13: a set of one edition turned into the other."""

from canonical import Fault, encode_set, read_set
from patch import operations_of


def has_score(patches):
    return any(getattr(operation, "value", (0, 0))[0] == 5 for operation in operations_of(patches))


def convert(data, edition, room):
    """(0, the set in the other edition), or (the number of the refusal, None)."""
    try:
        patches = read_set(data, edition)
    except Fault as fault:
        return fault.number, None
    if edition == 2 and has_score(patches):
        return 18, None
    converted = encode_set(patches, 3 - edition)
    return (0, converted) if len(converted) <= room else (14, None)
