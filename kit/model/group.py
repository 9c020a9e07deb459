"""02, Job 12: several batches that are taken together, or not at all."""

from collections import namedtuple
from copy import copy

MOST_BATCHES = 8

# the numbers are those of a batch's envelope and its declared references; the length is that of its set
Member = namedtuple("Member", "numbers edition length")


class NoGroup(Exception):
    """17: no batch is looked at."""


def apply_group(session, members, data):
    """How many were taken; and where one was refused, its place, disposition and diagnostics."""
    if not 1 <= len(members) <= MOST_BATCHES or sum(member.length for member in members) != len(data):
        raise NoGroup
    after, start = copy(session), 0
    for place, member in enumerate(members):
        end = start + member.length
        disposition, diagnostics = after.batch(*member.numbers, member.edition, data[start:end])
        if disposition == "rejected":
            return 0, (place, disposition, diagnostics)
        start = end
    session.projection, session.cursor = after.projection, after.cursor
    return len(members), None
