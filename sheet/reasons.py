"""What explain answers, taken apart: the rule's name and its figures."""

from collections import namedtuple

Reason = namedtuple("Reason", "number name figures")

PLACE = ("patch", "operation")
LIMITS = ("patches", "at most", "bytes", "at most")
READING = (
    "set-too-long", "heading", "too-few-bytes", "operation-tag", "value-kind", "optional", "availability", "quad", "score", "text-not-utf8",
    "patch-count", "operation-count", "text-length", "text-characters", "bytes-left",
)
# what the figures of a rule are; where a program prints another count of them they are shown as they are
FIGURES = {
    "foreign-session": ("named", "in use"),
    "declared-patches": LIMITS,
    "declared-bytes": LIMITS,
    "declared-patches-and-bytes": LIMITS,
    **{rule: ("byte",) + PLACE for rule in READING},
    "findings": ("place", "count", "kind", "domain", "secondary"),
    "counts-differ": ("patches declared", "there", "references declared", "there"),
    "references": ("there", "at most"),
    "unknown-target": ("count",) + PLACE,
    "cursor": ("takes",),
    "key-present": PLACE,
    "key-absent": PLACE,
    "neighbour-absent": PLACE,
    "bindings-full": PLACE,
    "availabilities-full": PLACE,
    "entries-full": PLACE,
}


def read_reason(line):
    """The reason of a W line; None where there is none, or it is withheld."""
    letter, number, *rest = line.split("\t") + [""]
    rest = rest[:-1]
    if letter != "W" or not number or number == "0" or not rest:
        return None
    return Reason(number, rest[0], rest[1:])


def labelled_figures(reason, without_place=False):
    """The figures in words, as far as they are known; the place is left out where it is told beside them."""
    labels = FIGURES.get(reason.name, ())
    if len(labels) != len(reason.figures):
        return reason.figures
    pairs = list(zip(labels, reason.figures))
    if without_place and labels[-2:] == PLACE:
        pairs = pairs[:-2]
    return ["%s %s" % pair for pair in pairs]


def place_in(reason, patches):
    """Patch and operation, from 0, that the reason names; None where it names none of the set's."""
    labels = FIGURES.get(reason.name, ())
    if labels[-2:] != PLACE or len(labels) != len(reason.figures) or not all(map(str.isdigit, reason.figures[-2:])):
        return None
    patch, operation = map(int, reason.figures[-2:])
    return (patch, operation) if patch < len(patches) and operation < len(patches[patch].operations) else None
