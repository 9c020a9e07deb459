"""02, Job 1: a term list, lines of key, tab and text, turned into a set of one patch of inserts."""

import re

from canonical import encode_set
from checks import findings
from patch import insert
from sizes import LAST_U64, PATCH_OPERATIONS, SET_BYTES, TEXT_BYTES, TEXT_CHARACTERS
from utf8 import characters, is_utf8

KEY = re.compile(rb"0|[1-9][0-9]{0,19}")


class BadList(Exception):
    """A line that stops the import; the number is 15 or 12."""

    def __init__(self, number):
        super().__init__(number)
        self.number = number


def lines_of(data):
    """Every newline ends a line; bytes behind the last one are a line too."""
    lines = data.split(b"\n")
    return lines if lines[-1] else lines[:-1]


def term(line):
    """Key and text of a line that has the form, else 15."""
    fields = line.split(b"\t")
    if len(fields) != 2 or not KEY.fullmatch(fields[0]) or int(fields[0]) > LAST_U64 or not is_utf8(fields[1]):
        raise BadList(15)
    return int(fields[0]), fields[1]


def terms(data):
    """The keys and texts in order; the first line with a fault decides."""
    found = []
    for line in lines_of(data):
        key, text = term(line)
        if len(text) > TEXT_BYTES or characters(text) > TEXT_CHARACTERS or len(found) == PATCH_OPERATIONS:
            raise BadList(12)
        found.append((key, text))
    return found


def import_terms(data, edition, collection, patch, room):
    """(0, the set), or (the number of the refusal, None); the patch has the caller's numbers and no operations."""
    try:
        made = patch._replace(operations=[insert(collection, key, (3, text)) for key, text in terms(data)])
    except BadList as bad:
        return bad.number, None
    result = encode_set([made], edition)
    if len(result) > SET_BYTES:
        return 12, None
    if findings([made])[1]:
        return 11, None
    return (0, result) if len(result) <= room else (14, None)
