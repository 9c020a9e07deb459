"""01, 'Listing': a projection, or a set applied to an empty one, as tab-parted lines of bytes.

python3 listing.py [EDITION] < SET; the edition is 1 if it is left out.
"""

import sys

from canonical import Fault, read_set
from checks import findings
from projection import Projection, Stopped, apply_patches
from sizes import SET_BYTES

KINDS = {1: b"Q", 2: b"S", 3: b"T", 4: b"U", 5: b"M"}
ESCAPES = {ord("\\"): b"\\\\", ord("\t"): b"\\t", ord("\n"): b"\\n", ord("\r"): b"\\r"}


def line(*fields):
    """One line; a number prints in decimal, bytes as they are."""
    return b"\t".join(field if isinstance(field, bytes) else str(field).encode("ascii") for field in fields) + b"\n"


def escaped(text):
    """02, Job 2: a text without tab, newline and carriage return, from which it can be told."""
    return b"".join(ESCAPES.get(byte, bytes([byte])) for byte in text)


def value_fields(value):
    kind, content = value
    return KINDS[kind], escaped(content) if kind == 3 else content


def listing_tables(projection):
    lines = [line(b"P", projection.record_count())]
    for node, slot in sorted(projection.bindings):
        lines.append(line(b"B", node, slot, *value_fields(projection.bindings[node, slot])))
    for node in sorted(projection.availability):
        lines.append(line(b"A", node, projection.availability[node]))
    for collection in sorted(projection.collections):
        for key, value in projection.collections[collection]:
            lines.append(line(b"C", collection, key, *value_fields(value)))
    return b"".join(lines)


def listing(data, edition):
    """What the edition's program prints of its input."""
    try:
        patches = read_set(data, edition)
        if findings(patches)[1]:
            return line(b"E", 11)
        return listing_tables(apply_patches(Projection(), patches))
    except (Fault, Stopped) as refusal:
        return line(b"E", refusal.number)


if __name__ == "__main__":
    sys.stdout.buffer.write(listing(sys.stdin.buffer.read(SET_BYTES + 1), int(sys.argv[1]) if sys.argv[1:] else 1))
