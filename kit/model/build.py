"""Writes a set from a readable notation: python3 build.py < NOTATION prints its hex; with --raw, its bytes.
With --v2 the set is of the second edition.

    patch id=7 stream=1 document=1 surface=- previous=0 revision=1 epoch=1 sequence=3
    binding NODE SLOT VALUE
    availability NODE BYTE
    insert COLLECTION KEY [before KEY] VALUE
    update COLLECTION KEY VALUE
    remove COLLECTION KEY
    move COLLECTION KEY [before KEY]

A VALUE is `Q 2`, `S -4`, `U 7`, `M 85` (a score), or `T` and the text up to the line's end; `X` and hex is a text of these bytes.
Each part of a patch line may be left out: the n-th patch, from 1, has id n, stream, document and epoch 1, no
surface, previous n-1, revision n, sequence n. Empty lines and lines that start with # say nothing.
"""

import sys

import patch as made
from canonical import encode_set
from patch import Patch


def quad(byte):
    return (1, byte)


def signed(number):
    return (2, number)


def text(content):
    return (3, content.encode("utf-8") if isinstance(content, str) else content)


def unsigned(number):
    return (4, number)


def score(number):
    return (5, number)


def patch(position, operations, **parts):
    """The patch at a position from 1, with what the notation would fill in."""
    filled = dict(
        id=position, stream=1, document=1, surface=None, previous=position - 1, revision=position, epoch=1,
        sequence=position,
    )
    filled.update(parts)
    return Patch(operations=list(operations), **filled)


def patches_of(*operation_lists, **parts):
    """A patch for each list of operations, one following the other; the parts are those of every patch."""
    return [patch(position, operations, **parts) for position, operations in enumerate(operation_lists, 1)]


def hex_of(patches, edition=1):
    return encode_set(patches, edition).hex()


# ---- the notation


def _value(words):
    kind, _, content = words.partition(" ")
    if kind == "T":
        return text(content)
    if kind == "X":
        return text(bytes.fromhex(content))
    return {"Q": quad, "S": signed, "U": unsigned, "M": score}[kind](int(content))


def _neighbour(words):
    """The neighbour, if one is named, and what follows it."""
    if not words.startswith("before "):
        return None, words
    _, key, *rest = words.split(" ", 2)
    return int(key), "".join(rest)


def _operation(words):
    name, first, second, rest = (words.split(" ", 3) + ["", ""])[:4]
    first, second = int(first), int(second)
    if name == "binding":
        return made.binding(first, second, _value(rest))
    if name == "availability":
        return made.availability(first, second)
    if name == "update":
        return made.update(first, second, _value(rest))
    if name == "remove":
        return made.remove(first, second)
    before, rest = _neighbour(rest)
    if name == "move":
        return made.move(first, second, before)
    if name == "insert":
        return made.insert(first, second, _value(rest), before)
    raise ValueError("no operation: " + words)


def _parts(words):
    parts = dict(word.split("=") for word in words)
    return {name: None if number == "-" else int(number) for name, number in parts.items()}


def read_notation(notation):
    patches = []
    for words in notation.splitlines():
        words = words.lstrip()
        if not words or words.startswith("#"):
            continue
        if words.split()[0] == "patch":
            patches.append(patch(len(patches) + 1, [], **_parts(words.split()[1:])))
        else:
            patches[-1].operations.append(_operation(words))
    return patches


if __name__ == "__main__":
    data = encode_set(read_notation(sys.stdin.read()), 2 if "--v2" in sys.argv else 1)
    if "--raw" in sys.argv:
        sys.stdout.buffer.write(data)
    else:
        print(data.hex())
