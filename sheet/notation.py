"""Patches, operations and values in the words of a sheet, read and written."""

from .canonical import LAST_BYTE, LAST_U32, LAST_U64, OPERATIONS, Operation, Patch
from .words import SIGNED, decimal, escaped

AVAILABILITIES = ("Available", "Unavailable", "Hidden", "Pending", "Stale")
QUADS = "NFTS"
VALUE = "a value (Q, S, T, U, M or X)"
# the parts of a patch line, in the order in which they are written
PARTS = ("id", "sequence", "previous", "revision", "stream", "document", "surface", "epoch")
FIXED = {"stream": 1, "document": 1, "surface": None, "epoch": 1}


# ---- values


def read_value(words):
    words.peek()
    at = words.at
    kind = words.word(VALUE)
    if kind == "T":
        return "T", words.escaped_rest().encode("utf-8")
    if kind == "X":
        return "T", words.hex()
    if kind == "S":
        return "S", _signed(words)
    if kind == "U":
        return "U", words.number("an unsigned number")
    if kind == "M":
        return "M", words.number("a match score", LAST_BYTE)
    if kind == "Q":
        return "Q", _quad(words)
    raise words.fault(VALUE, at)


def _signed(words):
    words.peek()
    at = words.at
    word = words.word("a signed number")
    if not SIGNED.fullmatch(word) or not -(2**63) <= int(word) < 2**63:
        raise words.fault("a signed number from -2^63 to 2^63-1", at)
    return int(word)


def _quad(words):
    if words.peek() and words.peek() in QUADS:
        return QUADS.index(words.word("a quad"))
    return words.number("a quad, N, F, T or S, or its byte", LAST_BYTE)


def write_value(value):
    kind, content = value
    if kind != "T":
        return "%s %d" % (kind, content)
    try:
        return ("T " + escaped(content.decode("utf-8"))) if content else "T"
    except UnicodeDecodeError:
        return "X " + content.hex()


# ---- operations


def read_operation(words):
    """The operation of a line whose first word names one."""
    name = words.word("an operation")
    if name == "binding":
        node, slot = words.number("a node"), words.number("a slot", LAST_U32)
        operation = Operation(name, node, slot, None, read_value(words))
    elif name == "availability":
        operation = Operation(name, words.number("a node"), read_availability(words), None, None)
    else:
        operation = _read_entry(name, words)
    words.end()
    return operation


def _read_entry(name, words):
    collection, key = words.number("a collection"), words.number("a key")
    before = _neighbour(name, words) if name in ("insert", "move") else None
    value = read_value(words) if name in ("insert", "update") else None
    return Operation(name, collection, key, before, value)


def _neighbour(name, words):
    """A neighbour, if one is named."""
    if words.peek() == "before":
        words.word("before")
        return words.number("the neighbour's key")
    if name == "move" and words.peek():
        raise words.fault("before and a key, or the line's end to go last")
    return None


def read_availability(words):
    word = words.peek().capitalize()
    if word in AVAILABILITIES:
        words.word("an availability")
        return AVAILABILITIES.index(word)
    return words.number("an availability (%s) or its byte" % ", ".join(AVAILABILITIES), LAST_BYTE)


def write_operation(operation):
    name, first, second, before, value = operation
    if name == "availability":
        state = AVAILABILITIES[second] if second < len(AVAILABILITIES) else second
        return "%s %d %s" % (name, first, state)
    words = "%s %d %d" % (name, first, second)
    if before is not None:
        words += " before %d" % before
    return words if value is None else words + " " + write_value(value)


def is_operation(word):
    return word in OPERATIONS


# ---- patch lines


class Numbers:
    """What continues by itself: the numbers of patches and of batches, from 1 after each create."""

    def __init__(self):
        self.restart()

    def restart(self):
        self.id = self.revision = self.sequence = self.batch = 0

    def after(self, number, what, words):
        if number == LAST_U64:
            raise words.fault("%s=… written out, for no number follows %d" % (what, number))
        return number + 1

    def take(self, patch):
        self.id, self.revision, self.sequence = patch.id, patch.revision, patch.sequence


def read_parts(words, names, last_of=lambda name: LAST_U64):
    """NAME=NUMBER up to the line's end; a surface may be -."""
    given = {}
    while words.peek():
        at = words.at
        word = words.word("a part")
        name, equals, number = word.partition("=")
        if not equals or name not in names:
            raise words.fault("one of " + ", ".join(part + "=" for part in names), at)
        if name in given:
            raise words.fault("%s= once" % name, at)
        value_at = at + len(name) + 1
        if name == "surface" and number == "-":
            given[name] = None
        else:
            given[name] = decimal(number, last_of(name), name, lambda text: words.fault(text, value_at))
    return given


def read_patch(words, numbers):
    """A patch without operations; what its line leaves out continues the patch above it."""
    given = {}
    if words.peek() and "=" not in words.peek():
        given = _by_position(words)
    named = read_parts(words, PARTS)
    given.update(named)
    patch = fill_patch(given, numbers, words)
    numbers.take(patch)
    return patch


def _by_position(words):
    """patch N: the N-th patch of a stream that begins with 1."""
    words.peek()
    at = words.at
    place = words.number("a patch's number, or a part such as id=")
    if place == 0:
        raise words.fault("a number from 1 (or id=0 for that id)", at)
    return {"id": place, "sequence": place, "previous": place - 1, "revision": place}


def fill_patch(given, numbers, words):
    parts = dict(FIXED)
    parts.update(given)
    if "id" not in parts:
        parts["id"] = numbers.after(numbers.id, "id", words)
    parts.setdefault("previous", numbers.revision)
    if "revision" not in parts:
        parts["revision"] = numbers.after(parts["previous"], "revision", words)
    if "sequence" not in parts:
        parts["sequence"] = numbers.after(numbers.sequence, "sequence", words)
    return Patch(operations=[], **parts)


def write_patch(patch):
    """The patch line with its numbers; stream, document, surface and epoch where they are not the usual ones."""
    words = ["patch"]
    for part in PARTS:
        number = getattr(patch, part)
        if part not in FIXED or FIXED[part] != number:
            words.append("%s=%s" % (part, "-" if number is None else number))
    return " ".join(words)


def write_patches(patches):
    """All lines of a set, patches and their operations."""
    lines = []
    for patch in patches:
        lines.append(write_patch(patch))
        lines += ["  " + write_operation(operation) for operation in patch.operations]
    return lines
