"""A set's canonical bytes, composed and taken apart. Layout only: which sets are right, the proved reader says.

A value is (kind letter, content): Q and M have a byte, S and U a number, T the bytes of a text.
"""

from collections import namedtuple

HEADINGS = {1: b"UI_DNA2_PROJECTION_PATCH_V1", 2: b"UI_DNA2_PROJECTION_PATCH_V2"}
OPERATIONS = ("binding", "availability", "insert", "update", "remove", "move")
KINDS = "QSTUM"
LAST_U64 = 2**64 - 1
LAST_U32 = 2**32 - 1
LAST_BYTE = 255

Patch = namedtuple("Patch", "id stream document surface previous revision epoch sequence operations")

# first and second are node and slot, node and availability byte, or collection and key
Operation = namedtuple("Operation", "name first second before value")


def operation_count(patches):
    return sum(len(patch.operations) for patch in patches)


# ---- composing


def u32(number):
    return number.to_bytes(4, "little")


def u64(number):
    return number.to_bytes(8, "little")


def optional(number):
    return b"\0" if number is None else b"\1" + u64(number)


def compose_value(value):
    kind, content = value
    tag = bytes([KINDS.index(kind) + 1])
    if kind in "QM":
        return tag + bytes([content])
    if kind == "S":
        return tag + content.to_bytes(8, "little", signed=True)
    if kind == "T":
        return tag + u32(len(content)) + content
    return tag + u64(content)


def compose_operation(operation):
    name = operation.name
    out = bytes([OPERATIONS.index(name) + 1]) + u64(operation.first)
    if name == "binding":
        return out + u32(operation.second) + compose_value(operation.value)
    if name == "availability":
        return out + bytes([operation.second])
    out += u64(operation.second)
    if name in ("insert", "move"):
        out += optional(operation.before)
    if name in ("insert", "update"):
        out += compose_value(operation.value)
    return out


def compose_patch(patch):
    head = u64(patch.id) + u64(patch.stream) + u64(patch.document) + optional(patch.surface)
    head += u64(patch.previous) + u64(patch.revision) + u64(patch.epoch) + u64(patch.sequence)
    return head + u32(len(patch.operations)) + b"".join(map(compose_operation, patch.operations))


def compose_set(patches, edition):
    heading = HEADINGS[edition]
    return u32(len(heading)) + heading + u32(len(patches)) + b"".join(map(compose_patch, patches))


# ---- taking apart


class NotASet(Exception):
    """Where the layout was left, by what, and the patches and operations that were read up to there."""

    def __init__(self, at, why, patches=()):
        super().__init__("at byte %d: %s" % (at, why))
        self.at = at
        self.why = why
        self.patches = patches


class _Taker:
    """A place in the bytes, and what lies there."""

    def __init__(self, data):
        self.data = data
        self.at = 0
        self.patches = []

    def take(self, size, what):
        if self.at + size > len(self.data):
            raise NotASet(self.at, "too few bytes for %s" % what)
        self.at += size
        return self.data[self.at - size : self.at]

    def number(self, size, what):
        return int.from_bytes(self.take(size, what), "little")

    def tag(self, last, what):
        """A byte from 1 to the last tag."""
        at = self.at
        byte = self.number(1, "an " + what if what[0] in "ao" else "a " + what)
        if not 1 <= byte <= last:
            raise NotASet(at, "%d is no %s" % (byte, what))
        return byte

    def optional(self, what):
        at = self.at
        byte = self.number(1, what)
        if byte > 1:
            raise NotASet(at, "%d is neither 0 nor 1, for %s" % (byte, what))
        return self.number(8, what) if byte else None

    def value(self):
        kind = KINDS[self.tag(len(KINDS), "value's kind") - 1]
        if kind in "QM":
            return kind, self.number(1, "a value")
        if kind == "S":
            return kind, int.from_bytes(self.take(8, "a value"), "little", signed=True)
        if kind == "T":
            return kind, self.take(self.number(4, "a text's length"), "a text")
        return kind, self.number(8, "a value")

    def operation(self):
        name = OPERATIONS[self.tag(len(OPERATIONS), "operation's tag") - 1]
        first = self.number(8, "an operation")
        if name == "binding":
            slot = self.number(4, "a slot")
            return Operation(name, first, slot, None, self.value())
        if name == "availability":
            return Operation(name, first, self.number(1, "an availability"), None, None)
        key = self.number(8, "a key")
        before = self.optional("a neighbour") if name in ("insert", "move") else None
        value = self.value() if name in ("insert", "update") else None
        return Operation(name, first, key, before, value)

    def patch(self):
        ids = [self.number(8, "a patch's " + part) for part in ("id", "stream", "document")]
        surface = self.optional("a surface")
        numbers = [self.number(8, "a patch's " + part) for part in ("previous revision", "revision", "epoch", "sequence")]
        count = self.number(4, "an operation count")
        self.patches.append(Patch(*ids, surface, *numbers, []))
        for _ in range(count):
            self.patches[-1].operations.append(self.operation())

    def heading(self):
        size = self.number(4, "the heading's length")
        for edition, heading in HEADINGS.items():
            if size == len(heading) and self.data[self.at : self.at + size] == heading:
                self.at += size
                return edition
        raise NotASet(0, "no heading of a set")


def read_layout(data):
    """The edition of the heading and the patches; NotASet where the bytes are laid out otherwise."""
    taker = _Taker(data)
    try:
        edition = taker.heading()
        for _ in range(taker.number(4, "the patch count")):
            taker.patch()
        if taker.at != len(data):
            raise NotASet(taker.at, "%d bytes left over" % (len(data) - taker.at))
    except NotASet as fault:
        raise NotASet(fault.at, fault.why, taker.patches) from None
    return edition, taker.patches
