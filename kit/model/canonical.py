"""01, 'Canonical bytes', and 02, Jobs 5, 6 and 13: the encoder, and the strict reader with 10 and 12."""

from patch import Availability, Binding, Insert, Move, Patch, Remove, Update
from sizes import HIGHEST_SCORE, PATCH_OPERATIONS, SET_BYTES, SET_PATCHES, TEXT_BYTES, TEXT_CHARACTERS
from utf8 import characters, is_utf8

# what tells the editions apart: the heading, and the kinds of values
HEADINGS = {1: b"UI_DNA2_PROJECTION_PATCH_V1", 2: b"UI_DNA2_PROJECTION_PATCH_V2"}
VALUE_KINDS = {1: (1, 2, 3, 4), 2: (1, 2, 3, 4, 5)}


# ---- the encoder; it refuses nothing, so that faulty sets can be made with it


def u32(number):
    return number.to_bytes(4, "little")


def u64(number):
    return number.to_bytes(8, "little")


def encode_optional(number):
    return b"\0" if number is None else b"\1" + u64(number)


def encode_value(value):
    kind, content = value
    if kind in (1, 5):
        return bytes([kind, content])
    if kind == 2:
        return b"\2" + content.to_bytes(8, "little", signed=True)
    if kind == 3:
        return b"\3" + u32(len(content)) + content
    return b"\4" + u64(content)


def encode_operation(operation):
    number = bytes([operation.number])
    if operation.number == 1:
        return number + u64(operation.node) + u32(operation.slot) + encode_value(operation.value)
    if operation.number == 2:
        return number + u64(operation.node) + bytes([operation.byte])
    item = number + u64(operation.collection) + u64(operation.key)
    if operation.number == 3:
        return item + encode_optional(operation.before) + encode_value(operation.value)
    if operation.number == 4:
        return item + encode_value(operation.value)
    if operation.number == 5:
        return item
    return item + encode_optional(operation.before)


def encode_head(patch):
    """A patch up to its operation count."""
    return (
        u64(patch.id) + u64(patch.stream) + u64(patch.document) + encode_optional(patch.surface)
        + u64(patch.previous) + u64(patch.revision) + u64(patch.epoch) + u64(patch.sequence)
    )


def encode_patch(patch):
    return encode_head(patch) + u32(len(patch.operations)) + b"".join(map(encode_operation, patch.operations))


def encode_set(patches, edition=1):
    heading = HEADINGS[edition]
    return u32(len(heading)) + heading + u32(len(patches)) + b"".join(map(encode_patch, patches))


# ---- the reader


class Fault(Exception):
    """Bytes that do not read; the number is 10 or 12."""

    def __init__(self, number):
        super().__init__(number)
        self.number = number


class Reader:
    def __init__(self, data, edition):
        self.data = data
        self.edition = edition
        self.at = 0

    def take(self, size):
        """The next bytes; too few are 10."""
        end = self.at + size
        if end > len(self.data):
            raise Fault(10)
        part = self.data[self.at : end]
        self.at = end
        return part

    def number(self, size):
        return int.from_bytes(self.take(size), "little")

    def tag(self, allowed):
        """A byte that has to be one of these, else 10."""
        byte = self.number(1)
        if byte not in allowed:
            raise Fault(10)
        return byte

    def count(self, capacity):
        """A u32; over its capacity is 12 here, before what follows."""
        number = self.number(4)
        if number > capacity:
            raise Fault(12)
        return number

    def optional(self):
        return self.number(8) if self.tag((0, 1)) else None

    def value(self):
        kind = self.tag(VALUE_KINDS[self.edition])
        if kind == 1:
            return (1, self.tag((0, 1, 2, 3)))
        if kind == 2:
            return (2, int.from_bytes(self.take(8), "little", signed=True))
        if kind == 3:
            text = self.take(self.number(4))
            if len(text) > TEXT_BYTES:
                raise Fault(12)
            if not is_utf8(text):
                raise Fault(10)
            if characters(text) > TEXT_CHARACTERS:
                raise Fault(12)
            return (3, text)
        if kind == 4:
            return (4, self.number(8))
        return (5, self.tag(range(HIGHEST_SCORE + 1)))

    def operation(self):
        number = self.tag((1, 2, 3, 4, 5, 6))
        first = self.number(8)
        if number == 1:
            slot = self.number(4)
            return Binding(1, first, slot, self.value())
        if number == 2:
            return Availability(2, first, self.tag((0, 1, 2, 3, 4)))
        key = self.number(8)
        if number == 3:
            before = self.optional()
            return Insert(3, first, key, before, self.value())
        if number == 4:
            return Update(4, first, key, self.value())
        if number == 5:
            return Remove(5, first, key)
        return Move(6, first, key, self.optional())

    def patch(self):
        ids = [self.number(8) for _ in range(3)]
        surface = self.optional()
        numbers = [self.number(8) for _ in range(4)]
        count = self.count(PATCH_OPERATIONS)
        operations = [self.operation() for _ in range(count)]
        return Patch(*ids, surface, *numbers, operations)

    def patches(self):
        heading = HEADINGS[self.edition]
        if self.number(4) != len(heading) or self.take(len(heading)) != heading:
            raise Fault(10)
        count = self.count(SET_PATCHES)
        return [self.patch() for _ in range(count)]


def read_set(data, edition):
    """The patches of a set that is told to be of this edition, or a Fault."""
    if len(data) > SET_BYTES:
        raise Fault(12)
    reader = Reader(data, edition)
    patches = reader.patches()
    if reader.at != len(data):
        raise Fault(10)
    return patches
