"""Which rule a batch breaks, where and with which figures: 01's steps in order, and in step 4 the fields of the set in order.

A reason is (number, name, figures); a figure that there is none of is None. Patches and operations are told by index from 0.
"""

from canonical import HEADINGS, VALUE_KINDS, Reader, u32
from checks import findings
from projection import Stopped, apply_operation
from sizes import HIGHEST_SCORE, LAST_U64, PATCH_OPERATIONS, SET_BYTES, SET_PATCHES, TEXT_BYTES, TEXT_CHARACTERS
from utf8 import characters, is_utf8

OVER_CAPACITY = ("set-too-long", "patch-count", "operation-count", "text-length", "text-characters")
# the fields of an operation behind its tag: N a u64, S a u32, O an optional, A an availability, V a value
OPERATIONS = {1: "NSV", 2: "NA", 3: "NNOV", 4: "NNV", 5: "NN", 6: "NNO"}
ENVELOPE = "NNNONNNN"


class Reason(Exception):
    def __init__(self, number, name, *figures):
        super().__init__(name)
        self.answer = number, name, figures


class Stop(Exception):
    """The field at which reading stops, and the rule that it breaks."""

    def __init__(self, rule, position):
        super().__init__(rule)
        self.rule = rule
        self.position = position


class Way(Reader):
    """The way through the fields of a set, which stops at the first that breaks a rule; patch and operation tell where it is."""

    patch_index = None
    operation_index = None

    def take(self, size):
        if self.at + size > len(self.data):
            raise Stop("too-few-bytes", self.at)
        return Reader.take(self, size)

    def byte(self, allowed, rule):
        at = self.at
        byte = self.number(1)
        if byte not in allowed:
            raise Stop(rule, at)
        return byte

    def count(self, capacity, rule):
        at = self.at
        count = self.number(4)
        if count > capacity:
            raise Stop(rule, at)
        return count

    def text(self):
        """A text cut off lacks bytes, however long it was to be; one that is too long is told at its length."""
        at = self.at
        length = self.number(4)
        start = self.at
        content = self.take(length)
        if length > TEXT_BYTES:
            raise Stop("text-length", at)
        if not is_utf8(content):
            raise Stop("text-not-utf8", start)
        if characters(content) > TEXT_CHARACTERS:
            raise Stop("text-characters", start)

    def value(self):
        kind = self.byte(VALUE_KINDS[self.edition], "value-kind")
        if kind == 1:
            self.byte(range(4), "quad")
        elif kind == 3:
            self.text()
        elif kind == 5:
            self.byte(range(HIGHEST_SCORE + 1), "score")
        else:
            self.take(8)

    def fields(self, letters):
        for letter in letters:
            if letter == "N":
                self.take(8)
            elif letter == "S":
                self.take(4)
            elif letter == "A":
                self.byte(range(5), "availability")
            elif letter == "V":
                self.value()
            elif self.byte((0, 1), "optional"):
                self.take(8)

    def heading(self):
        """Each byte of the heading is a field of its own."""
        heading = HEADINGS[self.edition]
        for byte in u32(len(heading)) + heading:
            self.byte((byte,), "heading")

    def whole(self):
        if len(self.data) > SET_BYTES:
            raise Stop("set-too-long", 0)
        self.heading()
        for self.patch_index in range(self.count(SET_PATCHES, "patch-count")):
            self.fields(ENVELOPE)
            for self.operation_index in range(self.count(PATCH_OPERATIONS, "operation-count")):
                self.fields(OPERATIONS[self.byte(OPERATIONS, "operation-tag")])
            self.operation_index = None
        self.patch_index = None
        if self.at != len(self.data):
            raise Stop("bytes-left", self.at)


def explain_reading(data, edition):
    """A Reason where the bytes do not read."""
    way = Way(data, edition)
    try:
        way.whole()
    except Stop as stop:
        number = 12 if stop.rule in OVER_CAPACITY else 10
        raise Reason(number, stop.rule, stop.position, way.patch_index, way.operation_index)


def places_of(patches):
    """Each operation with the indices of its patch and of itself there."""
    return [(i, j, operation) for i, patch in enumerate(patches) for j, operation in enumerate(patch.operations)]


def operation_rule(projection, operation):
    """The rule that an operation breaks, which fails on this projection."""
    if operation.number == 1:
        return "bindings-full"
    if operation.number == 2:
        return "availabilities-full"
    keys = [key for key, _ in projection.entries(operation.collection)]
    if operation.number == 3:
        if operation.key in keys:
            return "key-present"
        return "entries-full" if operation.before is None or operation.before in keys else "neighbour-absent"
    return "neighbour-absent" if operation.key in keys else "key-absent"


def explain_operations(projection, patches):
    """A Reason where an operation does not apply: the first, on what those before it left."""
    for i, j, operation in places_of(patches):
        after = projection.copy()
        try:
            apply_operation(after, operation, patches[i].id)
        except Stopped as stopped:
            raise Reason(stopped.number, operation_rule(projection, operation), i, j)
        projection = after


def explain_declared(limits, patch_count, stimulus_bytes):
    over = [name for name, figure, limit in (("patches", patch_count, limits.patches), ("bytes", stimulus_bytes, limits.bytes)) if figure > limit]
    if over:
        raise Reason(4, "declared-" + "-and-".join(over), patch_count, limits.patches, stimulus_bytes, limits.bytes)


def explain_counts(limits, patch_count, patches, references):
    actual = sum(len(patch.operations) for patch in patches)
    if patch_count != len(patches) or references != actual:
        raise Reason(5, "counts-differ", patch_count, len(patches), references, actual)
    if actual > limits.references:
        raise Reason(4, "references", actual, limits.references)


def explain_targets(session, patches):
    unknown = [(i, j) for i, j, operation in places_of(patches) if not session.knows(operation)]
    if unknown:
        raise Reason(6, "unknown-target", len(unknown), *unknown[0])


def explain_steps(session, named, sequence, patch_count, stimulus_bytes, references, edition, data):
    """Steps 1 to 9; a Reason at the first that refuses."""
    if named != session.id:
        raise Reason(1, "foreign-session", named, session.id)
    if session.lifecycle == "closed":
        raise Reason(2, "closed")
    explain_declared(session.limits, patch_count, stimulus_bytes)
    explain_reading(data, edition)
    patches = Reader(data, edition).patches()
    place, found = findings(patches)
    if found:
        raise Reason(11, "findings", place, len(found), *found[0])
    explain_counts(session.limits, patch_count, patches, references)
    explain_targets(session, patches)
    if patch_count != 0 and not session.takes(sequence):
        raise Reason(7, "cursor", None if session.cursor == LAST_U64 else session.cursor + 1)
    explain_operations(session.projection, patches)


def explain(session, *batch):
    """The reason for which a batch is refused, or None; the session is as before. Under a cap of 0 it is 'withheld'."""
    try:
        explain_steps(session, *batch)
    except Reason as reason:
        return reason.answer if session.limits.diagnostics else "withheld"
    return None
