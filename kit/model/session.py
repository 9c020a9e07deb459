"""01, 'One batch, from entry to leaf', 'Lifecycle' and 'Diagnostics under the cap'; each batch is told its edition (02, Job 13)."""

from collections import namedtuple

from canonical import Fault, read_set
from checks import findings
from patch import operations_of
from projection import Projection, Stopped, apply_patches
from sizes import ANCHORS, LAST_U64

Limits = namedtuple("Limits", "bytes diagnostics patches references")
Diagnostics = namedtuple("Diagnostics", "code stage logical emitted")

STAGES = {1: 1, 2: 2, 3: 2, 4: 4, 5: 4, 6: 5, 7: 6, 8: 8, 9: 8, 10: 4, 11: 4, 12: 4}
NONE = Diagnostics(0, 0, 0, 0)

# the pairs that 01 lists; close is allowed from all but Closed
TRANSITIONS = {
    ("created", "activate"): "active",
    ("active", "suspend"): "suspended",
    ("suspended", "resume"): "active",
    ("created", "close"): "closed",
    ("active", "close"): "closed",
    ("suspended", "close"): "closed",
}


class Refusal(Exception):
    """A call that is refused: 01's number and how many diagnostics it has before the cap."""

    def __init__(self, number, logical=1):
        super().__init__(number)
        self.number = number
        self.logical = logical


class TooManyAnchors(Exception):
    """13: there is no session."""


class Session:
    def __init__(self, number, limits, nodes, bindings, collections):
        if max(len(nodes), len(bindings), len(collections)) > ANCHORS:
            raise TooManyAnchors
        self.id = number
        self.limits = limits
        self.nodes = set(nodes)
        self.bindings = set(bindings)
        self.collections = set(collections)
        self.lifecycle = "created"
        self.cursor = None
        self.projection = Projection()

    def _capped(self, refusal):
        emitted = min(refusal.logical, self.limits.diagnostics)
        if emitted == 0:
            return Diagnostics(0, 0, refusal.logical, 0)
        return Diagnostics(refusal.number, STAGES[refusal.number], refusal.logical, emitted)

    # ---- lifecycle

    def _next_lifecycle(self, command, stimulus_bytes):
        if self.lifecycle == "closed":
            raise Refusal(2)
        if command == "noop":
            after = self.lifecycle
        elif (self.lifecycle, command) in TRANSITIONS:
            after = TRANSITIONS[self.lifecycle, command]
        else:
            raise Refusal(3)
        if stimulus_bytes > self.limits.bytes:
            raise Refusal(4)
        return after

    def apply(self, command, stimulus_bytes):
        """Disposition and diagnostics of a lifecycle step."""
        try:
            self.lifecycle = self._next_lifecycle(command, stimulus_bytes)
        except Refusal as refusal:
            return "rejected", self._capped(refusal)
        return ("no-change" if command == "noop" else "applied"), NONE

    # ---- one batch

    def knows(self, operation):
        if operation.number == 1:
            return (operation.node, operation.slot) in self.bindings
        if operation.number == 2:
            return operation.node in self.nodes
        return operation.collection in self.collections

    def takes(self, sequence):
        if self.cursor is None:
            return True
        return self.cursor != LAST_U64 and sequence == self.cursor + 1

    def _checked(self, session, sequence, patch_count, stimulus_bytes, references, edition, data):
        """Steps 1 to 8; the patches of the batch where all pass."""
        if session != self.id:
            raise Refusal(1)
        if self.lifecycle == "closed":
            raise Refusal(2)
        if patch_count > self.limits.patches or stimulus_bytes > self.limits.bytes:
            raise Refusal(4)
        try:
            patches = read_set(data, edition)
        except Fault as fault:
            raise Refusal(fault.number)
        if findings(patches)[1]:
            raise Refusal(11)
        operations = operations_of(patches)
        if patch_count != len(patches) or references != len(operations):
            raise Refusal(5)
        if len(operations) > self.limits.references:
            raise Refusal(4)
        absent = sum(not self.knows(operation) for operation in operations)
        if absent:
            raise Refusal(6, absent)
        if patch_count != 0 and not self.takes(sequence):
            raise Refusal(7)
        return patches

    def batch(self, session, sequence, patch_count, stimulus_bytes, references, edition, data):
        """Disposition and diagnostics of one batch."""
        try:
            patches = self._checked(session, sequence, patch_count, stimulus_bytes, references, edition, data)
            try:
                projection = apply_patches(self.projection, patches)
            except Stopped as stopped:
                raise Refusal(stopped.number)
        except Refusal as refusal:
            return "rejected", self._capped(refusal)
        if patch_count == 0:
            return "no-change", NONE
        self.projection = projection
        self.cursor = sequence
        return "applied", NONE
