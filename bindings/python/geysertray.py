"""A match panel by libgeysertray. docs/EMBEDDING.md begins with an example.

A refused call raises Refused, which names the rule, and leaves the panel as it was. One thread at a time may use a panel; different panels share
nothing. The library is the file that GEYSERTRAY_LIBRARY names, else libgeysertray.so.1 where the loader finds it.
"""

from __future__ import annotations

import ctypes
import functools
import os
from enum import Enum, IntEnum
from typing import Iterable, Iterator, NamedTuple, Optional, Sequence, Union

HEAD_NUMBERS = 11
BINDING_BYTES = 16960
AVAILABILITY_BYTES = 1088
ENTRY_BYTES = 34432
LENGTH_BYTES = 2048
PLAN_BINDING_BYTES = 1792
PLAN_ENTRY_BYTES = 4096
TURNS_NUMBERS = 11
TEXT_BYTES = 240
PAGE_WIDTH = 262
# room that holds every answer of its call: docs/RULES.md, number 14
SET_BYTES = 32768
LISTING_BYTES = 102150
PRINT_BYTES = 46848
DEPENDS_KEYS = 2520
FINDING_NUMBERS = 945
# the number of what is no group, which no batch of one is refused with
NOT_A_GROUP = 17

# what each number means, in the words of docs/RULES.md
RULES = {
    1: "The batch names another session.",
    2: "The session was closed; it takes nothing any more.",
    3: "This command has no place in this state, such as resuming what was never suspended.",
    4: "One of the session's own limits is passed: patches or stimulus bytes as declared, or target references as counted.",
    5: "The declared count of patches or of target references is not what the set has.",
    6: "So many operations (the logical count) aim at a node, a binding or a collection that the session was not created with.",
    7: "The batch's number is not the one after the last that was applied: a batch was lost, sent twice, or sent after a refused one.",
    8: "An operation met a list that it does not fit: the key to insert is there already, or the key or the neighbour is missing.",
    9: "The panel is full: 64 bindings, 64 availabilities, 128 entries over all collections.",
    10: "The bytes are no set: wrong heading or byte, too few bytes, a text cut off however long it was to be, a text that is no UTF-8, a score above 100 or in the first edition, bytes left over.",
    11: "The set reads, and its patches contradict each other or themselves.",
    12: "More than a set can carry: 32,768 bytes, 64 patches, 128 operations a patch, 240 bytes or 160 characters a text, all of whose bytes are there.",
    13: "A session was to be created with more than 128 anchors of one kind.",
    14: "The output is shorter than the bytes that the writer, the converter or bringing in a term list would write, than the list of keys that a set depends on, or than the print of a collection; or an answer table has fewer places than a page has keys.",
    15: "A line of a term list has another form than key, tab, text: it is empty, has no tab or two, its key has a sign, a leading zero or is past 2^64−1, or its text is no UTF-8.",
    16: "A page of more than 64 keys was asked for, whatever room there is for the answers.",
    17: "No batches, more than eight, or lengths that do not add up to the bytes that were lent.",
    18: "A set of the second edition with a match score was to be converted into the first, which has none.",
    19: "A sender registered under a number that the set-up does not have: n senders are numbered 0 to n − 1.",
    20: "The sender waits already; it keeps its place.",
    21: "Turns were to be set up for no senders, or for more than eight.",
}
# the names of the rules behind a number, from 1
RULE_NAMES = (
    # made from crates/c_answers by c/make_header.py
    "foreign-session",
    "closed",
    "declared-patches",
    "declared-bytes",
    "declared-patches-and-bytes",
    "set-too-long",
    "heading",
    "too-few-bytes",
    "operation-tag",
    "value-kind",
    "optional",
    "availability",
    "quad",
    "score",
    "text-not-utf8",
    "patch-count",
    "operation-count",
    "text-length",
    "text-characters",
    "bytes-left",
    "findings",
    "counts-differ",
    "references",
    "unknown-target",
    "cursor",
    "key-present",
    "key-absent",
    "neighbour-absent",
    "bindings-full",
    "availabilities-full",
    "entries-full",
    # end of what is made
)
HIDDEN = "The session's limit of diagnostics is 0, so the number is hidden; the logical count still tells how many there were."


class Disposition(IntEnum):
    APPLIED = 0
    NO_CHANGE = 1
    REJECTED = 2
    NO_SESSION = 3
    NO_SUCH = 4


class Command(IntEnum):
    ACTIVATE = 0
    SUSPEND = 1
    RESUME = 2
    CLOSE = 3
    NO_OP = 4


class Lifecycle(IntEnum):
    CREATED = 0
    ACTIVE = 1
    SUSPENDED = 2
    CLOSED = 3


class Kind(Enum):
    """A value's kind, by the letter of listings."""

    QUAD = "Q"
    SIGNED = "S"
    TEXT = "T"
    UNSIGNED = "U"
    SCORE = "M"


class Limits(NamedTuple):
    stimulus_bytes: int
    diagnostics: int
    patches: int
    references: int


class Answer(NamedTuple):
    """What became of a batch; the cursor stands as after the call."""

    disposition: Disposition
    number: int
    stage: int
    logical: int
    emitted: int
    cursor: Optional[int]


class Explanation(NamedTuple):
    """Why a batch is refused: 01's number, the rule's name as in docs/RULES.md, the patch and the operation that it tells, and its other figures.
    Where the session's limit of 0 diagnostics withholds it the number is 0 and the rule none."""

    number: int
    rule: Optional[str]
    patch: Optional[int]
    operation: Optional[int]
    figures: tuple[int, ...]


class Step(NamedTuple):
    """What became of a lifecycle step; lifecycle and cursor stand as after the call."""

    disposition: Disposition
    number: int
    stage: int
    logical: int
    emitted: int
    cursor: Optional[int]
    lifecycle: Lifecycle
    stimulus_bytes: int


class GroupBatch(NamedTuple):
    """A batch of a group: what its sender declares of a set, the set's edition, and how many bytes it has."""

    session: int
    sequence: int
    patches: int
    stimulus_bytes: int
    references: int
    edition: int
    bytes: int


class Taken(NamedTuple):
    """A group that was taken: how many batches, and the cursor after them."""

    count: int
    cursor: Optional[int]


class Value(NamedTuple):
    """A text is a str, every other kind a number; mark is the patch that last gave the value."""

    kind: Kind
    value: Union[int, str]
    mark: int


class Entry(NamedTuple):
    key: int
    value: Value


class Availability(NamedTuple):
    availability: int
    mark: int


class PageEntry(NamedTuple):
    position: int
    value: Value


class Turn(NamedTuple):
    """Whose turn it is, and the number for its batch."""

    sender: int
    number: int


class Finding(NamedTuple):
    kind: int
    domain: int
    secondary: int


class Findings(NamedTuple):
    """The patch that they belong to, from 0, or none for the set."""

    patch: Optional[int]
    found: list[Finding]


class Never(NamedTuple):
    """The first operation that contradicts those before it: the set applies to no panel."""

    patch: int
    operation: int


class Needs(NamedTuple):
    """Pairs of collection and key: those that must be there, and those that must be absent."""

    held: list[tuple[int, int]]
    lacked: list[tuple[int, int]]


class Envelope(NamedTuple):
    """A patch without its operations."""

    id: int
    stream: int
    document: int
    surface: Optional[int]
    previous_revision: int
    revision: int
    epoch: int
    sequence: int


class Refused(Exception):
    """A call was refused, and nothing was changed. `answer` has the rest where a session refused it, `explanation` the rule behind the number
    where it refused a batch, and `place` which batch of a group it was, from 0."""

    def __init__(
        self, number: int, answer: Union[Answer, Step, None] = None, explanation: Optional[Explanation] = None, place: Optional[int] = None
    ):
        self.number = number
        self.sentence = RULES.get(number, HIDDEN)
        self.answer = answer
        self.explanation = explanation
        self.place = place
        named = " (%s)" % explanation.rule if explanation and explanation.rule else ""
        super().__init__("%d: %s%s" % (number, self.sentence, named))


class NoSession(Exception):
    """The panel's memory holds no session: something else wrote to it."""


# ---- the library

class _Unsigned:
    """A number of so many bits. ctypes alone would cut it."""

    def __init__(self, kind):
        self.kind, self.past = kind, 256 ** ctypes.sizeof(kind)

    def from_param(self, number):
        if not 0 <= number < self.past:
            raise ValueError("%d is no number from 0 to %d" % (number, self.past - 1))
        return self.kind(number)


_U64, _U32, _SIZE, _AT = _Unsigned(ctypes.c_uint64), _Unsigned(ctypes.c_uint32), _Unsigned(ctypes.c_size_t), ctypes.c_void_p
_SLICE = (_AT, _SIZE)


def _numbers_struct(name, *fields):
    return type(name, (ctypes.Structure,), {"_fields_": [(field, ctypes.c_uint64) for field in fields]})


_Answer = _numbers_struct("_Answer", "disposition", "number", "stage", "logical", "emitted", "has_cursor", "cursor")
_Lifecycle = _numbers_struct("_Lifecycle", "disposition", "number", "stage", "logical", "emitted", "lifecycle", "has_cursor", "cursor", "stimulus_bytes")
_Count = _numbers_struct("_Count", "disposition", "number", "count")
_Availability = _numbers_struct("_Availability", "disposition", "found", "mark", "availability")
_Turn = _numbers_struct("_Turn", "disposition", "named", "sender", "number")
_Checked = _numbers_struct("_Checked", "disposition", "number", "in_patch", "patch", "logical", "written")
_RulePlace = _numbers_struct("_RulePlace", "has_patch", "patch", "has_operation", "operation")
_Figures = _numbers_struct("_Figures", "count", "first", "second", "third", "fourth")
_Dependencies = _numbers_struct("_Dependencies", "disposition", "number", "never", "patch", "operation", "held", "lacked")


class _Explanation(ctypes.Structure):
    _fields_ = [(field, ctypes.c_uint64) for field in ("disposition", "number", "rule")] + [("place", _RulePlace), ("figures", _Figures)]


class _GroupAnswer(ctypes.Structure):
    _fields_ = [("count", ctypes.c_uint64), ("place", ctypes.c_uint64), ("half", ctypes.c_uint64), ("answer", _Answer)]


class _Value(ctypes.Structure):
    _fields_ = [(field, ctypes.c_uint64) for field in ("disposition", "found", "mark", "kind", "quad")]
    _fields_ += [("signed_number", ctypes.c_int64), ("unsigned_number", ctypes.c_uint64), ("text_length", ctypes.c_uint64)]
    _fields_ += [("text", ctypes.c_uint8 * TEXT_BYTES)]


class _Entry(ctypes.Structure):
    _fields_ = [("key", ctypes.c_uint64), ("value", _Value)]


class _PagePlace(ctypes.Structure):
    _fields_ = [("position", ctypes.c_uint64), ("value", _Value)]


class _Half(ctypes.Structure):
    _fields_ = [("head", ctypes.c_uint64 * HEAD_NUMBERS), ("bindings", ctypes.c_uint8 * BINDING_BYTES)]
    _fields_ += [("availability", ctypes.c_uint8 * AVAILABILITY_BYTES), ("entries", ctypes.c_uint8 * ENTRY_BYTES)]
    _fields_ += [("lengths", ctypes.c_uint8 * LENGTH_BYTES)]


class _Plan(ctypes.Structure):
    """Where a batch is planned: zeros before each call, and zeros again after it."""

    _fields_ = [("bindings", ctypes.c_uint8 * PLAN_BINDING_BYTES), ("availability", ctypes.c_uint8 * AVAILABILITY_BYTES)]
    _fields_ += [("entries", ctypes.c_uint8 * PLAN_ENTRY_BYTES)]


# each call: its answer, and its parameters
_CALLS = {
    "create": (ctypes.c_uint64, *[_U64] * 5, *_SLICE * 3, *[_AT] * 5),
    "lifecycle_step": (_Lifecycle, _AT, _U64, _U64),
    "batch": (_Answer, _AT, *_SLICE * 3, *[_AT] * 3, *[_U64] * 5, *_SLICE, _U64, *[_AT] * 8),
    "explain": (_Explanation, _AT, *_SLICE * 3, *[_AT] * 3, *[_U64] * 5, *_SLICE, _U64),
    "group": (_GroupAnswer, _AT, *_SLICE * 3, *[_AT] * 3, *_SLICE * 2, *[_AT] * 10),
    "binding_value": (_Value, _AT, _AT, _U64, _U32),
    "node_availability": (_Availability, _AT, _AT, _U64),
    "entry_value": (_Value, _AT, _AT, _U64, _U64),
    "entry_count": (_Count, _AT, _AT, _U64),
    "entry_at": (_Entry, _AT, _AT, _U64, _SIZE),
    "collection_length": (_Count, _AT, _AT, _U64),
    "collection_page": (_Count, _AT, _AT, _U64, *_SLICE * 2),
    "page_row": (_PagePlace, _AT),
    "print_collection": (_Count, _AT, _AT, _U64, *_SLICE),
    "listing": (_Count, *[_AT] * 4, *_SLICE),
    "check": (_Checked, *_SLICE, _U64, *_SLICE),
    "import_terms": (_Count, *_SLICE, *[_U64] * 11, *_SLICE),
    "depends": (_Dependencies, *_SLICE, _U64, *_SLICE),
    "convert": (_Count, *_SLICE, _U64, *_SLICE),
    "set_listing": (_Count, *_SLICE, _U64, *_SLICE),
    "version": (ctypes.c_uint64,),
    "turns_set_up": (ctypes.c_uint64, _AT, _SIZE),
    "turns_register": (ctypes.c_uint64, _AT, _SIZE),
    "turns_next": (_Turn, _AT, _U64, _U64),
}


@functools.lru_cache(maxsize=None)
def _library() -> ctypes.CDLL:
    return ctypes.CDLL(os.environ.get("GEYSERTRAY_LIBRARY", "libgeysertray.so.1"))


@functools.lru_cache(maxsize=None)
def _function(name):
    function = getattr(_library(), "geysertray_" + name)
    function.restype, *function.argtypes = _CALLS[name]
    return function


def _call(name, *arguments):
    """The answer of a call that is no refusal. None of its numbers is lost: what has no place in the answer is raised."""
    try:
        answer = _function(name)(*arguments)
    except ctypes.ArgumentError as fault:
        raise ValueError(str(fault)) from fault
    told = getattr(answer, "value", getattr(answer, "answer", answer))
    disposition = getattr(told, "disposition", Disposition.APPLIED)
    if disposition == Disposition.NO_SESSION:
        raise NoSession
    if disposition == Disposition.NO_SUCH:
        raise ValueError("no such edition or command")
    if disposition == Disposition.REJECTED and not isinstance(answer, (_Answer, _GroupAnswer, _Lifecycle, _Explanation)):
        raise Refused(answer.number)
    return answer


def _lent(data: bytes):
    """Bytes that a call reads: where they are, and how many."""
    return data, len(data)


def _numbers(values: Iterable[int]):
    """Numbers that a call reads, never nowhere."""
    kept = [_U64.from_param(value).value for value in values]
    return (ctypes.c_uint64 * max(1, len(kept)))(*kept), len(kept)


def _room(kind, places: int):
    """Memory that a call writes, never nowhere."""
    return (kind * max(1, places))(), places


def _written(name, *arguments, room: int) -> bytes:
    """The bytes that a call writes into so much room."""
    out, places = _room(ctypes.c_uint8, room)
    answer = _call(name, *arguments, out, places)
    return bytes(out[: answer.count])


def _cursor(answer) -> Optional[int]:
    return answer.cursor if answer.has_cursor else None


def _explanation(told: _Explanation) -> Optional[Explanation]:
    if told.disposition != Disposition.REJECTED:
        return None
    place, figures = told.place, told.figures
    where = (place.patch if place.has_patch else None, place.operation if place.has_operation else None)
    numbers = (figures.first, figures.second, figures.third, figures.fourth)[: figures.count]
    return Explanation(told.number, RULE_NAMES[told.rule - 1] if told.rule else None, *where, numbers)


def _answer(told: _Answer) -> Answer:
    return Answer(Disposition(told.disposition), told.number, told.stage, told.logical, told.emitted, _cursor(told))


def _parts(half: _Half):
    """The slices of a half that a call writes to."""
    return half.head, half.bindings, half.availability, half.entries, half.lengths


def _value(value: _Value) -> Optional[Value]:
    if not value.found:
        return None
    kind = list(Kind)[value.kind - 1]
    if kind is Kind.TEXT:
        return Value(kind, bytes(value.text[: value.text_length]).decode("utf-8"), value.mark)
    number = {Kind.QUAD: value.quad, Kind.SIGNED: value.signed_number}.get(kind, value.unsigned_number)
    return Value(kind, number, value.mark)


# ---- a panel

class Panel:
    """A session and its panel, in memory of its own."""

    def __init__(
        self, id: int, limits: Limits, nodes: Iterable[int] = (), bindings: Iterable[tuple[int, int]] = (), collections: Iterable[int] = ()
    ):
        pairs = [number for pair in bindings for number in pair]
        self.id = id
        self._anchors = (*_numbers(nodes), *_numbers(pairs), *_numbers(collections))
        self._half, self._next, self._spare, self._plan = _Half(), _Half(), None, _Plan()
        for half in (self._half, self._next):
            refusal = _call("create", id, *limits, *self._anchors, *_parts(half))
            if refusal:
                raise Refused(refusal)

    def step(self, command: Command, stimulus_bytes: int = 0) -> Step:
        """One lifecycle step."""
        told = _call("lifecycle_step", self._half.head, command, stimulus_bytes)
        diagnostics = (told.number, told.stage, told.logical, told.emitted)
        step = Step(Disposition(told.disposition), *diagnostics, _cursor(told), Lifecycle(told.lifecycle), told.stimulus_bytes)
        if step.disposition is Disposition.REJECTED:
            raise Refused(step.number, step)
        return step

    def send(
        self, data: bytes, *, sequence: int, patches: int, references: int, stimulus_bytes: int = 0, session: Optional[int] = None, edition: int = 1
    ) -> Answer:
        """One batch: a set's bytes, and what its sender declares of them. Without a session the batch names this one."""
        half, to, plan = self._half, self._next, self._plan
        sent = self._batch(session, sequence, patches, stimulus_bytes, references, data, edition)
        answer = _answer(_call("batch", *sent, *_parts(to), plan.bindings, plan.availability, plan.entries))
        if answer.disposition is Disposition.REJECTED:
            raise Refused(answer.number, answer, _explanation(_call("explain", *sent)))
        if answer.disposition is Disposition.APPLIED:
            self._half, self._next = to, half
        return answer

    def explain(
        self, data: bytes, *, sequence: int, patches: int, references: int, stimulus_bytes: int = 0, session: Optional[int] = None, edition: int = 1
    ) -> Optional[Explanation]:
        """By which rule send would refuse this batch; none where it would be taken. Nothing is sent."""
        return _explanation(_call("explain", *self._batch(session, sequence, patches, stimulus_bytes, references, data, edition)))

    def _batch(self, session, sequence, patches, stimulus_bytes, references, data, edition):
        """The session and a batch, as the calls take them."""
        half = self._half
        declared = (self.id if session is None else session, sequence, patches, stimulus_bytes, references)
        return half.head, *self._anchors, half.bindings, half.availability, half.entries, *declared, *_lent(data), edition

    def send_group(self, batches: Sequence[GroupBatch], data: bytes) -> Taken:
        """Up to eight batches as if sent singly in order, or none of them; their sets lie end to end in the bytes."""
        self._spare = self._spare or _Half()
        half, first, second = self._half, self._next, self._spare
        numbers = _numbers(number for batch in batches for number in batch)
        told = _call(
            "group", half.head, *self._anchors, half.bindings, half.availability, half.entries, *numbers, *_lent(data), *_parts(first), *_parts(second)
        )
        if told.answer.disposition == Disposition.REJECTED:
            not_a_group = told.answer.number == NOT_A_GROUP
            raise Refused(told.answer.number, None if not_a_group else _answer(told.answer), place=None if not_a_group else told.place)
        order = ((half, first, second), (first, half, second), (second, half, first))
        self._half, self._next, self._spare = order[told.half]
        return Taken(told.count, _cursor(told.answer))

    @property
    def cursor(self) -> Optional[int]:
        """The number of the last batch that was applied."""
        has_cursor, cursor = self._half.head[2:4]
        return cursor if has_cursor else None

    def binding(self, node: int, slot: int) -> Optional[Value]:
        return _value(_call("binding_value", self._half.head, self._half.bindings, node, slot))

    def node(self, node: int) -> Optional[Availability]:
        told = _call("node_availability", self._half.head, self._half.availability, node)
        return Availability(told.availability, told.mark) if told.found else None

    def entry(self, collection: int, key: int) -> Optional[Value]:
        return _value(_call("entry_value", self._half.head, self._half.entries, collection, key))

    def entry_at(self, collection: int, position: int) -> Optional[Entry]:
        """The entry at a position of its collection, from 0."""
        told = _call("entry_at", self._half.head, self._half.entries, collection, position)
        value = _value(told.value)
        return None if value is None else Entry(told.key, value)

    def entries(self, collection: int) -> Iterator[Entry]:
        """A collection's entries in their order."""
        for position in range(self.length(collection)):
            entry = self.entry_at(collection, position)
            if entry is not None:
                yield entry

    def count(self, collection: int) -> int:
        """How many entries a collection has, counted in its rows."""
        return _call("entry_count", self._half.head, self._half.entries, collection).count

    def length(self, collection: int) -> int:
        """How many entries a collection has, as it is kept with the panel."""
        return _call("collection_length", self._half.head, self._half.lengths, collection).count

    def page(self, collection: int, keys: Sequence[int], room: Optional[int] = None) -> list[Optional[PageEntry]]:
        """Up to 64 keys of a collection looked up together, into as many places as room tells."""
        width = PAGE_WIDTH * (len(keys) if room is None else room)
        out, places = _room(ctypes.c_uint8, width)
        rows = _call("collection_page", self._half.head, self._half.entries, collection, *_numbers(keys), out, places).count
        found = [_call("page_row", bytes(out[PAGE_WIDTH * at : PAGE_WIDTH * (at + 1)])) for at in range(rows)]
        return [PageEntry(row.position, value) if (value := _value(row.value)) else None for row in found]

    def print(self, collection: int, room: int = PRINT_BYTES) -> str:
        """A collection laid out for paper, in lines of 80 characters."""
        return _written("print_collection", self._half.head, self._half.entries, collection, room=room).decode("utf-8")

    def listing(self, room: int = LISTING_BYTES) -> str:
        """Every record of the panel, one to a line."""
        half = self._half
        return _written("listing", half.head, half.bindings, half.availability, half.entries, room=room).decode("utf-8")


class Turns:
    """Turns among one to eight senders to one panel, numbered from 0."""

    def __init__(self, senders: int):
        self._numbers = (ctypes.c_uint64 * TURNS_NUMBERS)()
        self._do("turns_set_up", senders)

    def _do(self, name: str, number: int) -> None:
        refusal = _call(name, self._numbers, number)
        if refusal:
            raise Refused(refusal)

    def wait(self, sender: int) -> None:
        """The sender waits for its turn from now on."""
        self._do("turns_register", sender)

    def turn(self, cursor: Optional[int]) -> Optional[Turn]:
        """Whose turn it is now, with the panel's cursor; it waits no more. None where nobody waits."""
        told = _call("turns_next", self._numbers, *((0, 0) if cursor is None else (1, cursor)))
        return Turn(told.sender, told.number) if told.named else None


# ---- calls on bytes, which need no panel

def check(data: bytes, edition: int = 1) -> Findings:
    """What the patch checks find in a set."""
    out, places = _room(ctypes.c_uint64, FINDING_NUMBERS)
    told = _call("check", *_lent(data), edition, out, places)
    records = [Finding(*out[3 * at : 3 * at + 3]) for at in range(told.written)]
    return Findings(told.patch if told.in_patch else None, records)


def depends(data: bytes, edition: int = 1, room: int = 2 * DEPENDS_KEYS) -> Union[Needs, Never]:
    """What a panel must hold and lack for a set to apply."""
    out, places = _room(ctypes.c_uint64, room)
    told = _call("depends", *_lent(data), edition, out, places)
    if told.never:
        return Never(told.patch, told.operation)
    keys = [(out[2 * at], out[2 * at + 1]) for at in range(told.held + told.lacked)]
    return Needs(keys[: told.held], keys[told.held :])


def convert(data: bytes, edition: int, room: int = SET_BYTES) -> bytes:
    """A set of this edition in the other one."""
    return _written("convert", *_lent(data), edition, room=room)


def import_terms(terms: bytes, collection: int, envelope: Envelope, edition: int = 1, room: int = SET_BYTES) -> bytes:
    """Lines of key, tab and text as a set with one patch of inserts."""
    id, stream, document, surface, *rest = envelope
    surfaced = (0, 0) if surface is None else (1, surface)
    return _written("import_terms", *_lent(terms), edition, collection, id, stream, document, *surfaced, *rest, room=room)


def set_listing(data: bytes, edition: int = 1, room: int = LISTING_BYTES) -> str:
    """What a set makes of an empty panel, as listing tells it."""
    lines = _written("set_listing", *_lent(data), edition, room=room).decode("utf-8")
    if lines.startswith("E\t"):
        raise Refused(int(lines[2:]))
    return lines


def version() -> str:
    """The library's version, as 1.0.0."""
    number = _function("version")()
    return "%d.%d.%d" % (number // 1000000, number // 1000 % 1000, number % 1000)
