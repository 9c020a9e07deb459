"""Answers a replay script: python3 replay.py < SCRIPT. Lines are read one by one; nothing is kept but the set-up, the session and the turns."""

import re
import sys

from canonical import Fault, read_set
from checks import findings
from convert import convert
from depends import Never, depends
from explain import explain
from group import Member, NoGroup, apply_group
from listing import line, listing, listing_tables, value_fields
from pages import page
from panel_print import print_collection
from patch import Patch
from session import Limits, Session, TooManyAnchors
from sizes import ANCHORS, LAST_U32, LAST_U64, SET_BYTES
from terms import import_terms
from turns import Turns, WrongSenderCount

LINE_BYTES = 131072
# the most places of a depends line
DEPENDS_ROOM = 16384
# the most batches of a group line
GROUP_MEMBERS = 16
# the most bytes of a print line
PRINT_ROOM = 131072
# the most places, and the most keys, of a page line
PAGE_ROOM = 128
COMMANDS = (b"activate", b"suspend", b"resume", b"close", b"noop")
DECIMAL = re.compile(rb"0|[1-9][0-9]{0,19}")
HEX = re.compile(rb"(?:[0-9a-f]{2})+")


class BadLine(Exception):
    """A line that is no command; the program stops there."""


def number(field, last=LAST_U64):
    if not DECIMAL.fullmatch(field) or int(field) > last:
        raise BadLine
    return int(field)


def set_bytes(field):
    if field == b"-":
        return b""
    if not HEX.fullmatch(field):
        raise BadLine
    return bytes.fromhex(field.decode("ascii"))


def check_lines(data, edition):
    try:
        place, found = findings(read_set(data, edition))
    except Fault as fault:
        return line(b"K", fault.number)
    place = b"set" if place == "set" else place
    return line(b"K", 0, place, len(found)) + b"".join(line(b"F", *finding) for finding in found)


def group_member(field):
    """ID,SEQUENCE,PATCHES,BYTES,REFERENCES,EDITION,LENGTH."""
    fields = field.split(b",")
    if len(fields) != 7 or fields[5] not in (b"1", b"2"):
        raise BadLine
    return Member([number(part) for part in fields[:5]], int(fields[5]), number(fields[6]))


class Replay:
    """The set-up for the next session, the current session and the current turns, if there are any."""

    def __init__(self):
        self.session = None
        self.edition = 1
        self._set_up(0, Limits(0, 0, 0, 0))

    def _set_up(self, session, limits):
        self.id = session
        self.limits = limits
        self.nodes, self.bindings, self.collections = [], [], []

    @staticmethod
    def _keep(anchors, anchor):
        if len(anchors) <= ANCHORS:
            anchors.append(anchor)
        return b""

    # ---- the commands; each takes its fields apart before it does anything

    def do_session(self, session, *limits):
        self._set_up(number(session), Limits(*map(number, limits)))
        return b""

    def do_node(self, node):
        return self._keep(self.nodes, number(node))

    def do_binding(self, node, slot):
        return self._keep(self.bindings, (number(node), number(slot, LAST_U32)))

    def do_collection(self, collection):
        return self._keep(self.collections, number(collection))

    def do_create(self):
        try:
            self.session = Session(self.id, self.limits, self.nodes, self.bindings, self.collections)
        except TooManyAnchors:
            self.session = None
            return line(b"S", 13)
        return line(b"S", 0)

    def _cursor(self):
        return b"-" if self.session.cursor is None else self.session.cursor

    def do_apply(self, command, stimulus_bytes):
        stimulus_bytes = number(stimulus_bytes)
        if command not in COMMANDS:
            raise BadLine
        if self.session is None:
            return line(b"N")
        disposition, diagnostics = self.session.apply(command.decode("ascii"), stimulus_bytes)
        lifecycle = self.session.lifecycle.encode("ascii")
        return line(b"L", disposition.encode("ascii"), *diagnostics, lifecycle, self._cursor(), stimulus_bytes)

    def do_batch(self, session, sequence, patches, stimulus_bytes, references, data):
        numbers = [number(field) for field in (session, sequence, patches, stimulus_bytes, references)]
        data = set_bytes(data)
        if self.session is None:
            return line(b"N")
        disposition, diagnostics = self.session.batch(*numbers, self.edition, data)
        return line(b"R", disposition.encode("ascii"), *diagnostics, self._cursor())

    def do_explain(self, session, sequence, patches, stimulus_bytes, references, data):
        """The rule behind the answer that do_batch would give; nothing is changed."""
        numbers = [number(field) for field in (session, sequence, patches, stimulus_bytes, references)]
        data = set_bytes(data)
        if self.session is None:
            return line(b"N")
        reason = explain(self.session, *numbers, self.edition, data)
        if reason is None:
            return line(b"W", 0)
        if reason == "withheld":
            return line(b"W", 0, b"withheld")
        code, name, figures = reason
        words = [b"-" if figure is None else figure.encode("ascii") if isinstance(figure, str) else figure for figure in figures]
        return line(b"W", code, name.encode("ascii"), *words)

    def do_check(self, data):
        return check_lines(set_bytes(data), self.edition)

    def do_list(self, data):
        return listing(set_bytes(data), self.edition)

    def do_show(self):
        return line(b"N") if self.session is None else listing_tables(self.session.projection)

    def do_value_binding(self, node, slot):
        node, slot = number(node), number(slot, LAST_U32)
        return self._value(lambda projection: projection.binding_value(node, slot))

    def do_value_node(self, node):
        node = number(node)
        if self.session is None:
            return line(b"N")
        byte = self.session.projection.node_availability(node)
        return line(b"V", b"-") if byte is None else line(b"V", b"A", byte)

    def do_value_entry(self, collection, key):
        collection, key = number(collection), number(key)
        return self._value(lambda projection: projection.entry_value(collection, key))

    def _value(self, lookup):
        if self.session is None:
            return line(b"N")
        value = lookup(self.session.projection)
        return line(b"V", b"-") if value is None else line(b"V", *value_fields(value))

    # ---- marks (02, Job 11)

    def do_mark_binding(self, node, slot):
        return self._mark("binding", number(node), number(slot, LAST_U32))

    def do_mark_node(self, node):
        return self._mark("node", number(node))

    def do_mark_entry(self, collection, key):
        return self._mark("entry", number(collection), number(key))

    def _mark(self, *row):
        if self.session is None:
            return line(b"N")
        mark = self.session.projection.mark(*row)
        return line(b"X", b"-" if mark is None else mark)

    # ---- lengths (02, Job 3)

    def do_length(self, collection):
        collection = number(collection)
        return line(b"N") if self.session is None else line(b"Z", self.session.projection.collection_length(collection))

    # ---- a page of keys (02, Job 7)

    def do_page(self, collection, room, *keys):
        collection, room, keys = number(collection), number(room, PAGE_ROOM), [number(key) for key in keys]
        if len(keys) > PAGE_ROOM:
            raise BadLine
        if self.session is None:
            return line(b"N")
        refusal, rows = page(self.session.projection, collection, keys, room)
        if refusal:
            return line(b"Y", refusal)
        lines = [line(b"M", b"-") if row is None else line(b"M", row[0], *value_fields(row[1])) for row in rows]
        return line(b"Y", 0, len(rows)) + b"".join(lines)

    # ---- the print (02, Job 10)

    def do_print(self, collection, room):
        collection, room = number(collection), number(room, PRINT_ROOM)
        if self.session is None:
            return line(b"N")
        refusal, out = print_collection(self.session.projection, collection, room)
        return line(b"O", refusal) if refusal else line(b"O", 0, len(out)) + out

    # ---- several batches together (02, Job 12)

    def do_group(self, *fields):
        *members, data = fields
        members, data = [group_member(member) for member in members], set_bytes(data)
        if len(members) > GROUP_MEMBERS:
            raise BadLine
        if self.session is None:
            return line(b"N")
        try:
            taken, refused = apply_group(self.session, members, data)
        except NoGroup:
            return line(b"U", 17)
        if refused is None:
            return line(b"U", 0, taken, self._cursor())
        place, disposition, diagnostics = refused
        answer = line(b"R", disposition.encode("ascii"), *diagnostics, self._cursor())
        return line(b"U", 0, taken, place) + answer

    # ---- editions (02, Job 13)

    def do_edition(self, edition):
        if edition not in (b"1", b"2"):
            raise BadLine
        self.edition = int(edition)
        return b""

    def do_convert(self, room, data):
        room = number(room, SET_BYTES)
        refusal, converted = convert(set_bytes(data), self.edition, room)
        return line(b"T", refusal) if refusal else line(b"T", 0, converted.hex().encode("ascii"))

    # ---- term lists (02, Job 1)

    def do_import(self, room, collection, *fields):
        *numbers, data = fields
        room, collection = number(room, SET_BYTES), number(collection)
        numbers = [None if at == 3 and field == b"-" else number(field) for at, field in enumerate(numbers)]
        refusal, made = import_terms(set_bytes(data), self.edition, collection, Patch(*numbers, []), room)
        return line(b"I", refusal) if refusal else line(b"I", 0, made.hex().encode("ascii"))

    # ---- what a set depends on (02, Job 8)

    def do_depends(self, room, data):
        room = number(room, DEPENDS_ROOM)
        try:
            refusal, lists = depends(set_bytes(data), self.edition, room)
        except Never as never:
            return line(b"D", 0, b"never", *never.place)
        if refusal:
            return line(b"D", refusal)
        there, absent = lists
        return line(b"D", 0, b"needs", len(there), len(absent)) + b"".join(line(b"Q", *pair) for pair in there + absent)

    # ---- turns among senders (02, Job 14), which belong to no session

    turns = None

    def do_senders(self, senders):
        try:
            self.turns = Turns(number(senders))
        except WrongSenderCount:
            return line(b"J", 21)
        return line(b"J", 0)

    def do_wait(self, sender):
        sender = number(sender)
        return line(b"N") if self.turns is None else line(b"J", self.turns.register(sender))

    def do_turn(self):
        if self.turns is None or self.session is None:
            return line(b"N")
        named = self.turns.turn(self.session.cursor)
        return line(b"J", b"none") if named is None else line(b"J", *named)

    # ---- one line

    # how many fields follow each command; and of those that have any number, how many at least
    FIELDS = {
        b"session": 5, b"node": 1, b"binding": 2, b"collection": 1, b"create": 0, b"apply": 2, b"batch": 6, b"explain": 6,
        b"check": 1, b"list": 1, b"show": 0, b"value binding": 2, b"value node": 1, b"value entry": 2,
        b"mark binding": 2, b"mark node": 1, b"mark entry": 2, b"length": 1,
        b"senders": 1, b"wait": 1, b"turn": 0, b"edition": 1, b"convert": 2, b"depends": 2, b"print": 2, b"import": 11,
    }
    AT_LEAST = {b"page": 2, b"group": 1}

    def answer(self, text):
        """The answer to a line without its LF."""
        if text == b"" or text.startswith(b"#"):
            return b""
        fields = text.split(b" ")
        if fields[0] in (b"value", b"mark") and len(fields) > 1:
            fields[0:2] = [b" ".join(fields[:2])]
        command = fields.pop(0)
        if self.FIELDS.get(command) != len(fields) and self.AT_LEAST.get(command, len(fields) + 1) > len(fields):
            raise BadLine
        return getattr(self, "do_" + command.decode("ascii").replace(" ", "_"))(*fields)


def replay(script, out):
    """Answers the script, up to its end or its first bad line."""
    state = Replay()
    count = 0
    while True:
        text = script.readline(LINE_BYTES + 1)
        if not text:
            return
        count += 1
        try:
            if not text.endswith(b"\n"):
                raise BadLine
            out.write(state.answer(text[:-1]))
        except BadLine:
            out.write(line(b"?", count))
            return


if __name__ == "__main__":
    replay(sys.stdin.buffer, sys.stdout.buffer)
