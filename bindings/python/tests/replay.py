"""Answers a replay script over the binding: python3 bindings/python/tests/replay.py < SCRIPT. kit/README.md has the form of commands and answers."""

import re
import sys
from pathlib import Path

sys.path.insert(0, str(Path(__file__).resolve().parent.parent))

import geysertray
from geysertray import RULE_NAMES, Command, Disposition, Envelope, GroupBatch, Kind, Lifecycle, Limits, Never, Panel, Refused, Turns

LINE_BYTES = 131072
KEPT_ANCHORS = 129
PAGE_KEYS = 128
LINE_BATCHES = 16
DECIMAL = re.compile(r"0|[1-9][0-9]{0,19}")
HEX = re.compile(r"(?:[0-9a-f]{2})+")
STEPS = {"activate": Command.ACTIVATE, "suspend": Command.SUSPEND, "resume": Command.RESUME, "close": Command.CLOSE, "noop": Command.NO_OP}
DISPOSITIONS = {Disposition.APPLIED: "applied", Disposition.NO_CHANGE: "no-change", Disposition.REJECTED: "rejected"}
LIFECYCLES = {Lifecycle.CREATED: "created", Lifecycle.ACTIVE: "active", Lifecycle.SUSPENDED: "suspended", Lifecycle.CLOSED: "closed"}
READING_RULES = RULE_NAMES[RULE_NAMES.index("set-too-long") : RULE_NAMES.index("findings")]
ESCAPES = str.maketrans({"\\": "\\\\", "\t": "\\t", "\n": "\\n", "\r": "\\r"})


class BadLine(Exception):
    """A line that is no command."""


class NotBound(Exception):
    """A command whose call the library does not export."""


# ---- fields

def up_to(last):
    def number(field):
        if not DECIMAL.fullmatch(field) or int(field) > last:
            raise BadLine
        return int(field)

    return number


def set_bytes(field):
    if field != "-" and not HEX.fullmatch(field):
        raise BadLine
    return bytes.fromhex(field.strip("-"))


def one_of(words):
    def word(field):
        if field not in words:
            raise BadLine
        return words[field]

    return word


def optional(field):
    return None if field == "-" else NUMBER(field)


def member(field):
    """A batch of a group: seven numbers with a comma between, the sixth an edition."""
    numbers = field.split(",")
    if len(numbers) != 7:
        raise BadLine
    return GroupBatch(*map(NUMBER, numbers[:5]), EDITION(numbers[5]), NUMBER(numbers[6]))


NUMBER, SLOT, STEP, EDITION = up_to(2**64 - 1), up_to(2**32 - 1), one_of(STEPS), one_of({"1": 1, "2": 2})
FIELDS = {
    "session": (NUMBER,) * 5,
    "node": (NUMBER,),
    "binding": (NUMBER, SLOT),
    "collection": (NUMBER,),
    "create": (),
    "apply": (STEP, NUMBER),
    "batch": (NUMBER,) * 5 + (set_bytes,),
    "explain": (NUMBER,) * 5 + (set_bytes,),
    "check": (set_bytes,),
    "list": (set_bytes,),
    "show": (),
    "value binding": (NUMBER, SLOT),
    "value node": (NUMBER,),
    "value entry": (NUMBER, NUMBER),
    "mark binding": (NUMBER, SLOT),
    "mark node": (NUMBER,),
    "mark entry": (NUMBER, NUMBER),
    "edition": (EDITION,),
    "convert": (up_to(32768), set_bytes),
    "depends": (up_to(16384), set_bytes),
    "print": (NUMBER, up_to(131072)),
    "length": (NUMBER,),
    "senders": (NUMBER,),
    "wait": (NUMBER,),
    "turn": (),
    "import": (up_to(32768), *[NUMBER] * 4, optional, *[NUMBER] * 4, set_bytes),
}
METHODS = {"edition": "edition_", "import": "import_"}
NOT_BOUND = ()
NEED_A_SESSION = ("apply", "batch", "explain", "group", "show", "value", "mark", "print", "length", "page", "turn")
NEED_TURNS = ("wait", "turn")


def page_fields(count):
    """A page has any number of keys."""
    return (NUMBER, up_to(128), *[NUMBER] * min(count - 2, PAGE_KEYS))


def group_fields(count):
    """Up to 16 batches, and their sets."""
    return (*[member] * min(count - 1, LINE_BATCHES), set_bytes)


MANY_FIELDS = {"page": page_fields, "group": group_fields}


# ---- lines of answers

def line(*fields):
    return "\t".join(str(field) for field in fields) + "\n"


def or_none(number):
    return "-" if number is None else number


def value_fields(value):
    return value.kind.value, value.value.translate(ESCAPES) if value.kind is Kind.TEXT else value.value


def answer_line(answer):
    return line("R", DISPOSITIONS[answer.disposition], *answer[1:5], or_none(answer.cursor))


def step_line(step):
    return line("L", DISPOSITIONS[step.disposition], *step[1:5], LIFECYCLES[step.lifecycle], or_none(step.cursor), step.stimulus_bytes)


def figure_fields(reason):
    """The figures of a rule, in the order of docs/RULES.md."""
    if reason.rule == "findings":
        return "set" if reason.patch is None else reason.patch, *reason.figures
    if reason.rule == "cursor":
        return reason.figures or ("-",)
    if reason.rule in READING_RULES:
        return *reason.figures, or_none(reason.patch), or_none(reason.operation)
    return *reason.figures, *(index for index in (reason.patch, reason.operation) if index is not None)


def reason_line(reason):
    if reason is None:
        return line("W", 0)
    return line("W", 0, "withheld") if reason.rule is None else line("W", reason.number, reason.rule, *figure_fields(reason))


def told(letter, call, lines):
    """The lines of what a call answers, or its refusal's number behind the letter."""
    try:
        return lines(call())
    except Refused as refusal:
        return line(letter, refusal.number)


class Replay:
    """The set-up for the next session, and the panel, if there is one."""

    def __init__(self):
        self.panel, self.edition, self.turns = None, 1, None
        self.session(0, 0, 0, 0, 0)

    def session(self, id, *limits):
        self.id, self.limits, self.anchors = id, Limits(*limits), ([], [], [])
        return ""

    def _keep(self, kind, anchor):
        if len(self.anchors[kind]) < KEPT_ANCHORS:
            self.anchors[kind].append(anchor)
        return ""

    def node(self, node):
        return self._keep(0, node)

    def binding(self, node, slot):
        return self._keep(1, (node, slot))

    def collection(self, collection):
        return self._keep(2, collection)

    def create(self):
        self.panel = None
        try:
            self.panel = Panel(self.id, self.limits, *self.anchors)
        except Refused as refusal:
            return line("S", refusal.number)
        return line("S", 0)

    def apply(self, command, stimulus_bytes):
        try:
            return step_line(self.panel.step(command, stimulus_bytes))
        except Refused as refusal:
            return step_line(refusal.answer)

    def batch(self, session, sequence, patches, stimulus_bytes, references, data):
        try:
            return answer_line(
                self.panel.send(
                    data, session=session, sequence=sequence, patches=patches, stimulus_bytes=stimulus_bytes, references=references, edition=self.edition
                )
            )
        except Refused as refusal:
            return answer_line(refusal.answer)

    def explain(self, session, sequence, patches, stimulus_bytes, references, data):
        return reason_line(
            self.panel.explain(
                data, session=session, sequence=sequence, patches=patches, stimulus_bytes=stimulus_bytes, references=references, edition=self.edition
            )
        )

    def group(self, *fields):
        *batches, data = fields
        try:
            taken = self.panel.send_group(batches, data)
        except Refused as refusal:
            if refusal.answer is None:
                return line("U", refusal.number)
            return line("U", 0, 0, refusal.place) + answer_line(refusal.answer)
        return line("U", 0, taken.count, or_none(taken.cursor))

    def show(self):
        return self.panel.listing()

    # ---- look-ups

    @staticmethod
    def _value(value):
        return line("V", "-") if value is None else line("V", *value_fields(value))

    def value_binding(self, node, slot):
        return self._value(self.panel.binding(node, slot))

    def value_node(self, node):
        found = self.panel.node(node)
        return line("V", "-") if found is None else line("V", "A", found.availability)

    def value_entry(self, collection, key):
        return self._value(self.panel.entry(collection, key))

    @staticmethod
    def _mark(row):
        return line("X", "-" if row is None else row.mark)

    def mark_binding(self, node, slot):
        return self._mark(self.panel.binding(node, slot))

    def mark_node(self, node):
        return self._mark(self.panel.node(node))

    def mark_entry(self, collection, key):
        return self._mark(self.panel.entry(collection, key))

    def print(self, collection, room):
        return told("O", lambda: self.panel.print(collection, room), lambda text: line("O", 0, len(text.encode("utf-8"))) + text)

    def length(self, collection):
        return line("Z", self.panel.length(collection))

    def page(self, collection, room, *keys):
        def lines(rows):
            found = [line("M", "-") if row is None else line("M", row.position, *value_fields(row.value)) for row in rows]
            return line("Y", 0, len(rows)) + "".join(found)

        return told("Y", lambda: self.panel.page(collection, keys, room), lines)

    # ---- calls on bytes

    def edition_(self, edition):
        self.edition = edition
        return ""

    def check(self, data):
        def lines(findings):
            place = "set" if findings.patch is None else findings.patch
            return line("K", 0, place, len(findings.found)) + "".join(line("F", *finding) for finding in findings.found)

        return told("K", lambda: geysertray.check(data, self.edition), lines)

    def list(self, data):
        return told("E", lambda: geysertray.set_listing(data, self.edition), str)

    def convert(self, room, data):
        return told("T", lambda: geysertray.convert(data, self.edition, room), lambda made: line("T", 0, made.hex()))

    def depends(self, room, data):
        def lines(answer):
            if isinstance(answer, Never):
                return line("D", 0, "never", *answer)
            return line("D", 0, "needs", *map(len, answer)) + "".join(line("Q", *key) for key in answer.held + answer.lacked)

        return told("D", lambda: geysertray.depends(data, self.edition, room), lines)

    def import_(self, room, collection, *fields):
        *envelope, terms = fields
        made = lambda: geysertray.import_terms(terms, collection, Envelope(*envelope), self.edition, room)
        return told("I", made, lambda data: line("I", 0, data.hex()))

    # ---- turns

    def senders(self, senders):
        try:
            self.turns = Turns(senders)
        except Refused as refusal:
            return line("J", refusal.number)
        return line("J", 0)

    def wait(self, sender):
        return told("J", lambda: self.turns.wait(sender), lambda done: line("J", 0))

    def turn(self):
        named = self.turns.turn(self.panel.cursor)
        return line("J", "none") if named is None else line("J", *named)

    # ---- one line

    def answer(self, text):
        if text == "" or text.startswith("#"):
            return ""
        command, *fields = text.split(" ")
        if command in NOT_BOUND:
            raise NotBound(command)
        if command in ("value", "mark") and fields:
            command += " " + fields.pop(0)
        readers = MANY_FIELDS[command](len(fields)) if command in MANY_FIELDS else FIELDS.get(command)
        if readers is None or len(readers) != len(fields):
            raise BadLine
        values = [read(field) for read, field in zip(readers, fields)]
        if self.panel is None and command.split(" ")[0] in NEED_A_SESSION:
            return line("N")
        if self.turns is None and command in NEED_TURNS:
            return line("N")
        return getattr(self, METHODS.get(command, command.replace(" ", "_")))(*values)


def replay(script):
    """The answers to a script, up to its end or its first bad line."""
    state, out = Replay(), []
    *lines, behind = script.split(b"\n")
    for count, text in enumerate(lines + [behind] * bool(behind), 1):
        try:
            if count > len(lines) or len(text) > LINE_BYTES:
                raise BadLine
            out.append(state.answer(text.decode("latin-1")))
        except BadLine:
            out.append(line("?", count))
            break
    return "".join(out).encode("utf-8")


if __name__ == "__main__":
    sys.stdout.buffer.write(replay(sys.stdin.buffer.read()))
