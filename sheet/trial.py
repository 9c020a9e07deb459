"""A sheet put to the proved replay: a row for each command, with the panel before and after it.

Behind each call on the session a show is put, so that the panel after it is the program's own listing.
"""

from dataclasses import dataclass, field

from .answers import split_answers
from .breaking import Break, find_break
from .commands import CHANGING, LINE_BYTES, SILENT
from .lists import compare
from .parser import Command, Plain
from .programs import ask, try_run
from .reasons import Reason, read_reason
from .script import item_line


@dataclass
class Outcome:
    """What a program answered to a command, and the records of the panel before and after; None where there is none."""

    lines: list = None
    before: list = None
    after: list = None
    # the answer of the show that was put behind it
    shown: list = None


@dataclass
class Row:
    item: object
    # the comments above it
    notes: list
    own: Outcome
    # what broke a refused batch off
    breaks: Break = None
    # what explain says
    reason: Reason = None
    # the number with which the proved reader refuses the composed set
    unread: str = None
    expects: list = field(default_factory=list)
    other: Outcome = None
    # the limits of the session that is in use
    limits: dict = None

    @property
    def line(self):
        return self.item.line

    def differs(self):
        return self.other is not None and (self.own.lines, self.own.shown) != (self.other.lines, self.other.shown)


@dataclass
class Step:
    """A line of the script that is put to the program."""

    at: int
    data: bytes
    # own, or show for the one behind it
    purpose: str
    silent: bool = False


def is_silent(item):
    """Whether nothing is answered to the item's line."""
    if isinstance(item, Plain):
        comment = item.data.startswith(b"#") and len(item.data) <= LINE_BYTES
        return item.ended and (item.data == b"" or comment)
    return item.name in SILENT


def is_note(item):
    return isinstance(item, Plain) and not item.raw and is_silent(item)


def steps_of(items):
    """The lines to run: those of the items, and a show behind each call on the session."""
    steps = []
    for at, item in enumerate(items):
        steps.append(Step(at, item_line(item), "own", is_silent(item)))
        if isinstance(item, Command) and item.name in CHANGING:
            steps.append(Step(at, b"show\n", "show"))
    return steps


def script_of_steps(steps):
    return b"".join(step.data for step in steps)


def told_answers(steps, answers):
    """The answer of each step, None for a step that has none. A line number counts the script's own lines."""
    told, waiting = [], iter(answers)
    for place, step in enumerate(steps, 1):
        answer = None if step.silent else next(waiting, None)
        if answer == ["?\t%d" % place]:
            answer = ["?\t%d" % (step.at + 1)]
        told.append(answer)
    return told, list(waiting)


def outcomes(items, steps, told):
    """An outcome for each item."""
    found = [Outcome() for _ in items]
    panel = None
    for step, answer in zip(steps, told):
        outcome = found[step.at]
        if step.purpose == "own":
            outcome.lines, outcome.before, outcome.after = answer, panel, panel
            name = items[step.at].name
            if name in ("show", "list"):
                outcome.after = records_of(answer)
            if name == "show":
                panel = outcome.after
            if name == "list":
                outcome.before = None
        else:
            outcome.shown, panel = answer, records_of(answer)
            outcome.after = panel
    return found


def records_of(answer):
    """The records of a listing; None if it is none."""
    return answer[1:] if answer and answer[0].startswith("P\t") else None


class Trial:
    """The rows of a sheet, and what the other panel does with it."""

    def __init__(self, items, program, panel=None, explain=False):
        self.items = items
        self.steps = steps_of(items)
        script = script_of_steps(self.steps)
        self.told, _ = told_answers(self.steps, ask(program, script))
        own = outcomes(items, self.steps, self.told)
        self.panel_fault = self.first = None
        self.extra = []
        other = [None] * len(items)
        if panel:
            other = self._put_to(panel, script)
        self.rows = self._rows(own, other)
        self._look_closer(program, explain)

    def _put_to(self, panel, script):
        output, self.panel_fault = try_run(panel, script)
        told, self.extra = told_answers(self.steps, split_answers(output))
        self.first = first_difference(self.steps, self.told, told)
        return outcomes(self.items, self.steps, told)

    def _rows(self, own, other):
        rows, notes, limits, set_up = [], [], None, None
        for item, mine, theirs in zip(self.items, own, other):
            if is_note(item):
                notes.append(item)
                continue
            if item.name == "session":
                set_up = item.fields
            if item.name == "create":
                limits = set_up
            row = Row(item, notes, mine, other=theirs, limits=limits)
            row.expects = [(expected, expected.met(mine)) for expected in item.expects]
            rows.append(row)
            notes = []
        self.last_notes = notes
        return rows

    # ---- what only another question to the program tells

    def _look_closer(self, program, explain):
        reasons = self._reasons(program) if explain else {}
        unread = {id(item): number for item, number in unread_sets(program, self.items)}
        for row in self.rows:
            row.reason = reasons.get(id(row.item))
            row.unread = unread.get(id(row.item))
            if isinstance(row.item, Command) and row.item.name == "batch":
                row.breaks = find_break(program, self.items, row)

    def _reasons(self, program):
        """The answer of an explain line in front of each batch."""
        steps = []
        for step in self.steps:
            item = self.items[step.at]
            if step.purpose == "own" and isinstance(item, Command) and item.name == "batch":
                steps.append(Step(step.at, b"explain" + step.data[len(b"batch"):], "explain"))
            steps.append(step)
        told, _ = told_answers(steps, ask(program, script_of_steps(steps)))
        return {
            id(self.items[step.at]): read_reason(answer[0]) for step, answer in zip(steps, told)
            if step.purpose == "explain" and answer
        }

    # ---- counts

    def expectations(self):
        return [(row, expected, met) for row in self.rows for expected, met in row.expects]

    def unmet(self):
        return [(row, expected) for row, expected, met in self.expectations() if not met]

    def panel_differs(self):
        return bool(self.first or self.panel_fault or self.extra)

    def differing(self):
        return [row for row in self.rows if row.differs()]


def first_difference(steps, mine, theirs):
    """The first step that the two answered otherwise, with both answers."""
    for step, own, other in zip(steps, mine, theirs):
        if own != other:
            return step, own, other
    return None


def compared(row):
    """The panel before and after a row with marks; the keys that its operations name as moved come first."""
    movers = []
    for carried in filter(None, (holder.carried for holder in (row.item, *row.item.members))):
        for patch in carried.patches:
            movers += [
                ("C", str(operation.first), str(operation.second)) for operation in patch.operations
                if operation.name == "move"
            ]
    return compare(row.own.before or [], row.own.after or [], movers)


def unread_sets(program, items):
    """The commands whose composed set the proved reader refuses, each with the number."""
    asked, script, edition = [], b"", 1
    for item in items:
        for holder in (item, *item.members):
            carried = holder.carried
            if carried is None or carried.data is not None:
                continue
            if carried.told != edition:
                edition = carried.told
                script += b"edition %d\n" % edition
            script += b"check %s\n" % carried.to_bytes().hex().encode("ascii")
            asked.append(item)
    answers = ask(program, script) if asked else []
    return [(item, answer[0].split("\t")[1]) for item, answer in zip(asked, answers) if answer[0] in ("K\t10", "K\t12")]
