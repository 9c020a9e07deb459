"""The smallest sheet that still shows a difference between two panels: commands, patches and operations are left out in turn.

A smaller sheet counts if its first difference is at the same command and of the same kind.
"""

from dataclasses import dataclass, replace

from .answers import split_answers
from .canonical import operation_count
from .programs import ask, try_run
from .script import script_of
from .trial import first_difference, is_note, script_of_steps, steps_of, told_answers
from .unscript import unscript


@dataclass
class Shrunk:
    sheet: str
    script: str
    commands: int
    operations: int


@dataclass
class _Unit:
    """A command with what is kept of its set: for each patch its place and the places of its operations."""

    item: object
    kept: list


def shrink(trial, program, panel):
    """The smallest sheet that shows the trial's first difference; None where there is none to shrink."""
    if trial.first is None:
        return None
    return _Shrinker(trial, program, panel).run()


class _Shrinker:
    def __init__(self, trial, program, panel):
        self.program, self.panel = program, panel
        step = trial.first[0]
        self.target, self.purpose = trial.items[step.at], step.purpose
        self.kind = kind_of(trial.first, step)
        self.items = trial.items
        self.tried = {}
        self.units = [
            _Unit(item, [(place, list(range(len(patch.operations)))) for place, patch in enumerate(patches_of(item))])
            for item in trial.items[: step.at + 1] if not is_note(item)
        ]

    def run(self):
        size = None
        while size != self._size():
            size = self._size()
            self.units = smaller(self.units, self._shows)
            for at in range(len(self.units)):
                self._shrink_set(at)
        items = self._made(self.units, self._way)
        script = script_of(items) + (b"show\n" if self.purpose == "show" else b"")
        count = sum(operation_count(patches_of(item)) for item in items)
        return Shrunk(told(unscript(script)), told(script), script.count(b"\n"), count)

    def _size(self):
        return len(self.units), sum(len(unit.kept) + sum(len(kept) for _, kept in unit.kept) for unit in self.units)

    def _shrink_set(self, at):
        """First whole patches, then operations."""
        unit = self.units[at]

        def with_kept(kept):
            return self.units[:at] + [replace(unit, kept=kept)] + self.units[at + 1 :]

        unit.kept = smaller(unit.kept, lambda kept: self._shows(with_kept(kept)))
        flat = [(place, operation) for place, kept in unit.kept for operation in kept]
        flat = smaller(flat, lambda kept: self._shows(with_kept(gathered(kept))))
        if self._shows(with_kept(gathered(flat))):
            unit.kept = gathered(flat)

    # ---- trying

    def _shows(self, units):
        """Whether the sheet of these units shows the difference, with its batches' numbers as they are or closed up."""
        if not any(unit.item is self.target for unit in units):
            return False
        for closed in (False, True):
            if self._differs(self._made(units, closed)):
                self._way = closed
                return True
        return False

    def _differs(self, items):
        steps = steps_of(items)
        script = script_of_steps(steps)
        if script not in self.tried:
            mine, _ = told_answers(steps, ask(self.program, script))
            theirs, _ = told_answers(steps, split_answers(try_run(self.panel, script)[0]))
            first = first_difference(steps, mine, theirs)
            self.tried[script] = first and (first[0].at, first[0].purpose, kind_of(first, first[0]))
        return self.tried[script] == (len(items) - 1, self.purpose, self.kind)

    # ---- making the smaller sheet

    _way = False

    def _made(self, units, closed):
        items = [made(unit) for unit in units]
        return close_up(items, self.items, [unit.item for unit in units]) if closed else items


def told(data):
    return data.decode("utf-8", "surrogateescape")


def patches_of(item):
    return item.carried.patches if item.carried is not None else []


def kind_of(first, step):
    """What must stay alike: of an answer its letter and the first two fields, from both programs; of a list, that it differs."""
    if step.purpose == "show":
        return None
    return tuple(tuple(answer[0].split("\t")[:3]) if answer else None for answer in first[1:])


def gathered(flat):
    """Places of operations under their patches."""
    kept = {}
    for place, operation in flat:
        kept.setdefault(place, []).append(operation)
    return list(kept.items())


def made(unit):
    """The unit's command with what is kept of its set; counts that were true stay true."""
    item = unit.item
    if not patches_of(item):
        return replace(item, expects=[])
    patches = chained(item.carried.patches, unit.kept)
    carried = replace(item.carried, patches=patches)
    fields = dict(item.fields)
    for name, count in (("patches", len), ("references", operation_count)):
        if name in fields and fields[name] == count(item.carried.patches):
            fields[name] = count(patches)
    if fields.get("bytes") == len(item.carried.to_bytes()):
        fields["bytes"] = len(carried.to_bytes())
    return replace(item, carried=carried, fields=fields, expects=[])


def chained(patches, kept):
    """The kept patches; where one followed the patch before it, it follows the one that is now before it."""
    out = []
    for place, operations in kept:
        patch = patches[place]
        patch = patch._replace(operations=[patch.operations[at] for at in operations])
        if out and place:
            before = patches[place - 1]
            if patch.previous == before.revision:
                patch = patch._replace(previous=out[-1].revision)
            if patch.sequence == before.sequence + 1:
                patch = patch._replace(sequence=out[-1].sequence + 1)
        out.append(patch)
    return out


def close_up(items, all_items, sources):
    """Each batch as far behind the batch before it as it was in the whole sheet."""
    steps, last = {}, None
    for item in all_items:
        if item.name == "batch":
            steps[id(item)] = item.fields["sequence"] - last if last is not None else 0
            last = item.fields["sequence"]
    out, last = [], None
    for item, source in zip(items, sources):
        if item.name == "batch":
            number = item.fields["sequence"] if last is None else max(0, last + steps[id(source)])
            item = replace(item, fields=dict(item.fields, sequence=number))
            last = number
        out.append(item)
    return out


def smaller(parts, shows):
    """Delta debugging: leaves out ever smaller pieces of the list as long as the rest still shows it."""
    size = max(1, len(parts) // 2)
    while parts:
        at, before = 0, len(parts)
        while at < len(parts):
            rest = parts[:at] + parts[at + size :]
            if shows(rest):
                parts = rest
            else:
                at += size
        if size == 1 and len(parts) == before:
            return parts
        size = max(1, size // 2)
    return parts
