"""A trial as text: what the page says, line by line."""

import textwrap

from .lists import AGAINST_OURS, OWN_WORDS, SIGNS, against, compare
from .parser import decoded
from .report import (
    break_words, difference_words, figures, is_set_up, notes_of, operation_states, reason_words, unread_words, verdict_words,
)
from .telling import (
    answer_words, availability, command_words, counted, declared_words, operation_words, patch_words, set_words,
)
from .trial import compared

WIDTH = 110
LABEL = 11


def pictured(text):
    """Control characters as pictures, so that a text cannot steer a terminal."""
    told = "".join(chr(0x2400 + ord(c)) if ord(c) < 32 else "␡" if 127 <= ord(c) < 160 else c for c in text)
    return told.encode("utf-8", "surrogateescape").decode("utf-8", "replace")


def wrapped(text, first, rest):
    return textwrap.wrap(pictured(text), WIDTH, initial_indent=first, subsequent_indent=rest,
                         break_long_words=True, break_on_hyphens=False) or [first.rstrip()]


def labelled(label, texts):
    """Lines behind a label; further ones below the first."""
    out = []
    for at, text in enumerate(texts):
        first = (" " * 6 + (label if at == 0 else "")).ljust(6 + LABEL)
        out += wrapped(text, first, " " * (6 + LABEL + 2))
    return out


def record_words(entry, names=OWN_WORDS):
    key, value = entry.key, entry.value
    name = {"B": "binding %s, %s" % key[1:3] if key[0] == "B" else "", "A": "node %s" % key[1]}.get(key[0])
    name = name or "collection %s: %s" % key[1:3]
    told = availability(value) if key[0] == "A" else value
    signs = "".join(SIGNS[mark] for mark in entry.marks) or " "
    words = "%-2s %-18s %s" % (signs, name, told)
    return words + ("   (%s)" % ", ".join(names[mark] for mark in entry.marks) if entry.marks else "")


def panel_lines(row):
    own = row.own
    if row.item.name == "list":
        return labelled("lists", list(map(record_words, compare(own.after, own.after)[1]))) if own.after else []
    if own.after is None and own.before is None:
        return []
    left, right = compared(row)
    if own.before == own.after or own.before is None and not own.after:
        told = "empty" if not right else "%d records, the same before and after" % len(right)
        shown = list(map(record_words, right)) if row.item.name == "show" else []
        return labelled("list", [told] + shown)
    return labelled("before", list(map(record_words, left)) or ["empty"]) + labelled("after", list(map(record_words, right)) or ["empty"])


def operation_lines(carried, breaks):
    out, states = [], operation_states(carried, breaks)
    for place, patch in enumerate(carried.patches):
        out += wrapped(patch_words(patch), " " * 6, " " * 8)
        for at, operation in enumerate(patch.operations):
            words, content = operation_words(operation)
            state = states.get((place, at), ("", ""))[1]
            told = words + (" “%s”" % content if content is not None else "") + ("   [%s]" % state if state else "")
            out += wrapped(told, "%s%3d  " % (" " * 6, at + 1), " " * 13)
    return out


def command_lines(row):
    item = row.item
    out = wrapped(command_words(item), "%4d  " % row.line, " " * 8)
    for holder in (item, *item.members):
        if holder.carried is None:
            continue
        if holder is not item:
            out += wrapped(command_words(holder), " " * 6, " " * 8)
        told = set_words(holder.carried)
        out += wrapped(told + ("; " + declared_words(holder) if holder.name in ("batch", "explain") else ""), " " * 6, " " * 8)
        out += operation_lines(holder.carried, row.breaks if holder is item else None)
    if item.terms is not None:
        out += labelled("terms", decoded(item.terms).split("\n"))
    return out


def answer_lines(row, rules):
    own = row.own
    if own.lines is None:
        return [] if is_set_up(row) else labelled("answer", ["none: the script had ended"])
    words = answer_words(own.lines)
    further = [] if own.lines[0].startswith("P\t") else own.lines[1:]
    out = labelled("answer", [own.lines[0].replace("\t", " ") + ("   (%s)" % words if words else "")])
    out += labelled("", [line.replace("\t", " ") for line in further])
    told = []
    for number, sentence, advice in rules.of_answer(own.lines):
        label = "%s: " % number if number is not None else ""
        told.append(label + sentence.replace("`", "") + (" What to do: " + advice.replace("`", "") if advice else ""))
    more = break_words(row, rules) + reason_words(row, rules) + unread_words(row) + figures(row)
    told += [line.replace("`", "") for line in more]
    return out + labelled("rule", told)


def expectation_lines(row):
    out = []
    for expected, met in row.expects:
        head, *further = expected.told()
        further += [] if met else expected.came(row.own)
        sign = "✓ as expected: " if met else "✗ NOT as expected: "
        out += labelled("expected", [sign + head] + ["    " + line for line in further])
    return out


def other_lines(row):
    if not row.differs():
        return []
    lines = row.other.lines or ["no answer"]
    out = labelled("the other", ["✗ differs: " + lines[0].replace("\t", " ")])
    if row.other.after is not None and row.other.after != row.own.after:
        entries = against(row.own.after, row.other.after)
        out += labelled("its list", [record_words(entry, AGAINST_OURS) for entry in entries] or ["empty"])
    return out


def difference_lines(trial, panel, shrunk):
    out = ["%s %s" % ("✗" if trial.panel_differs() else "✓", line) for line in difference_words(trial, panel)[:1]]
    out += difference_words(trial, panel)[1:]
    if trial.first is not None:
        _, own, other = trial.first
        out += ["", "the proved replay:"] + ["    " + line.replace("\t", " ") for line in own or ["no answer"]]
        out += ["%s:" % panel] + ["    " + line.replace("\t", " ") for line in other or ["no answer"]]
    if shrunk:
        size = "%s, %s" % (counted(shrunk.commands, "command"), counted(shrunk.operations, "operation"))
        out += ["", "the smallest sheet that still shows it (%s):" % size, ""]
        out += ["    " + line for line in shrunk.sheet.rstrip("\n").split("\n")]
    return [pictured(line) for line in out] + [""]


def text(trial, name, rules, panel=None, shrunk=None):
    """The whole text."""
    good, words = verdict_words(trial)
    lines = ", ".join(str(line) for line in dict.fromkeys(row.line for row, _ in trial.unmet()))
    out = [name, "%s %s%s" % ("✓" if good else "✗", words, " lines " + lines if lines else ""), ""]
    if panel:
        out += difference_lines(trial, panel, shrunk)
    for row in trial.rows:
        for paragraph in notes_of(row.notes):
            out += [""] + wrapped(paragraph, "", "")
        out += command_lines(row) + panel_lines(row) + answer_lines(row, rules) + expectation_lines(row) + other_lines(row)
    return "\n".join(line.rstrip() for line in out) + "\n"
