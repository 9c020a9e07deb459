"""What page and text both say of a trial."""

from .canonical import operation_count
from .commands import SILENT
from .parser import decoded
from .reasons import labelled_figures
from .telling import command_words, counted, counts


def is_set_up(row):
    """Whether nothing is answered to the row's command."""
    return row.item.name in SILENT


def notes_of(notes):
    """The comments as paragraphs; an empty comment or line parts them."""
    paragraphs, lines = [], []
    for note in list(notes) + [None]:
        text = decoded(note.data)[1:].strip() if note is not None else ""
        if text:
            lines.append(text)
        elif lines:
            paragraphs.append(" ".join(lines))
            lines = []
    return paragraphs


def verdict_words(trial):
    """Whether all went as expected, and in words."""
    commands = counted(len(trial.rows), "command")
    expects, unmet = len(trial.expectations()), len(trial.unmet())
    if not expects:
        return True, "%s, nothing expected" % commands
    if not unmet:
        return True, "%s, %s, all met" % (commands, counted(expects, "expectation"))
    return False, "%s, %d of %s not met:" % (commands, unmet, counted(expects, "expectation"))


# ---- refusals


def operation_states(carried, breaks):
    """What became of each operation of a refused batch: (kind, words) by patch and operation."""
    if breaks is None or breaks.operation is None:
        return {}
    broken, states = (breaks.patch, breaks.operation), {}
    # number 6 counts all targets, so that its batch has been gone through
    first, later = ("✗ the first with number 6", "· not kept") if breaks.number == "6" else ("✗ broke off here", "· not reached")
    for place, patch in enumerate(carried.patches):
        for at in range(len(patch.operations)):
            if (place, at) == broken:
                states[place, at] = ("broke", first)
            elif (place, at) < broken:
                states[place, at] = ("dropped", "· not kept")
            else:
                states[place, at] = ("unreached", later)
    return states


def break_words(row, rules):
    """Where a refused batch broke off."""
    breaks = row.breaks
    if breaks is None:
        return []
    out = []
    if breaks.operation is not None:
        patch = row.item.carried.patches[breaks.patch]
        words = "Broke off at operation %d of patch %d" % (breaks.operation + 1, patch.id)
        out.append(words + ("." if row.reason else ": the batch up to it is refused with %s, with one operation less it is not." % breaks.number))
    for line in breaks.findings:
        _, kind, domain, secondary = (line.split("\t") + ["", "", ""])[:4]
        finding = rules.findings.get(int(kind)) if kind.isdigit() else None
        words = "Finding %s at patch %s: %s" % (kind, domain, finding.meaning if finding else "")
        out.append(words + (" (%s: %s)" % (finding.secondary, secondary) if finding and finding.secondary != "0" else ""))
    return out


def figures(row):
    """What the sheet itself has to set beside a refusal: the session's id and limits, the set's counts."""
    number, item = row.breaks.number if row.breaks is not None else None, row.item
    limits = row.limits
    if number == "1" and limits:
        return ["The session in use has the id %d." % limits["id"]]
    if number == "4" and limits:
        return ["The session's limits: %s." % counts(limits)]
    if number == "5" and item.carried.data is None:
        patches = item.carried.patches
        return ["The set has %s and %s." % (counted(len(patches), "patch", "patches"), counted(operation_count(patches), "operation"))]
    return []


def reason_words(row, rules):
    """What explain says, with the sentence of the rule that it names."""
    if row.reason is None:
        return []
    # the place is told from 1 by break_words, as a reader counts; explain counts from 0
    placed = row.breaks is not None and row.breaks.operation is not None
    words, told = "Rule `%s`" % row.reason.name, labelled_figures(row.reason, without_place=placed)
    if rules.names.get(row.reason.name):
        words += ": " + rules.names[row.reason.name]
    return [words + (" (%s)" % ", ".join(told) if told else "")]


def unread_words(row):
    if row.unread is None:
        return []
    return ["The proved reader refuses the composed set with %s." % row.unread]


# ---- two panels


def difference_words(trial, panel):
    """The first difference in words, and what is wrong with the other program's end."""
    out = []
    if trial.first is None:
        out.append("%s gives the same answers" % panel)
    else:
        step = trial.first[0]
        item = trial.items[step.at]
        what = "the list after" if step.purpose == "show" else "the answer to"
        out.append("%s differs first in line %d: %s ‘%s’" % (panel, item.line, what, command_words(item)))
        if len(trial.differing()) > 1:
            out.append("%d rows differ." % len(trial.differing()))
    if trial.panel_fault:
        out.append(trial.panel_fault + ".")
    if trial.extra:
        out.append("%s behind the last answer." % counted(len(trial.extra), "further answer"))
    return out
