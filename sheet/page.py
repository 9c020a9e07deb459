"""The page of a trial: one HTML file without scripts, and without anything from a network."""

import re
from difflib import SequenceMatcher
from html import escape
from pathlib import Path

from .lists import ADDED, AGAINST_OURS, CHANGED, MOVED, OWN_WORDS, REMOVED, SIGNS, against, compare
from .parser import decoded
from .report import (
    break_words, difference_words, figures, is_set_up, notes_of, operation_states, reason_words, unread_words, verdict_words,
)
from .telling import (
    answer_words, availability, command_words, counted, declared_words, operation_words, patch_words, set_words,
)
from .trial import compared, records_of

STYLE = Path(__file__).with_name("page.css")
# unmarked records in a row that are folded, and the length of a list from which this is done
FOLD, LONG = 4, 12
# how much of two texts is the same when their words are set off one by one
ALIKE = 0.6


def shown(text):
    """A text for the page: control characters as pictures, bytes that are no UTF-8 as signs of that."""
    pictured = "".join(chr(0x2400 + ord(c)) if ord(c) < 32 and c != "\n" else "␡" if c == "\x7f" else c for c in text)
    return escape(pictured.encode("utf-8", "surrogateescape").decode("utf-8", "replace"))


def code(text):
    """A sentence of RULES.md; what stands in backticks is code."""
    parts = shown(text).split("`")
    return "".join("<code>%s</code>" % part if at % 2 else part for at, part in enumerate(parts))


# ---- operations


def operations(carried, breaks):
    """The patches and their operations in words; of a refused batch each with what became of it."""
    out, states = [], operation_states(carried, breaks)
    for place, patch in enumerate(carried.patches):
        out.append("<h3>%s</h3><ol class=operations>" % shown(patch_words(patch)))
        for at, operation in enumerate(patch.operations):
            out.append(operation_item(operation, at, *states.get((place, at), ("", ""))))
        out.append("</ol>")
    return "".join(out)


def operation_item(operation, at, kind, state):
    words, content = operation_words(operation)
    told = shown(words)
    if content is not None:
        told += " <span class=content><bdi class=text>%s</bdi></span>" % shown(content)
    if state:
        told += ' <span class="state%s">%s</span>' % (" bad" if kind == "broke" else "", shown(state))
    return '<li data-at="%d" class="%s">%s</li>' % (at + 1, kind, told)


# ---- lists


def group_name(key):
    return {"B": "Bindings", "A": "Availability"}.get(key[0]) or "Collection %s" % key[1]


def record_item(entry, side, names):
    key, marks = entry.key, entry.marks
    name = {"B": "%s, %s" % key[1:3] if key[0] == "B" else "", "A": key[1]}.get(key[0], key[-1])
    tags = "".join('<span class="mark %s">%s %s</span>' % (mark, SIGNS[mark], names[mark]) for mark in marks)
    tags = "<span class=marks>%s</span>" % tags if tags else ""
    return '<li class="%s"><span class=key>%s</span><bdi class=value>%s</bdi>%s</li>' % (
        marks[0] if marks else "", shown(name), value_html(entry, side), tags)


def value_html(entry, side):
    """A record's value; of a changed one the words that the other side lacks are set off."""
    if entry.key[0] == "A":
        return shown(availability(entry.value))
    kind, _, content = entry.value.partition(" ")
    told = shown(content) if entry.old is None else words_apart(content, entry.old.partition(" ")[2], side)
    return "<span class=kind>%s</span>%s" % (shown(kind), told)


def words_apart(content, other, tag):
    """The content with what the other has not; of texts that share little nothing is set off."""
    matcher = SequenceMatcher(None, re.split(r"(\s+)", content), re.split(r"(\s+)", other), False)
    mine, out = matcher.a, []
    if matcher.ratio() < ALIKE:
        return shown(content)
    for kind, start, end, _, _ in matcher.get_opcodes():
        words = shown("".join(mine[start:end]))
        out.append(words if kind == "equal" or not words else "<%s>%s</%s>" % (tag, words, tag))
    return "".join(out)


def record_list(entries, side="ins", names=OWN_WORDS):
    """Records under the headings of their kinds; a long run without marks is folded.

    The side is del for the list before; the names are those of the marks.
    """
    if not entries:
        return "<p class=faint>empty</p>"
    out = []
    for name in dict.fromkeys(group_name(entry.key) for entry in entries):
        group = [entry for entry in entries if group_name(entry.key) == name]
        out.append("<h3>%s</h3>" % shown(name))
        out += folded(group, side, names) if len(group) > LONG else [items_html(group, side, names)]
    return "".join(out)


def items_html(entries, side, names):
    return "<ul class=list>%s</ul>" % "".join(record_item(entry, side, names) for entry in entries)


def folded(group, side, names):
    out, run = [], []
    for entry in group + [None]:
        if entry is not None and not entry.marks:
            run.append(entry)
            continue
        items = items_html(run, side, names)
        if len(run) > FOLD:
            items = "<details><summary>%d entries as before</summary>%s</details>" % (len(run), items)
        out += [items] if run else []
        run = []
        if entry is not None:
            out.append(items_html([entry], side, names))
    return out


def panel_cells(row):
    """The list before and after; where it stayed, one cell over both."""
    own = row.own
    if row.item.name == "list":
        return '<td colspan=2 data-label="What it lists">%s</td>' % listing_of(own)
    if own.after is None and own.before is None:
        return '<td colspan=2 data-label="List"><span class=faint>%s</span></td>' % ("no session" if own.lines else "")
    left, right = compared(row)
    if own.before == own.after or own.before is None and not own.after:
        return '<td colspan=2 data-label="List before and after">%s</td>' % stayed(row, right)
    return '<td data-label="List before">%s</td><td data-label="List after">%s</td>' % (record_list(left, "del"), record_list(right))


def listing_of(own):
    return record_list(compare(own.after, own.after)[1]) if own.after is not None else "<span class=faint>nothing</span>"


def stayed(row, entries):
    if not entries:
        return "<p class=faint>an empty list, as before</p>" if row.own.before is not None else "<p class=faint>an empty list</p>"
    opened = " open" if row.item.name in ("show", "batch", "group") else ""
    words = "the same before and after: %d record%s" % (len(entries), "" if len(entries) == 1 else "s")
    return "<details%s><summary>%s</summary>%s</details>" % (opened, words, record_list(entries))


# ---- answers


def answer_html(row, rules):
    """The answer, its rule, and what more is known of a refusal."""
    own = row.own
    if own.lines is None:
        return "<p class=faint>%s</p>" % ("no answer: the script had ended" if not is_set_up(row) else "")
    out = [raw_answer(own.lines)]
    for number, sentence, advice in rules.of_answer(own.lines):
        label = "<span class=number>%s</span> " % shown(str(number)) if number is not None else ""
        told = "%s%s" % (label, code(sentence))
        told += " <span class=faint>What to do: %s</span>" % code(advice) if advice else ""
        out.append("<p class=rule>%s</p>" % told)
    for words in break_words(row, rules) + reason_words(row, rules) + unread_words(row) + figures(row):
        out.append("<p>%s</p>" % code(words))
    return "".join(out) + "".join(expectation(row, *pair) for pair in row.expects)


def raw_answer(lines):
    words = answer_words(lines)
    told = "<p class=answer>%s</p>" % shown(words) if words else ""
    # a listing's records stand in the columns of the lists
    lines = lines[:1] if lines[0].startswith("P\t") else lines
    return told + "<p class=raw>%s</p>" % "<br>".join(shown(line.replace("\t", " ")) for line in lines)


def expectation(row, expected, met):
    head, *further = expected.told()
    sign, word = ("✓", "as expected") if met else ("✗", "not as expected")
    further += [] if met else expected.came(row.own)
    items = "".join("<li><bdi>%s</bdi></li>" % shown(line) for line in further)
    return '<div class=expected><span class="sign %s">%s %s:</span> <bdi>%s</bdi>%s</div>' % (
        "good" if met else "bad", sign, word, shown(head), "<ul>%s</ul>" % items if items else "")


def other_cell(row, panel):
    """What the other panel did."""
    if not row.differs():
        told = "the same" if row.own.lines is not None else ""
        return '<td data-label="%s"><p class=faint>%s</p></td>' % (shown(panel), told)
    out = "<p class=bad><b>✗ differs</b></p>"
    out += raw_answer(row.other.lines) if row.other.lines else "<p class=faint>no answer</p>"
    if row.other.after != row.own.after and row.other.after is not None:
        out += "<p class=faint>its list, against ours:</p>"
        out += record_list(against(row.own.after, row.other.after), names=AGAINST_OURS)
    return '<td class=differs data-label="%s">%s</td>' % (shown(panel), out)


# ---- rows


def command_html(row):
    item = row.item
    head, _, rest = command_words(item).partition(" ")
    out = ["<p><span class=first-word>%s</span> %s</p>" % (shown(head), shown(rest))]
    for holder in (item, *item.members):
        if holder.carried is None:
            continue
        if holder is not item:
            out.append("<p><b>%s</b></p>" % shown(command_words(holder)))
        out.append("<p class=faint>%s</p>" % shown(set_words(holder.carried)))
        if holder.name in ("batch", "explain"):
            out.append("<p class=faint>%s</p>" % shown(declared_words(holder)))
        out.append(operations(holder.carried, row.breaks if holder is item else None))
    if item.terms is not None:
        out.append("<pre>%s</pre>" % shown(decoded(item.terms).replace("\t", " → ")))
    return "".join(out)


def row_html(row, rules, panel):
    columns = 6 if panel else 5
    out = notes_html(row.notes, columns)
    line = '<th scope=row class=line><a href="#line-%d">%d</a></th>' % (row.line, row.line)
    if is_set_up(row):
        rest = "<td colspan=%d>%s</td>" % (columns - 1, command_html(row))
        return out + '<tr class=set-up id="line-%d">%s%s</tr>' % (row.line, line, rest)
    cells = [line, "<td>%s</td>" % command_html(row), panel_cells(row),
             '<td data-label="Answer and rule">%s</td>' % answer_html(row, rules)]
    if panel:
        cells.append(other_cell(row, panel))
    return out + '<tr id="line-%d">%s</tr>' % (row.line, "".join(cells))


def notes_html(notes, columns):
    """The comments above a command, paragraph by paragraph."""
    paragraphs = notes_of(notes)
    if not paragraphs:
        return ""
    told = "".join("<p>%s</p>" % shown(text) for text in paragraphs)
    return "<tr class=note><td colspan=%d>%s</td></tr>" % (columns, told)


# ---- the page


def difference_html(trial, panel, shrunk):
    """The first difference between the panels, at the top."""
    told = difference_words(trial, panel)
    if trial.first is None and not trial.panel_fault and not trial.extra:
        return '<section class="difference none"><h2>✓ %s</h2></section>' % shown(told[0])
    out = ["<section class=difference><h2>✗ %s</h2>" % shown(told[0])]
    out += ["<p>%s</p>" % shown(line) for line in told[1:]]
    if trial.first is not None:
        step, own, other = trial.first
        line = trial.items[step.at].line
        out.append('<p><a href="#line-%d">To line %d</a></p>' % (line, line))
        out.append("<div class=pair>%s%s</div>" % (answer_block("The proved replay", own), answer_block(panel, other, own)))
    if shrunk:
        out.append("<details open><summary>The smallest sheet that still shows it: %s, %s</summary><pre>%s</pre></details>" % (
            counted(shrunk.commands, "command"), counted(shrunk.operations, "operation"), shown(shrunk.sheet)))
        out.append("<details><summary>The same as a replay script</summary><pre>%s</pre></details>" % shown(shrunk.script))
    return "".join(out) + "</section>"


def answer_block(name, answer, ours=None):
    """One side's answer; a list is held against ours."""
    records = records_of(answer)
    if records is None or ours and records_of(ours) is None:
        told = "<pre>%s</pre>" % shown("\n".join(line.replace("\t", " ") for line in answer) if answer else "no answer")
    else:
        told = record_list(against(records_of(ours) if ours else records, records), names=AGAINST_OURS)
    return "<div><p><b>%s</b></p>%s</div>" % (shown(name), told)


def legend():
    items = ['<li><span class="mark %s">%s %s</span></li>' % (mark, SIGNS[mark], mark) for mark in (ADDED, CHANGED, MOVED, REMOVED)]
    return "<ul class=legend aria-label=Signs>%s</ul>" % "".join(items)


def verdict(trial):
    good, words = verdict_words(trial)
    lines = dict.fromkeys(row.line for row, _ in trial.unmet())
    links = ", ".join('<a href="#line-%d">line %d</a>' % (line, line) for line in lines)
    return '<p class="verdict %s">%s %s %s</p>' % ("good" if good else "bad", "✓" if good else "✗", shown(words), links)


def columns_html(panel):
    names = ["Line", "Command and operations", "List before", "List after", "Answer and rule"]
    widths = ["", "31%", "20%", "20%", ""] if not panel else ["", "24%", "16%", "18%", "19%", ""]
    names += [panel] if panel else []
    cols = "".join("<col class=at>" if not at else '<col%s>' % (' style="width:%s"' % width if width else "") for at, width in enumerate(widths))
    return "<colgroup>%s</colgroup><thead><tr>%s</tr></thead>" % (
        cols, "".join("<th scope=col>%s</th>" % shown(name) for name in names))


def page(trial, name, rules, panel=None, shrunk=None):
    """The whole page as text."""
    columns = 6 if panel else 5
    body = "".join(row_html(row, rules, panel) for row in trial.rows) + notes_html(trial.last_notes, columns)
    head = (
        "<!DOCTYPE html>\n<html lang=en><head><meta charset=utf-8>"
        '<meta name=viewport content="width=device-width, initial-scale=1">'
        "<meta http-equiv=Content-Security-Policy content=\"default-src 'none'; style-src 'unsafe-inline'\">"
        "<title>%s: sheet</title><style>\n%s</style></head>" % (shown(name), STYLE.read_text(encoding="utf-8"))
    )
    top = "<a class=skip href=#rows>Skip to the rows</a><header><h1>%s</h1>%s%s</header>" % (shown(name), verdict(trial), legend())
    middle = difference_html(trial, panel, shrunk) if panel else ""
    return "%s<body>%s%s<main id=rows tabindex=-1><table>%s<tbody>%s</tbody></table></main></body></html>\n" % (
        head, top, middle, columns_html(panel), body)

