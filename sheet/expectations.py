"""What an author expects: an answer, the panel, a list, or that nothing changed; and whether it came so.

Only lines are compared. Every line compared is one that the program printed.
"""

from dataclasses import dataclass, field

from .canonical import LAST_U64
from .notation import read_value
from .words import decimal, escaped

RECORDS = ("B", "A", "C")


@dataclass
class Expectation:
    """One expect line, with the lines below it that are indented deeper."""

    line: int
    # answer, panel, list or unchanged
    kind: str
    # the answer's words; of a list the collection
    words: str = ""
    collection: int = None
    # further lines of the answer, records of the panel, or (key, printed value or None) of a list
    lines: list = field(default_factory=list)

    def add(self, words, column):
        """Takes a line below; an answer's own spaces begin at the column."""
        own = words.text[min(words.at, column) :]
        words.peek()
        if self.kind == "list":
            self.lines.append(_entry(words))
        elif self.kind == "unchanged":
            raise words.fault("nothing below expect unchanged")
        else:
            if self.kind == "panel" and words.peek() not in RECORDS:
                raise words.fault("a record as listings print it: B, A or C")
            self.lines.append(own if self.kind == "answer" else words.text[words.at :])

    def add_blank(self, text):
        """Takes a line of spaces, which an answer may have."""
        if self.kind == "answer":
            self.lines.append(text)
        return self.kind == "answer"

    # ---- comparing

    def met(self, outcome):
        """Whether this is what came: the answer's lines, and the panel's records before and after."""
        if self.kind == "unchanged":
            return outcome.before is not None and outcome.before == outcome.after
        if self.kind == "answer":
            return self._answer_met(outcome.lines)
        if outcome.after is None:
            return False
        if self.kind == "panel":
            records = outcome.after
            return len(records) == len(self.lines) and all(map(same_line, self.lines, records))
        return self._list_met(entries_of(outcome.after, self.collection))

    def _answer_met(self, lines):
        if not lines or not any(begins_alike(self.words, form) for form in (lines[0], _without_letter(lines[0]))):
            return False
        further = lines[1:]
        return not self.lines or len(self.lines) == len(further) and all(map(same_line, self.lines, further))

    def _list_met(self, entries):
        if len(entries) != len(self.lines):
            return False
        return all(
            key == entry[0] and (value is None or value == entry[1]) for (key, value), entry in zip(self.lines, entries)
        )

    # ---- telling

    def told(self):
        """The lines of the expectation in words for a reader."""
        if self.kind == "answer":
            return [self.words] + self.lines
        if self.kind == "unchanged":
            return ["the panel stays as it was"]
        if self.kind == "panel":
            return ["the panel:" if self.lines else "an empty panel"] + self.lines
        if all(value is None for _, value in self.lines):
            keys = ", ".join(str(key) for key, _ in self.lines)
            return ["list %d: %s" % (self.collection, keys or "none")]
        told = ["%d %s" % (key, value) if value else str(key) for key, value in self.lines]
        return ["list %d:" % self.collection] + told


    def came(self, outcome):
        """What came in place of what was expected, where it does not stand beside it."""
        if self.kind == "list" and outcome.after is not None:
            entries = entries_of(outcome.after, self.collection)
            keys = ", ".join(str(key) for key, _ in entries) or "none"
            wrong = [
                "%d %s" % entry for (key, value), entry in zip(self.lines, entries)
                if key == entry[0] and value is not None and value != entry[1]
            ]
            return ["came: list %d: %s" % (self.collection, keys)] + ["came: " + entry for entry in wrong]
        lines = outcome.after if self.kind == "panel" else outcome.lines[1:] if self.kind == "answer" and outcome.lines else None
        return _first_apart(self.lines, lines) if lines is not None and self.lines else []


def _first_apart(wanted, lines):
    """The first line that is another one."""
    for at in range(max(len(wanted), len(lines))):
        want = wanted[at] if at < len(wanted) else "nothing more"
        have = lines[at].replace("\t", " ") if at < len(lines) else "nothing more"
        if want != have:
            return ["in line %d expected: %s" % (at + 1, want), "came: " + have]
    return []


def entries_of(records, collection):
    """Key and printed value of each entry of a collection, from the lines of a panel."""
    fields = [record.split("\t", 3) for record in records]
    return [(int(key), value.replace("\t", " ", 1)) for letter, owner, key, value in
            (part for part in fields if part[0] == "C") if int(owner) == collection]


def begins_alike(words, line):
    """Whether the words are the line's first fields; a field is compared whole."""
    fields = line.split("\t")
    wanted = words.split(" ", len(fields) - 1)
    return all(want == have for want, have in zip(wanted, fields))


def same_line(words, line):
    """Whether the words are the whole line, spaces for tabs; how far they are indented is the author's, unless the line begins with spaces."""
    line = line.replace("\t", " ")
    return line in (words, words.lstrip(" "))


def _without_letter(line):
    return line.partition("\t")[2] or line


# ---- reading


def read_expectation(words):
    """The expectation of a line that begins with expect."""
    words.word("expect")
    kind = words.peek()
    at = words.at
    if not kind:
        raise words.fault("an answer, panel, list or unchanged")
    if kind in ("panel", "unchanged"):
        words.word(kind)
        words.end()
        return Expectation(words.line, kind)
    if kind == "list":
        words.word(kind)
        return _list(words)
    return Expectation(words.line, "answer", words.text[at:].replace("\t", " "))


def _list(words):
    """list N, and its entries below; or list N: and its keys, or none."""
    words.peek()
    at = words.at
    word = words.word("a collection")
    number = word[:-1] if word.endswith(":") else word
    collection = decimal(number, LAST_U64, "a collection", lambda text: words.fault(text, at))
    expected = Expectation(words.line, "list", collection=collection)
    if number != word and words.peek() == "none":
        words.word("none")
    elif number != word:
        while words.peek():
            expected.lines.append((words.number("a key, or none"), None))
    words.end()
    return expected


def _entry(words):
    key = words.number("a key")
    return key, printed(read_value(words)) if words.peek() else None


def printed(value):
    """A value as listings print it, with a space for the tab."""
    kind, content = value
    return "%s %s" % (kind, escaped(content.decode("utf-8", "surrogateescape")) if kind == "T" else content)
