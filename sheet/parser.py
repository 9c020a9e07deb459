"""Reads a sheet. docs/SHEET.md has its form; a sheet is a list of items, one for each line of the script to be."""

from dataclasses import dataclass, field

from .canonical import Patch, compose_set, operation_count
from .commands import (
    BATCH, EDITIONS, FIELDS, IMPORT, LIFECYCLE, ROOMS, SUBJECTS, WITH_SET, WITH_SUBJECT, last_of,
)
from .expectations import read_expectation
from .notation import OPERATIONS, Numbers, fill_patch, is_operation, read_operation, read_parts, read_patch
from .words import HEX, SheetError, SheetErrors, Words

NO_PATCH = Patch(0, 0, 0, None, 0, 0, 0, 0, None)
SET_LINES = "patch, an operation (%s), hex, edition, expect or #" % ", ".join(OPERATIONS)
# how much deeper the lines of an answer stand than their expect
DEEPER = 2


@dataclass
class Carried:
    """A set that a command carries: its patches, or bytes that are given as they are."""

    # the edition of its heading, and the one that the call is told
    edition: int
    told: int
    patches: list = field(default_factory=list)
    data: bytes = None

    def to_bytes(self):
        return compose_set(self.patches, self.edition) if self.data is None else self.data


@dataclass
class Command:
    """A command with its fields filled in, and what stands under it."""

    line: int
    name: str
    fields: dict
    # the fields that the author wrote
    given: tuple = ()
    keys: list = field(default_factory=list)
    carried: Carried = None
    # the batches of a group, and the lines of a term list
    members: list = field(default_factory=list)
    terms: bytes = None
    expects: list = field(default_factory=list)


@dataclass
class Plain:
    """A line that goes to the script as it is: a comment, an empty line, or one that is no command."""

    line: int
    data: bytes
    ended: bool = True
    raw: bool = False
    expects: list = field(default_factory=list)

    name = "raw"
    carried = None
    terms = None
    members = ()


def decoded(data):
    return data.decode("utf-8", "surrogateescape")


def parse(data):
    """The items of a sheet's bytes; SheetErrors with all faults of it."""
    parser = _Parser()
    for number, text in enumerate(decoded(data).split("\n"), 1):
        parser.take(number, text[:-1] if text.endswith("\r") else text)
    return parser.finished()


class _Parser:
    def __init__(self):
        self.items = []
        self.faults = []
        self.numbers = Numbers()
        self.edition = 1
        self.set_up = 0
        self.session = 0
        self.command = None
        # where operations go: a command, or a batch of a group
        self.holder = None
        self.expectation = None
        self.blanks = []
        # whether the last line without indentation was no command that could be read
        self.unknown = False

    def take(self, number, text):
        try:
            self._take(number, text)
        except SheetError as fault:
            self.faults.append(fault)

    def _take(self, number, text):
        if not text.strip(" "):
            if not self._blank_of_an_answer(text):
                self.blanks.append(Plain(number, b""))
            return
        indent = len(text) - len(text.lstrip(" "))
        if indent == 0:
            self._close()
            self.items += self.blanks
            self._top(number, text)
        else:
            self._under(indent, Words(text, number, indent))
        self.blanks = []

    def _blank_of_an_answer(self, text):
        """Whether a line of spaces is one that an answer is expected to have, as a print's."""
        if self.expectation is None or len(text) <= self.expectation[0] + DEEPER:
            return False
        return self.expectation[1].add_blank(text[self.expectation[0] + DEEPER :])

    def finished(self):
        self._close()
        # the line feed that ends the last line is no line
        self.items += self.blanks[:-1]
        if self.faults:
            raise SheetErrors(sorted(self.faults, key=lambda fault: (fault.line, fault.column)))
        for item in self.items[:-1]:
            if isinstance(item, Plain) and not item.ended:
                raise SheetErrors([SheetError(item.line, 1, "expected cut in the last line only")])
        return self.items

    # ---- lines without indentation

    def _top(self, number, text):
        self.command = self.holder = self.expectation = None
        self.unknown = False
        if text.startswith("\t"):
            raise SheetError(number, 1, "expected spaces, found a tab")
        if text.startswith("#"):
            self.items.append(Plain(number, text.encode("utf-8", "surrogateescape")))
            return
        words = Words(text, number)
        name = words.word("a command")
        if name in ("raw", "cut"):
            self.unknown = True
            self.command = self.holder = Plain(number, _raw_bytes(words), name == "raw", True)
            self.items.append(self.command)
            return
        # until its name is known
        self.unknown = True
        _utf8(words)
        self._command(number, name, words)

    def _command(self, number, name, words):
        if name in WITH_SUBJECT:
            if words.peek() not in SUBJECTS:
                raise words.fault("one of " + ", ".join(SUBJECTS))
            name += " " + words.word("a subject")
        if name not in FIELDS:
            raise words.fault("a command (%s), raw, cut, or # for a comment" % ", ".join(_names()), 0)
        command = Command(number, name, {})
        # what stands under a faulty line is read for its own faults
        self.command = self.holder = command
        if name in WITH_SET:
            command.carried = Carried(self.edition, self.edition)
        if name == "import":
            command.terms = b""
        self._fields(command, words)
        self.items.append(command)

    def _fields(self, command, words):
        """Fields by position, then by name; behind the last one a set in hex, or the keys of a page."""
        names = FIELDS[command.name]
        fields = {}
        for name in names:
            if not words.peek() or "=" in words.peek():
                break
            fields[name] = self._field(name, words)
        if command.name == "page":
            while words.peek():
                command.keys.append(words.number("a key"))
        elif len(fields) < len(names):
            fields.update(read_parts(words, [name for name in names if name not in fields], last_of))
        elif words.peek() and (command.carried is not None or command.terms is not None):
            self._give_hex(command, words.hex())
        words.end()
        command.fields, command.given = fields, tuple(fields)
        self._known(command, words)

    @staticmethod
    def _field(name, words):
        if name == "command":
            if words.peek() not in LIFECYCLE:
                raise words.fault("one of " + ", ".join(LIFECYCLE))
            return words.word("a lifecycle command")
        if name == "edition":
            if words.peek() not in EDITIONS:
                raise words.fault("an edition, 1 or 2")
            return int(words.word("an edition"))
        if name == "surface" and words.peek() == "-":
            words.word("a surface")
            return None
        return words.number(name, last_of(name))

    def _known(self, command, words):
        """What later lines rely on, and what is filled in at once."""
        name, fields = command.name, command.fields
        if name in ROOMS:
            fields.setdefault("room", ROOMS[name])
        if name == "apply":
            fields.setdefault("bytes", 0)
        if name in ("batch", "explain"):
            self._envelope(name, fields, words)
        if name == "import":
            self._import(fields, words)
        missing = [part for part in FIELDS[name] if part not in fields]
        if missing and name not in ("batch", "explain"):
            raise SheetError(command.line, len(words.text) + 1, "expected %s, found the line's end" % missing[0])
        self._follow(name, fields)

    def _follow(self, name, fields):
        if name == "session":
            self.set_up = fields["id"]
        elif name == "create":
            self.session = self.set_up
            self.numbers.restart()
        elif name == "edition":
            self.edition = fields["edition"]

    def _envelope(self, name, fields, words):
        """The session in use, and the number after the batch above."""
        fields.setdefault("id", self.session)
        if "sequence" not in fields:
            fields["sequence"] = self.numbers.after(self.numbers.batch, "sequence", words)
        if name == "batch":
            self.numbers.batch = fields["sequence"]

    def _import(self, fields, words):
        given = {name: fields[name] for name in IMPORT[2:] if name in fields}
        patch = fill_patch(given, self.numbers, words)
        self.numbers.take(patch)
        fields.update({name: getattr(patch, name) for name in IMPORT[2:]})

    def _give_hex(self, command, data):
        if command.terms is not None:
            command.terms = data
        else:
            command.carried.data = data

    # ---- indented lines

    def _under(self, indent, words):
        if not words.peek().startswith("#"):
            _utf8(words)
        if self.expectation is not None and indent > self.expectation[0]:
            self.expectation[1].add(words, self.expectation[0] + DEEPER)
            return
        self.expectation = None
        word = words.peek()
        if word.startswith("#"):
            return
        if "\t" in word:
            raise words.fault("spaces in front of a line, not a tab", indent)
        if self.command is None:
            if self.unknown:
                return
            raise words.fault("a command above a line that is indented", indent)
        if word == "expect":
            self.expectation = (indent, read_expectation(words))
            self.command.expects.append(self.expectation[1])
        elif self.command.name == "group" and word == "batch":
            self._member(words)
        elif self.command.terms is not None:
            self._term(words)
        elif self.holder.carried is None:
            raise words.fault("expect or # (%s carries no set)" % self.command.name)
        else:
            self._set_line(word, words)

    def _set_line(self, word, words):
        carried = self.holder.carried
        if word == "patch":
            self._no_hex(carried, words)
            words.word("patch")
            # operations below a faulty line have a patch all the same
            carried.patches.append(NO_PATCH._replace(operations=[]))
            carried.patches[-1] = read_patch(words, self.numbers)
        elif is_operation(word):
            self._no_hex(carried, words)
            if not carried.patches:
                raise words.fault("patch before the first operation")
            carried.patches[-1].operations.append(read_operation(words))
        elif word == "hex":
            if carried.patches or carried.data is not None:
                raise words.fault("no hex beside patches, and one hex")
            words.word("hex")
            carried.data = words.hex()
            words.end()
        elif word == "edition":
            words.word("edition")
            carried.edition = self._field("edition", words)
            words.end()
        else:
            raise words.fault(SET_LINES)

    @staticmethod
    def _no_hex(carried, words):
        if carried.data is not None:
            raise words.fault("no patches beside a set in hex")

    def _member(self, words):
        """A batch of a group."""
        words.word("batch")
        names = BATCH + ("edition",)
        member = Command(words.line, "batch", {}, carried=Carried(self.edition, self.edition))
        fields = read_parts(words, names, lambda name: 2 if name == "edition" else last_of(name))
        if "edition" in fields:
            member.carried.edition = member.carried.told = fields.pop("edition")
        member.fields, member.given = fields, tuple(fields)
        self._envelope("batch", fields, words)
        self.command.members.append(member)
        self.holder = member

    def _term(self, words):
        """term KEY TEXT: a line of a term list; line TEXT: any other line of it."""
        word = words.word("term, line, hex or expect")
        if word == "term":
            key = words.number("a key")
            self.command.terms += b"%d\t%s\n" % (key, words.escaped_rest().encode("utf-8"))
        elif word == "line":
            self.command.terms += words.escaped_rest().encode("utf-8") + b"\n"
        elif word == "hex":
            self.command.terms += words.hex()
            words.end()
        else:
            raise words.fault("term, line, hex or expect", words.text.index(word))

    # ---- a command is complete

    def _close(self):
        """Fills in the counts of the command above."""
        command = self.command
        if command is None:
            return
        for holder in [command, *command.members]:
            if holder.name in ("batch", "explain"):
                fill_counts(holder)


def fill_counts(command):
    """Counts that the author left out are those of the set."""
    patches, data = command.carried.patches, command.carried.to_bytes()
    true = {"patches": len(patches), "bytes": len(data), "references": operation_count(patches)}
    for name, count in true.items():
        if name not in command.given:
            command.fields[name] = count


def _utf8(words):
    try:
        words.text.encode("utf-8")
    except UnicodeEncodeError as fault:
        raise words.fault("UTF-8 (bytes of another kind are written as X and hex)", fault.start) from None


def _names():
    return sorted({name.split(" ")[0] for name in FIELDS})


def _raw_bytes(words):
    """The bytes of a line that is no command; \\xHH is a byte."""
    start, text = words.rest()
    out, at = b"", 0
    while at < len(text):
        if text[at] != "\\":
            out += text[at].encode("utf-8", "surrogateescape")
            at += 1
            continue
        code = text[at + 1 : at + 2]
        if code == "x" and HEX.fullmatch(text[at + 2 : at + 4]):
            out += bytes.fromhex(text[at + 2 : at + 4])
            at += 4
        elif code in ("\\", "t", "r"):
            out += {"\\": b"\\", "t": b"\t", "r": b"\r"}[code]
            at += 2
        else:
            raise words.fault("\\\\, \\t, \\r or \\x and two digits", start + at)
    return out
