"""A replay script turned back into a sheet: sets written out, and what does not read as a set left in hex."""

import re

from .canonical import LAST_U64, NotASet, read_layout
from .commands import (
    BATCH, EDITIONS, FIELDS, LIFECYCLE, LINE_BYTES, SILENT, SUBJECTS, WITH_SET, WITH_SUBJECT, last_of,
)
from .notation import write_patches
from .parser import decoded
from .words import DECIMAL, HEX, escaped

TERM = re.compile(rb"(0|[1-9][0-9]*)\t([^\t\n]*)\n")


def lines_of(script):
    """The lines with whether an LF ends them."""
    parts = script.split(b"\n")
    lines = [(part, True) for part in parts[:-1]]
    return lines + ([(parts[-1], False)] if parts[-1] else [])


class _NoCommand(Exception):
    """A line that is none of the commands that are known here."""


def number(word, last=LAST_U64):
    if not DECIMAL.fullmatch(word) or len(word) > len(str(last)) or int(word) > last:
        raise _NoCommand
    return int(word)


def hex_bytes(word):
    if word != "-" and not HEX.fullmatch(word):
        raise _NoCommand
    return b"" if word == "-" else bytes.fromhex(word)


class Unscripting:
    """Line by line; the edition in force is all that is kept."""

    def __init__(self):
        self.edition = 1

    def line(self, data, ended=True):
        """The sheet's lines for a line of a script."""
        if ended and self._stays(data):
            return [decoded(data)]
        if not ended:
            return [_spaced("cut", raw_words(data))]
        try:
            return self._command(data.decode("ascii"))
        except (_NoCommand, UnicodeDecodeError):
            return [_spaced("raw", raw_words(data))]

    @staticmethod
    def _stays(data):
        """Empty lines and comments; a carriage return at the end would be taken for a part of the line's end."""
        return data == b"" or _is_comment(data) and not data.endswith(b"\r")

    def _command(self, text):
        name, *words = text.split(" ")
        if name in WITH_SUBJECT:
            if not words or words[0] not in SUBJECTS:
                raise _NoCommand
            name += " " + words.pop(0)
        if name == "group":
            return self._group(words)
        if name not in FIELDS:
            raise _NoCommand
        names = FIELDS[name]
        carries = name in WITH_SET or name == "import"
        count = len(names) + carries
        if len(words) < count or name != "page" and len(words) > count:
            raise _NoCommand
        for part, word in zip(names, words):
            self._field(part, word)
        if name == "edition":
            self.edition = int(words[0])
        if name == "page":
            [number(word) for word in words[2:]]
        if not carries:
            return [text]
        return self._carrying(name, words[:-1], hex_bytes(words[-1]))

    @staticmethod
    def _field(part, word):
        """Whether the word can stand in this field."""
        if part == "command":
            allowed = word in LIFECYCLE
        elif part == "edition":
            allowed = word in EDITIONS
        else:
            allowed = word == "-" if part == "surface" and word == "-" else number(word, last_of(part)) is not None
        if not allowed:
            raise _NoCommand

    def _carrying(self, name, words, data):
        named = ["%s=%s" % pair for pair in zip(FIELDS[name], words)]
        if name == "import":
            return [" ".join([name] + named)] + self._terms(data)
        head = " ".join([name] + (named if name in ("batch", "explain") else words))
        return [head] + self.set_lines(data, "  ")

    def set_lines(self, data, indent):
        """A set's patches and operations; hex with a remark where the bytes are laid out otherwise."""
        try:
            edition, patches = read_layout(data)
        except NotASet as fault:
            remark = ["does not read as a set: %s" % fault] + (["up to there:"] if fault.patches else [])
            remark += ["  " + line for line in write_patches(fault.patches)]
            return ["%s# %s" % (indent, line) for line in remark] + ["%shex %s" % (indent, data.hex() or "-")]
        lines = [] if edition == self.edition else ["edition %d" % edition]
        return [indent + line for line in lines + write_patches(patches)]

    @staticmethod
    def _terms(data):
        """A term list's lines, or hex where they have another form."""
        lines, at = [], 0
        while at < len(data):
            found = TERM.match(data, at)
            try:
                key, text = number(found[1].decode("ascii")), found[2].decode("utf-8")
            except (TypeError, UnicodeDecodeError, _NoCommand):
                return ["  # does not read as a term list: at byte %d" % at, "  hex " + data.hex()]
            lines.append(_spaced("  term %d" % key, escaped(text)))
            at = found.end()
        return lines

    def _group(self, words):
        """The batches of a group, where their lengths add up."""
        if not words:
            raise _NoCommand
        data, at, lines = hex_bytes(words[-1]), 0, ["group"]
        in_force = self.edition
        for word in words[:-1]:
            numbers = [number(part) for part in word.split(",")]
            if len(numbers) != len(BATCH) + 2 or numbers[5] not in (1, 2):
                raise _NoCommand
            named = ["%s=%d" % pair for pair in zip(BATCH + ("edition",), numbers)]
            lines.append("  " + " ".join(["batch"] + named))
            self.edition = numbers[5]
            lines += self.set_lines(data[at : at + numbers[6]], "    ")
            self.edition = in_force
            at += numbers[6]
        if at != len(data):
            raise _NoCommand
        return lines


def _spaced(word, rest):
    return "%s %s" % (word, rest) if rest else word


def raw_words(data):
    """Bytes of any line, so that a sheet has them in one line."""
    out = []
    for character in decoded(data):
        code = ord(character)
        if character in "\\\t\r":
            out.append({"\\": "\\\\", "\t": "\\t", "\r": "\\r"}[character])
        elif code < 32 or code == 127:
            out.append("\\x%02x" % code)
        elif 0xDC80 <= code <= 0xDCFF:
            out.append("\\x%02x" % (code - 0xDC00))
        else:
            out.append(character)
    return "".join(out)


def unscript(script, answers=None):
    """The sheet of a script; with answers, each command's is written under it as the author's expectation."""
    state, out = Unscripting(), []
    groups = iter(answers or [])
    for data, ended in lines_of(script):
        lines = state.line(data, ended)
        out += lines
        if answers is not None and not (ended and _silent(data, lines[0])):
            out += expected(next(groups, []))
    return "".join(line + "\n" for line in out).encode("utf-8", "surrogateescape")


def _silent(data, line):
    """Whether nothing is answered to the script's line, which is this one in the sheet."""
    return data == b"" or _is_comment(data) or line.split(" ")[0] in SILENT


def _is_comment(data):
    return data.startswith(b"#") and len(data) <= LINE_BYTES


def expected(answer):
    """An answer's lines as an expectation."""
    told = [line.replace("\t", " ") for line in answer]
    return ["  expect " + told[0]] + ["    " + line for line in told[1:]] if told else []


def commented(script):
    """The script with each set told in comments above its line; bytes that are no set by their remark alone."""
    state, out = Unscripting(), b""
    for data, ended in lines_of(script):
        head, *lines = state.line(data, ended)
        if not lines and ended and head.split(" ")[0] in WITH_SET:
            lines = ["  a set without patches"]
        for line in lines:
            line = line[2:]
            if not line.startswith("hex "):
                told = line[2:] if line.startswith("# ") else line
                out += ("#     " + told + "\n").encode("utf-8", "surrogateescape")
        out += data + (b"\n" if ended else b"")
    return out
