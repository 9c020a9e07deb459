"""Words of one line of a sheet, each with its column, and the errors that name it."""

import re

from .canonical import LAST_U64

DECIMAL = re.compile("0|[1-9][0-9]*")
SIGNED = re.compile("0|-?[1-9][0-9]*")
HEX = re.compile("(?:[0-9a-f]{2})+")
ESCAPES = {"\\": "\\", "t": "\t", "n": "\n", "r": "\r"}


class SheetError(Exception):
    """One fault of a sheet: line and column from 1, and what was expected there."""

    def __init__(self, line, column, message):
        super().__init__("%d:%d: %s" % (line, column, message))
        self.line = line
        self.column = column
        self.message = message


class SheetErrors(Exception):
    """All faults of a sheet, in the order of its lines."""

    def __init__(self, faults):
        super().__init__("\n".join(map(str, faults)))
        self.faults = faults


class Words:
    """A line that is read word by word; words are parted by spaces."""

    def __init__(self, text, line, at=0):
        self.text = text
        self.line = line
        self.at = at

    def fault(self, expected, at=None):
        """The error that this was expected where the next word stands."""
        if at is None:
            self._skip()
            at = self.at
        found = self.text[at:].split(" ")[0]
        found = "found '%s'" % shortened(found) if found else "found the line's end"
        return SheetError(self.line, at + 1, "expected %s, %s" % (expected, found))

    def _skip(self):
        while self.text[self.at : self.at + 1] == " ":
            self.at += 1

    def peek(self):
        """The next word, or nothing at the line's end."""
        self._skip()
        return self.text[self.at :].split(" ")[0]

    def word(self, expected):
        word = self.peek()
        if not word:
            raise self.fault(expected)
        self.at += len(word)
        return word

    def number(self, expected, last=LAST_U64):
        """A decimal number without sign or leading zeros, up to the last one."""
        at, word = self._here(expected)
        return decimal(word, last, expected, lambda text: self.fault(text, at))

    def hex(self, expected="bytes in lower-case hex, or - for none"):
        at, word = self._here(expected)
        if word == "-":
            return b""
        if not HEX.fullmatch(word):
            raise self.fault(expected, at)
        return bytes.fromhex(word)

    def _here(self, expected):
        self.peek()
        return self.at, self.word(expected)

    def rest(self):
        """What follows the next space up to the line's end; its own spaces count."""
        start = self.at + 1
        self.at = len(self.text)
        return start, self.text[start:]

    def escaped_rest(self):
        """The rest with the four escapes of a listing undone."""
        start, text = self.rest()
        out, at = [], 0
        while at < len(text):
            if text[at] == "\\":
                at += 1
                if text[at : at + 1] not in ESCAPES:
                    raise self.fault("\\\\, \\t, \\n or \\r (a backslash is written twice)", start + at - 1)
                out.append(ESCAPES[text[at]])
            else:
                out.append(text[at])
            at += 1
        return "".join(out)

    def end(self):
        if self.peek():
            raise self.fault("the line's end")


def shortened(word, most=40):
    return word if len(word) <= most else word[: most - 1] + "…"


def decimal(word, last, expected, fault):
    """The number of a word; fault makes the error from what was expected."""
    if not DECIMAL.fullmatch(word):
        raise fault("%s (a decimal number without sign or leading zeros)" % expected)
    if int(word) > last:
        raise fault("%s (a number up to %d)" % (expected, last))
    return int(word)


def escaped(text):
    """A text as listings print it."""
    return text.replace("\\", "\\\\").replace("\t", "\\t").replace("\n", "\\n").replace("\r", "\\r")
