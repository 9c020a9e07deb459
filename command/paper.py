"""A collection of the panel that a set makes, on paper. The listing tells its entries; a session that has just these prints them, once `show` has told the same entries."""

from sheet.canonical import Operation, Patch, compose_set
from sheet.programs import ProgramFault

from .asking import ROOM_BYTES, Refused, hex_field, line, set_field

HALF = 64
PLAIN = {b"\\\\": b"\\", b"\\t": b"\t", b"\\n": b"\n", b"\\r": b"\r"}


def plain_text(field):
    """A text of a listing without its escapes."""
    out, at = b"", 0
    while at < len(field):
        size = 2 if field[at : at + 1] == b"\\" else 1
        part = field[at : at + size]
        out += PLAIN.get(part, part)
        at += size
    return out


def value_of(kind, field):
    kind = kind.decode("ascii")
    return (kind, plain_text(field) if kind == "T" else int(field))


def inserts(rows):
    return [Operation("insert", int(row[1]), int(row[2]), None, value_of(row[3], row[4])) for row in rows]


def batches(rows, edition):
    """Two patches at most, each a batch of its own: 128 long texts are more than a set holds."""
    halves = [half for half in (rows[:HALF], rows[HALF:]) if half]
    for number, half in enumerate(halves, 1):
        patch = Patch(number, 1, 1, None, number - 1, number, 1, number, inserts(half))
        yield line("batch", 1, number, 1, 0, len(half), hex_field(compose_set([patch], edition)))


def printed(panel, collection, data):
    """The lines of the collection, as bytes."""
    listed = panel.fields([line("list", set_field(data))])
    if listed[0][0] == b"E":
        raise Refused(int(listed[0][1]))
    rows = [row for row in listed if row[0] == b"C" and row[1] == str(collection).encode("ascii")]
    if not rows:
        return b""
    script = [line("session", 1, 0, 1, 1, 128), line("collection", collection), line("create"), *batches(rows, panel.edition)]
    shown = panel.fields(script + [line("show")])
    if shown[-len(rows) :] != rows or shown[-len(rows) - 1] != [b"P", str(len(rows)).encode("ascii")]:
        raise ProgramFault("the entries could not be put into a session as they are listed")
    before = panel.answers(script)
    answer = panel.answers(script + [line("print", collection, ROOM_BYTES)])[len(before) :]
    head, _, lines = answer.partition(b"\n")
    fields = head.split(b"\t")
    if fields[:1] != [b"O"]:
        raise ProgramFault("the replay program does not know the command print")
    if fields[1] != b"0":
        raise Refused(int(fields[1]))
    return lines
