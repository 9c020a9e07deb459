"""Where a refused batch broke off, found by asking the proved program for its beginnings."""

from collections import namedtuple

from .canonical import operation_count
from .commands import BATCH, CHANGING, SILENT
from .parser import Carried, Command
from .programs import ask
from .reasons import place_in
from .script import command_line, item_line

# patch and operation are places from 0; findings are the lines of check
Break = namedtuple("Break", "number patch operation findings")

AT_AN_OPERATION = ("6", "8", "9")
IN_READING = ("10", "12")


def find_break(program, items, row):
    """What the program tells of a refused batch, or nothing where there is no more to ask."""
    command, carried, answer = row.item, row.item.carried, row.own.lines
    fields = answer[0].split("\t") if answer else []
    if fields[:2] != ["R", "rejected"]:
        return None
    number = fields[2]
    if number == "11":
        return Break(number, None, None, check(program, carried)[1:])
    if carried.data is not None or not carried.patches:
        return Break(number, None, None, [])
    place = place_in(row.reason, carried.patches) if row.reason else None
    return Break(number, *(place or asked_place(program, items, command, number, row.unread)), [])


def asked_place(program, items, command, number, unread):
    """Patch and operation at which the batch gets its number, by asking for its beginnings."""
    carried, count = command.carried, None
    size = operation_count(carried.patches)
    if number in AT_AN_OPERATION:
        prefix = prefix_of(items, command)
        count = first_refused(size, lambda kept: batch_number(program, prefix, beginning(command, kept)) == number)
    elif number in IN_READING and unread == number:
        count = first_refused(size, lambda kept: check(program, cut(carried, kept))[0] == "K\t" + number)
    return place_of(carried.patches, count)


def first_refused(size, refused):
    """The least count of operations whose beginning is refused so, while one operation less is not; None if there is none."""
    if not refused(size) or refused(0):
        return None
    passes, fails = 0, size
    while fails - passes > 1:
        middle = (passes + fails) // 2
        passes, fails = (passes, middle) if refused(middle) else (middle, fails)
    return fails


def place_of(patches, count):
    """Patch and operation, from 0, of the last of so many operations."""
    if count is None:
        return None, None
    for place, patch in enumerate(patches):
        if count <= len(patch.operations):
            return place, count - 1
        count -= len(patch.operations)
    return None, None


def cut(carried, size):
    """The set's beginning with so many operations; a patch that would have none is left out."""
    patches = []
    for patch in carried.patches:
        kept = patch.operations[:size]
        if not kept:
            break
        patches.append(patch._replace(operations=kept))
        size -= len(kept)
    return Carried(carried.edition, carried.told, patches)


def beginning(command, size):
    """The batch with the beginning of its set, its counts true."""
    carried = cut(command.carried, size)
    fields = dict(command.fields, patches=len(carried.patches), references=operation_count(carried.patches))
    return Command(command.line, command.name, {name: fields[name] for name in BATCH}, carried=carried)


def prefix_of(items, command):
    """What makes the session up to the command: the set-up lines up to its create, and its calls since."""
    lines = []
    for item in items:
        if item is command:
            break
        if item.name == "create":
            lines = [(name, line) for name, line in lines if name in SILENT]
        if item.name in SILENT + CHANGING:
            lines.append((item.name, item_line(item)))
    return b"".join(line for _, line in lines)


def batch_number(program, prefix, command):
    """The number that the program gives to this batch behind the prefix."""
    fields = ask(program, prefix + command_line(command) + b"\n")[-1][0].split("\t")
    return fields[2] if fields[:2] == ["R", "rejected"] else None


def check(program, carried):
    """What check says of a set."""
    data = (carried.to_bytes().hex() or "-").encode("ascii")
    return ask(program, b"edition %d\ncheck %s\n" % (carried.told, data))[-1]
