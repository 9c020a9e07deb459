"""A sheet's items as a replay script, the form that the kit has."""

from .commands import BATCH, FIELDS
from .notation import write_patches
from .parser import Plain

COMMENT = "#     "


def hex_field(data):
    return data.hex() or "-"


def member_field(member):
    """A batch of a group: its five numbers, its edition, its length."""
    numbers = [member.fields[name] for name in BATCH]
    return ",".join(map(str, numbers + [member.carried.told, len(member.carried.to_bytes())]))


def command_line(command):
    """The line of a command, without its LF."""
    words = [command.name]
    for name in FIELDS[command.name]:
        value = command.fields[name]
        words.append("-" if value is None else str(value))
    words += map(str, command.keys)
    words += map(member_field, command.members)
    if command.name == "group":
        words.append(hex_field(b"".join(member.carried.to_bytes() for member in command.members)))
    elif command.carried is not None:
        words.append(hex_field(command.carried.to_bytes()))
    elif command.terms is not None:
        words.append(hex_field(command.terms))
    return " ".join(words).encode("ascii")


def item_line(item):
    """The line of an item, with its LF if it has one."""
    if isinstance(item, Plain):
        return item.data + (b"\n" if item.ended else b"")
    return command_line(item) + b"\n"


def told_set(carried):
    """A set's patches as comments of a script."""
    return b"".join((COMMENT + line + "\n").encode("utf-8") for line in write_patches(carried.patches))


def told_item(item):
    """The comments that say what the item's set has."""
    return b"".join(told_set(holder.carried) for holder in (item, *item.members) if holder.carried is not None)


def script_of(items, comments=False):
    """The script's bytes; with comments, each set is told above its line."""
    return b"".join((told_item(item) if comments else b"") + item_line(item) for item in items)
