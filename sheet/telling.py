"""Commands, operations and answers in words."""

from .canonical import operation_count
from .notation import AVAILABILITIES, QUADS
from .parser import Plain, decoded


def counted(number, one, many=None):
    return "%s %s" % (number, one if number == 1 else many or one + "s")


def state(byte):
    return "%s (%d)" % (AVAILABILITIES[byte], byte) if byte < len(AVAILABILITIES) else "the byte %d" % byte


def availability(field):
    """An availability as listings print it, with its name."""
    return state(int(field)) if field.isdigit() else field


def value_words(value):
    """What the value is; the content of a text apart, which may be long."""
    kind, content = value
    if kind == "T":
        try:
            return "", content.decode("utf-8")
        except UnicodeDecodeError:
            return "the text of the bytes %s" % content.hex(), None
    if kind == "Q":
        return "the quad %s" % (QUADS[content] if content < len(QUADS) else "of byte %d" % content), None
    return "%s %d" % ({"S": "the signed number", "U": "the number", "M": "the match score"}[kind], content), None


def operation_words(operation):
    """(what is done, the text if the operation has one)."""
    name, first, second, before, value = operation
    place = "to the end" if before is None else "before %d" % before
    if name == "binding":
        kind, content = value_words(value)
        return ("set binding %d, slot %d, to %s" % (first, second, kind)).rstrip(), content
    if name == "availability":
        return "set node %d to %s" % (first, state(second)), None
    if name == "remove":
        return "remove %d from collection %d" % (second, first), None
    if name == "move":
        return "move %d of collection %d %s" % (second, first, place), None
    kind, content = value_words(value)
    if name == "insert":
        place = "at the end" if before is None else place
        return ("insert %d into collection %d %s: %s" % (second, first, place, kind)).rstrip(), content
    return ("update %d of collection %d to %s" % (second, first, kind)).rstrip(), content


def patch_words(patch):
    words = "patch %d: sequence %d, revision %d to %d" % (patch.id, patch.sequence, patch.previous, patch.revision)
    parts = [("stream", patch.stream), ("document", patch.document), ("epoch", patch.epoch)]
    words += "".join(", %s %d" % (name, number) for name, number in parts if number != 1)
    return words if patch.surface is None else words + ", surface %d" % patch.surface


def set_words(carried):
    size = len(carried.to_bytes())
    if carried.data is not None:
        return "%s given in hex" % counted(size, "byte")
    patches, operations = len(carried.patches), operation_count(carried.patches)
    words = "%s, %s, %s" % (counted(patches, "patch", "patches"), counted(operations, "operation"), counted(size, "byte"))
    return words + " of edition 2" if carried.edition == 2 else words


def counts(fields):
    """Patches, bytes and references, as a batch declares or a session limits them."""
    return "%s, %s, %s" % (
        counted(fields["patches"], "patch", "patches"), counted(fields["bytes"], "byte"),
        counted(fields["references"], "reference"),
    )


def declared_words(command):
    return "declared: " + counts(command.fields)


SUBJECTS = {
    "binding": "binding {node}, slot {slot}", "node": "node {node}", "entry": "{key} of collection {collection}",
}
PLAIN = {
    "session": "session {id}: at most {bytes} bytes, {diagnostics} diagnostics, {patches} patches, {references} references a call",
    "node": "node {node} is an anchor",
    "binding": "binding {node}, slot {slot}, is an anchor",
    "collection": "collection {collection} is an anchor",
    "create": "create the session",
    "show": "show the panel",
    "edition": "edition {edition} is in force from here on",
    "length": "how long is collection {collection}?",
    "print": "print collection {collection} into {room} bytes",
    "senders": "turns among {senders} senders",
    "wait": "sender {sender} waits",
    "turn": "whose turn is it?",
}


def command_words(command):
    """A command in a line of words."""
    if isinstance(command, Plain):
        return "the line as it stands: " + decoded(command.data)
    name, fields = command.name, command.fields
    if name in PLAIN:
        return PLAIN[name].format(**fields)
    head, _, subject = name.partition(" ")
    if head == "value":
        return "look up " + SUBJECTS[subject].format(**fields)
    if head == "mark":
        return "who wrote %s?" % SUBJECTS[subject].format(**fields)
    if name == "apply":
        return "%s the session, %s" % (fields["command"], counted(fields["bytes"], "byte"))
    if name in ("batch", "explain"):
        return "%s %d to session %d" % (name, fields["sequence"], fields["id"])
    return _set_command(command)


def _set_command(command):
    name, fields = command.name, command.fields
    if name == "check":
        return "check a set"
    if name == "list":
        return "list a set on an empty panel"
    if name == "convert":
        return "convert a set to the other edition, into %s" % counted(fields["room"], "byte")
    if name == "depends":
        return "what does a set depend on? (room for %d)" % fields["room"]
    if name == "import":
        return "import a term list into collection %d as patch %d, into %s" % (
            fields["collection"], fields["id"], counted(fields["room"], "byte"))
    if name == "page":
        return "look up %s of collection %d: %s" % (
            counted(len(command.keys), "key"), fields["collection"], ", ".join(map(str, command.keys)))
    return "a group of %s, all or none" % counted(len(command.members), "batch", "batches")


# ---- answers


def answer_words(lines):
    """An answer's first line in words, as far as they say more than its fields."""
    letter, *fields = lines[0].split("\t")
    if letter == "R" and len(fields) == 6:
        return _call_words(fields[0], fields[1], fields[2], fields[3], fields[4]) + _cursor(fields[5])
    if letter == "L" and len(fields) == 8:
        return _call_words(*fields[:5]) + ", now " + fields[5] + _cursor(fields[6])
    if letter == "S":
        return "created" if fields == ["0"] else "no session"
    if letter == "K" and fields[:1] == ["0"] and len(fields) == 3:
        place = "in the set" if fields[1] == "set" else "in patch %s" % fields[1]
        return "the set reads; %s" % ("no findings" if fields[2] == "0" else "%s %s" % (_findings(fields[2]), place))
    if letter == "P" and fields:
        return "%s record%s" % (fields[0], "" if fields[0] == "1" else "s")
    if letter == "J" and len(fields) == 2:
        return "sender %s, whose batch gets number %s" % tuple(fields)
    if letter == "J" and fields == ["none"]:
        return "nobody waits"
    if letter == "X" and fields:
        return "no such row" if fields == ["-"] else "patch %s" % fields[0]
    if letter == "V" and fields:
        return "no such row" if fields == ["-"] else _value_words(fields)
    return ""


def _findings(number):
    return "1 finding" if number == "1" else number + " findings"


def _call_words(disposition, number, stage, logical, emitted):
    if disposition != "rejected":
        return disposition
    if number == "0":
        return "rejected, the number hidden (%s found, %s shown)" % (logical, emitted)
    words = "rejected: number %s in stage %s" % (number, stage)
    return words if (logical, emitted) == ("1", "1") else words + " (%s found, %s shown)" % (logical, emitted)


def _cursor(cursor):
    return ", no number taken yet" if cursor == "-" else ", cursor at %s" % cursor


def _value_words(fields):
    return availability(fields[1]) if fields[0] == "A" else ""
