"""The commands of a script: their fields in order, and which carry a set."""

from .canonical import LAST_U32, LAST_U64

# how much a set and a list of needs take at most: what is lent where the author names no room
SET_ROOM = 32768
NEEDS_ROOM = 16384
PRINT_ROOM = 131072
# a longer line is no command, whatever stands in it
LINE_BYTES = 131072

BATCH = ("id", "sequence", "patches", "bytes", "references")
IMPORT = ("room", "collection", "id", "stream", "document", "surface", "previous", "revision", "epoch", "sequence")

# the fields of each command, as kit/README.md names them
FIELDS = {
    "session": ("id", "bytes", "diagnostics", "patches", "references"),
    "node": ("node",),
    "binding": ("node", "slot"),
    "collection": ("collection",),
    "create": (),
    "apply": ("command", "bytes"),
    "batch": BATCH,
    "explain": BATCH,
    "check": (),
    "list": (),
    "show": (),
    "value binding": ("node", "slot"),
    "value node": ("node",),
    "value entry": ("collection", "key"),
    "mark binding": ("node", "slot"),
    "mark node": ("node",),
    "mark entry": ("collection", "key"),
    "edition": ("edition",),
    "convert": ("room",),
    "depends": ("room",),
    "import": IMPORT,
    "group": (),
    "length": ("collection",),
    "page": ("collection", "room"),
    "print": ("collection", "room"),
    "senders": ("senders",),
    "wait": ("sender",),
    "turn": (),
}

# fields that the tool fills in without looking at anything else
ROOMS = {"convert": SET_ROOM, "depends": NEEDS_ROOM, "import": SET_ROOM, "print": PRINT_ROOM}
LASTS = {"slot": LAST_U32}
LIFECYCLE = ("activate", "suspend", "resume", "close", "noop")
EDITIONS = ("1", "2")

WITH_SET = ("batch", "explain", "check", "list", "convert", "depends")
WITH_SUBJECT = ("value", "mark")
SUBJECTS = ("binding", "node", "entry")
# a call on the session, behind which the panel may be another
CHANGING = ("create", "apply", "batch", "group")
SILENT = ("session", "node", "binding", "collection", "edition")


def last_of(field):
    return LASTS.get(field, LAST_U64)
