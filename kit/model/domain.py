"""Whether the Rust decides every answer of a script: 01's domain, with the capacities that the Rust does not have."""

from canonical import Fault, read_set
from checks import findings
from projection import Stopped, apply_patches
from replay import LINE_BYTES, BadLine, Replay, set_bytes

NO_COMMAND = "a line that is no command"
# commands that the Rust has no counterpart of
ADDED = {
    b"senders": "turns among senders", b"wait": "turns among senders", b"turn": "turns among senders",
    b"edition": "the second edition", b"convert": "the second edition", b"mark": "marks",
    b"length": "stored lengths", b"depends": "what a set depends on", b"page": "pages of keys", b"print": "the print",
    b"import": "term lists", b"group": "groups of batches", b"explain": "the rule behind an answer",
}


def _ids(patch):
    """Every number of a patch that a constructor of the Rust refuses where it is 0."""
    yield from (patch.id, patch.stream, patch.document)
    if patch.surface is not None:
        yield patch.surface
    for operation in patch.operations:
        if operation.number in (1, 2):
            yield operation.node
        else:
            yield from (operation.collection, operation.key)
            before = getattr(operation, "before", None)
            if before is not None:
                yield before


def _set_outside(data, with_checks):
    try:
        patches = read_set(data, 1)
    except Fault:
        return "bytes that do not read"
    if any(number == 0 for patch in patches for number in _ids(patch)):
        return "an id of 0"
    if with_checks and findings(patches)[1]:
        return "a batch or listing with findings"
    return None


def _line_outside(fields):
    """Why the line is outside the domain, or None."""
    command = fields[0]
    if command in (b"node", b"binding", b"collection") and fields[1] == b"0":
        return "an id of 0"
    if command == b"value" and (fields[2] == b"0" or fields[1] == b"entry" and fields[3] == b"0"):
        return "an id of 0"
    if command in (b"check", b"list", b"batch"):
        return _set_outside(set_bytes(fields[-1]), command != b"check")
    return None


def split_script(script):
    """The part of a script up to its first line that the Rust does not decide, and why that line is outside; else None."""
    state = Replay()
    inside = b""
    for text in script.split(b"\n")[:-1]:
        why = _answer_outside(state, text)
        if why:
            return inside, why
        inside += text + b"\n"
    return inside, None if inside == script else NO_COMMAND


def _answer_outside(state, text):
    """Answers the line; why it is outside the domain, or None."""
    if len(text) > LINE_BYTES:
        return NO_COMMAND
    try:
        answer = state.answer(text)
    except BadLine:
        return NO_COMMAND
    if text.split(b" ")[0] in ADDED:
        return ADDED[text.split(b" ")[0]]
    if answer == b"N\n":
        return "a call without a session"
    if answer == b"S\t13\n":
        return "129 anchors"
    why = _line_outside(text.split(b" "))
    if why is None and (answer == b"E\t9\n" or b"\trejected\t9\t" in answer or _hides_9(state, text, answer)):
        return "a full panel"
    return why


def _hides_9(state, text, answer):
    """Whether a batch under a cap of 0 may have met a full panel."""
    if not (text.startswith(b"batch ") and b"\trejected\t0\t" in answer):
        return False
    try:
        apply_patches(state.session.projection, read_set(set_bytes(text.split(b" ")[-1]), 1))
    except Stopped as stopped:
        return stopped.number == 9
    return False


def outside(script):
    """Why the script is outside the domain, or None where the Rust decides it all."""
    return split_script(script)[1]
