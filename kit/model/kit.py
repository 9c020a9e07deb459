"""What the case files are written with: a case, its script, and the answers that its author expects by hand.

An expected answer is written with spaces for tabs, or as bytes, which stand as they are.
"""

from collections import namedtuple
from io import BytesIO

import build
from canonical import encode_set
from patch import operations_of
from replay import replay

Case = namedtuple("Case", "name rule definition script answers by_hand paper")

CASES = {}

# where the rules of the cases that follow stand, and the paper that their answers were written from
_source = []


def rules_of(section, answers="01"):
    """The cases that follow show rules of this section of 01, or of another paper if it is named."""
    _source[:] = [section if " in " in section else "01, '%s'" % section, answers]


def _bytes(lines):
    return b"".join(text if isinstance(text, bytes) else text.encode("utf-8") + b"\n" for text in lines)


def _answers(lines):
    return b"".join(text + b"\n" if isinstance(text, bytes) else text.replace(" ", "\t").encode() + b"\n" for text in lines)


def _add(name, rule, definition, lines, answers):
    """The comments come first in the script."""
    assert name not in CASES, name
    script = _bytes(["# %s" % name, "# Rule: %s: %s" % (_source[0], rule), "# Definition: %s" % definition] + list(lines))
    if answers is None:
        CASES[name] = Case(name, rule, definition, script, answered(script), False, _source[1])
    else:
        CASES[name] = Case(name, rule, definition, script, _answers(answers), True, _source[1])


def case(name, rule, definition, lines, answers):
    """A case whose answers were written by hand."""
    _add(name, rule, definition, lines, answers)


def random_case(name, rule, definition, lines):
    """A case whose answers are the model's; its author tests what they must show."""
    _add(name, rule, definition, lines, None)
    return CASES[name].answers


def answered(script):
    """What the model answers."""
    out = BytesIO()
    replay(BytesIO(script), out)
    return out.getvalue()


def shown(content):
    """A text as the answers print it: escaped, by 02, Job 2."""
    return content.replace(b"\\", b"\\\\").replace(b"\t", b"\\t").replace(b"\n", b"\\n").replace(b"\r", b"\\r")


# ---- lines of a script


def batch(sequence, patches, session=7, count=None, stimulus=10, references=None, data=None, edition=1):
    """A batch line; what is left out is true."""
    data = encode_set(patches, edition) if data is None else data
    count = len(patches) if count is None else count
    references = len(operations_of(patches)) if references is None else references
    return "batch %d %d %d %d %d %s" % (session, sequence, count, stimulus, references, data.hex() or "-")


def check(patches, edition=1):
    return "check " + build.hex_of(patches, edition)


def listed(patches, edition=1):
    return "list " + build.hex_of(patches, edition)


def set_up(stimulus=100, diagnostics=10, patches=8, references=64, nodes=(5,), bindings=((5, 0), (5, 1)), collections=(9,)):
    """Session 7 with its limits and anchors, created."""
    lines = ["session 7 %d %d %d %d" % (stimulus, diagnostics, patches, references)]
    lines += ["node %d" % node for node in nodes]
    lines += ["binding %d %d" % pair for pair in bindings]
    lines += ["collection %d" % collection for collection in collections]
    return lines + ["create"]


# ---- a panel to start from: 01's listing, sent with the sequence number 3

PANEL_SET = build.read_notation("""
patch
availability 5 3
insert 9 2 S -4
insert 9 1 before 2 T Ok
binding 5 0 Q 2
""")
PANEL = ["P 4", "B 5 0 Q 2", "A 5 3", "C 9 1 T Ok", "C 9 2 S -4"]


def started(**limits):
    """The session with the panel in it, and the cursor at 3."""
    return set_up(**limits) + [batch(3, PANEL_SET)]


STARTED = ["S 0", "R applied 0 0 0 0 3"]


def on_panel(name, rule, definition, lines, answers, panel=PANEL, **limits):
    """A case that begins with the panel and shows it at its end, unchanged if nothing else is said."""
    case(name, rule, definition, started(**limits) + list(lines) + ["show"], STARTED + list(answers) + list(panel))
